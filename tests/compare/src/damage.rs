//! Faults put into settings, contents and messages with knowledge of the
//! format. A fault need not make the input malformed: some lie just inside.

use crate::generate;
use crate::random::Random;
use crate::records::chain;
use reference::mask;
use reference::message::{Contents, Form, Triple, CUT, HOLDER, MEMBERS, RUN, TERMINATION};
use reference::settings::Settings;

/// Damages words of good settings.
pub fn settings(random: &mut Random, words: &mut Vec<u32>) {
    let (nodes, sets, shards) = (words[0], words[1], words[3]);
    let set = 4 + random.below(nodes as usize);
    let shard = 4 + nodes as usize + random.below(shards as usize);
    match random.between(0, 13) {
        0 => words[0] = random.pick(&[0, 33, 64, nodes - 1, nodes + 1, u32::MAX]),
        1 => words[1] = random.pick(&[0, 17, 256, u32::MAX]),
        2 => words[2] = random.pick(&[0, nodes + 1, nodes, u32::MAX]),
        3 => words[3] = random.pick(&[0, 17, shards + 1, shards - 1, u32::MAX]),
        4 => words[set] = random.pick(&[sets, sets + 1, 256, u32::MAX]),
        5 => words[shard] = words[shard] / 256 * 256 + random.pick(&[0, sets + 1, 255]),
        6 => words[shard] += 256 * random.pick(&[4, 8, 256, 65536]),
        12 | 13 => cap(random, &mut words[shard]),
        7 => words.truncate(random.below(words.len())),
        8 => words.extend(vec![random.pick(&[0, 1]); random.pick(&[1, 2, 4])]),
        9 => words[random.pick(&[0, 1, 2, 3, set, shard])] = random.word(),
        10 => words.clear(),
        _ => {
            let at = random.below(words.len());
            words.remove(at);
        }
    }
}

/// Makes the cap of a shard's word another one: below m or above 16, or just
/// inside.
fn cap(random: &mut Random, word: &mut u32) {
    let need = *word % 256;
    let below = random.between(0, need - 1);
    let choices = [
        need - 1,
        below,
        need,
        16,
        17,
        17,
        18,
        255,
        256 + need,
        65535,
    ];
    *word = random.pick(&choices) * 65536 + *word % 65536;
}

/// Damages contents.
pub fn contents(random: &mut Random, form: Form, settings: &Settings, contents: &mut Contents) {
    match random.between(0, 25) {
        0 => head_node(random, settings, contents),
        1 => head_view(random, contents),
        2 => head_members(random, settings, contents),
        3 | 4 => kind(random, contents),
        5 => shard(random, settings, contents),
        6 => swap(random, contents),
        7 => repeat(random, contents),
        8 | 9 => remove(random, contents),
        10 => surplus(random, settings, contents),
        11 => word_2(random, contents),
        12..=15 => shard_mask(random, settings, contents),
        16 | 17 => position(random, form, contents),
        18 | 19 => run(random, contents),
        20 => holder(random, settings, contents),
        21..=24 => record(random, form, settings, contents),
        _ => any_word(random, contents),
    }
}

/// Damages a record so that numbers 9, 16 or 17 tell of it.
pub fn record(random: &mut Random, form: Form, settings: &Settings, contents: &mut Contents) {
    match random.between(0, 10) {
        0 => kind(random, contents),
        1 => word_2(random, contents),
        2 | 3 => outside(random, settings, contents),
        4 => swap(random, contents),
        5 => repeat(random, contents),
        6 => surplus(random, settings, contents),
        7 | 8 if form == Form::Order => early(random, contents),
        9 => cut_short(random, contents),
        _ => remove(random, contents),
    }
}

/// Damages the head.
pub fn head(random: &mut Random, settings: &Settings, contents: &mut Contents) {
    match random.between(0, 2) {
        0 => head_node(random, settings, contents),
        1 => head_view(random, contents),
        _ => head_members(random, settings, contents),
    }
}

/// Damages a position or a run.
pub fn place(random: &mut Random, form: Form, contents: &mut Contents) {
    if random.chance(50) {
        position(random, form, contents);
    } else {
        run(random, contents);
    }
}

fn head_node(random: &mut Random, settings: &Settings, contents: &mut Contents) {
    let nodes = settings.nodes;
    contents.node = random.pick(&[nodes, nodes, nodes + 1, 32, u32::MAX, nodes - 1, 0]);
}

fn head_view(random: &mut Random, contents: &mut Contents) {
    let any = random.word();
    contents.view = random.pick(&[0, 0, 1, 2, u32::MAX, u32::MAX - 1, any]);
}

fn head_members(random: &mut Random, settings: &Settings, contents: &mut Contents) {
    let node = 1u32.checked_shl(contents.node).unwrap_or(0);
    match random.between(0, 4) {
        0 => contents.members ^= node,
        1 => contents.members ^= 1 << random.between(0, 31),
        2 => contents.members |= 1 << settings.nodes.min(31),
        3 => contents.members = random.pick(&[0, u32::MAX]),
        _ => contents.members = random.word(),
    }
}

/// An index of some record, if there are any.
fn some_index(random: &mut Random, contents: &Contents) -> Option<usize> {
    let length = contents.records.len();
    (length > 0).then(|| random.below(length))
}

/// A record of one of these kinds, if there are any.
fn some_of<'a>(
    random: &mut Random,
    contents: &'a mut Contents,
    kinds: &[u32],
) -> Option<&'a mut Triple> {
    let of_kind = |&index: &usize| kinds.contains(&contents.records[index].kind());
    let indexes: Vec<usize> = (0..contents.records.len()).filter(of_kind).collect();
    if indexes.is_empty() {
        return None;
    }
    let index = random.pick(&indexes);
    Some(&mut contents.records[index])
}

fn kind(random: &mut Random, contents: &mut Contents) {
    if let Some(index) = some_index(random, contents) {
        let record = &mut contents.records[index];
        let other = random.pick(&[0, 1, 2, 3, 4, 5, 6, 9, 255, 257, 259, 0xFF_FFFF]);
        record.word0 = other * 256 + record.shard();
    }
}

fn shard(random: &mut Random, settings: &Settings, contents: &mut Contents) {
    if let Some(index) = some_index(random, contents) {
        let record = &mut contents.records[index];
        let any = random.between(0, settings.shards);
        let other = random.pick(&[settings.shards, 255, settings.shards - 1, any]);
        record.word0 = record.kind() * 256 + other;
    }
}

/// A shard from S up.
fn outside(random: &mut Random, settings: &Settings, contents: &mut Contents) {
    if let Some(index) = some_index(random, contents) {
        let record = &mut contents.records[index];
        let next = settings.shards;
        record.word0 = record.kind() * 256 + random.pick(&[next, next, next + 1, 16, 255]);
    }
}

/// A holder or a cut before the masks, all of them or some.
fn early(random: &mut Random, contents: &mut Contents) {
    let carried = |record: &Triple| matches!(record.kind(), HOLDER | CUT);
    let masks = contents.of_kind(MEMBERS).len().max(1);
    if let Some(from) = contents.records.iter().position(carried) {
        let moved = contents
            .records
            .remove(random.pick(&[from, contents.records.len() - 1]));
        let between = random.below(masks);
        let place = random.pick(&[0, between, between]);
        contents.records.insert(place, moved);
    }
}

/// The chain ends too early, now and then at the head.
fn cut_short(random: &mut Random, contents: &mut Contents) {
    let length = random.below(contents.records.len() + 1);
    contents.records.truncate(random.pick(&[0, length, length]));
}

fn swap(random: &mut Random, contents: &mut Contents) {
    if let (Some(a), Some(b)) = (some_index(random, contents), some_index(random, contents)) {
        let near = (a + 1).min(contents.records.len() - 1);
        contents
            .records
            .swap(a, if random.chance(60) { near } else { b });
    }
}

fn repeat(random: &mut Random, contents: &mut Contents) {
    if let Some(index) = some_index(random, contents) {
        let mut record = contents.records[index];
        if random.chance(50) {
            record.word2 = record.word2.wrapping_add(1);
        }
        contents.records.insert(index + 1, record);
    }
}

/// Leaves out one record, the last of a kind, or a whole kind.
fn remove(random: &mut Random, contents: &mut Contents) {
    let kind = random.between(1, 5);
    match random.between(0, 3) {
        0 => contents.records.retain(|record| record.kind() != kind),
        1 => {
            let last = contents.records.iter().rposition(|r| r.kind() == kind);
            last.map(|index| contents.records.remove(index));
        }
        _ => {
            let index = some_index(random, contents);
            index.map(|index| contents.records.remove(index));
        }
    }
}

/// Adds a record of any kind where the order wants it, or anywhere.
fn surplus(random: &mut Random, settings: &Settings, contents: &mut Contents) {
    let shard = random.between(0, settings.shards - 1);
    let (view, k) = generate::position(random, contents.view.max(2) - 1);
    let record = match random.between(1, 5) {
        MEMBERS => Triple::new(MEMBERS, shard, contents.members, 0),
        HOLDER => Triple::new(HOLDER, shard, contents.node, 0),
        kind => Triple::new(kind, shard, view, k),
    };
    let sorted = contents.records.partition_point(|other| {
        (other.word0, other.word1 * u32::from(other.kind() == RUN)) < (record.word0, view)
    });
    let anywhere = random.below(contents.records.len() + 1);
    let index = if random.chance(80) { sorted } else { anywhere };
    contents.records.insert(index, record);
}

fn word_2(random: &mut Random, contents: &mut Contents) {
    let value = random.pick(&[1, 256, u32::MAX]);
    if let Some(record) = some_of(random, contents, &[MEMBERS, HOLDER]) {
        record.word2 = value;
    }
}

/// Damages the members mask of a shard.
pub fn shard_mask(random: &mut Random, settings: &Settings, contents: &mut Contents) {
    let (members, node) = (contents.members, contents.node.min(31));
    let other = random.between(0, settings.shards - 1);
    let others = contents.shard_mask(other);
    let (bit, any) = (random.between(0, 31), random.word());
    let choice = random.between(0, 8);
    let Some(record) = some_of(random, contents, &[MEMBERS]) else {
        return;
    };
    match choice {
        0 => record.word1 = 0,
        1 => record.word1 |= 1 << bit,
        2 => record.word1 |= 1 << settings.nodes.min(31),
        3 => record.word1 |= others,
        4 => record.word1 |= others & others.wrapping_neg(),
        5 => record.word1 ^= 1 << node,
        6 => record.word1 = members,
        7 => record.word1 = !members,
        _ => record.word1 = any,
    }
}

fn position(random: &mut Random, form: Form, contents: &mut Contents) {
    let last = match form {
        Form::Report => contents.view,
        Form::Order => contents.view.wrapping_sub(1),
    };
    let after = last.wrapping_add(1);
    let (view, k) = random.pick(&[
        (0, 3),
        (3, 0),
        (0, 0),
        (last, 0),
        (last, 1),
        (after, 1),
        (after, 0),
        (u32::MAX, u32::MAX),
        (0, u32::MAX),
        (1, 1),
    ]);
    if let Some(record) = some_of(random, contents, &[TERMINATION, CUT]) {
        record.word1 = view;
        record.word2 = k;
    }
}

fn run(random: &mut Random, contents: &mut Contents) {
    let view = contents.view;
    let runs: Vec<usize> = (0..contents.records.len())
        .filter(|&index| contents.records[index].kind() == RUN)
        .collect();
    if runs.is_empty() {
        return;
    }
    let index = random.pick(&runs);
    let before = contents.records[index.saturating_sub(1)].word1;
    let record = &mut contents.records[index];
    match random.between(0, 6) {
        0 => record.word1 = 0,
        1 => record.word2 = 0,
        2 => record.word1 = view.wrapping_add(1),
        3 => record.word1 = before,
        4 => record.word1 = before.wrapping_sub(1),
        5 => record.word2 = u32::MAX,
        _ => (record.word1, record.word2) = (0, 0),
    }
}

fn holder(random: &mut Random, settings: &Settings, contents: &mut Contents) {
    let absent = mask::nodes(!contents.members);
    let outside = absent.first().copied().unwrap_or(32);
    let last = absent.last().copied().unwrap_or(32);
    let holder = random.pick(&[32, 33, 64, settings.nodes, outside, last, u32::MAX, 31]);
    if let Some(record) = some_of(random, contents, &[HOLDER]) {
        record.word1 = holder;
    }
}

fn any_word(random: &mut Random, contents: &mut Contents) {
    let value = random.word();
    if let Some(index) = some_index(random, contents) {
        let record = &mut contents.records[index];
        match random.between(0, 2) {
            0 => record.word0 = value,
            1 => record.word1 = value,
            _ => record.word2 = value,
        }
    }
}

/// Damages the next index of a record, on the chain or off it.
pub fn next_index(random: &mut Random, words: &mut [u32]) {
    let records = words.len() / 4;
    if records == 0 {
        return;
    }
    let chain = chain(words);
    let index = if random.chance(80) {
        random.pick(&chain)
    } else {
        random.below(records)
    };
    let (own, count) = (index as u32, records as u32);
    let inside = random.below(records) as u32;
    let choices = [
        own,
        own.wrapping_sub(1),
        count,
        count + 1,
        u32::MAX,
        0,
        inside,
        128,
        127,
    ];
    words[4 * index + 3] = random.pick(&choices);
}

/// Damages a word anywhere.
pub fn word(random: &mut Random, words: &mut [u32]) {
    if !words.is_empty() {
        let index = random.below(words.len());
        let any = random.word();
        words[index] = random.pick(&[0, 1, words[index] ^ 1, words[index] ^ (any & 256), any]);
    }
}

/// Changes the length in words.
pub fn length(random: &mut Random, words: &mut Vec<u32>) {
    let whole = words.len();
    let length = match random.between(0, 7) {
        0 => 0,
        1 => random.below(whole + 1),
        2 => whole.saturating_sub(random.pick(&[1, 2, 3, 4])),
        3 => whole + random.pick(&[1, 2, 3, 4]),
        4 => 512,
        5 => random.pick(&[508, 511, 513, 516, 1000]),
        6 => random.below(whole / 4 + 1) * 4,
        _ => whole + 4 * random.below(8),
    };
    words.resize(length, 0);
}

/// Changes the length in bytes to one that is no whole words.
pub fn part_word(random: &mut Random, bytes: &mut Vec<u8>) {
    let part = random.pick(&[1, 2, 3]);
    if random.chance(50) && bytes.len() > 4 {
        bytes.truncate(bytes.len() - part);
    } else {
        bytes.resize(bytes.len() + part, 0);
    }
}
