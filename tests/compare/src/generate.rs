//! Settings and valid messages of all shapes.

use crate::random::Random;
use reference::mask;
use reference::message::{
    Contents, Form, Triple, CUT, HOLDER, MEMBERS, MOST_RECORDS, RUN, TERMINATION,
};
use reference::settings::{self, Settings};
use std::collections::BTreeSet;

/// The words of good settings, under which valid messages exist: no subgroup
/// has more shards than there are nodes.
pub fn settings_words(random: &mut Random) -> Vec<u32> {
    let nodes = match random.between(0, 9) {
        0..=3 => 32,
        4 => 31,
        5 => 1,
        6 => random.between(1, 4),
        _ => random.between(1, 32),
    };
    let sets = random.number(16);
    let most_shards = 16.min(4 * nodes);
    let shards = match random.between(0, 3) {
        0 => most_shards,
        1 => random.between(1, most_shards.min(3)),
        _ => random.between(1, most_shards),
    };
    let mut words = vec![nodes, sets, random.between(1, nodes), shards];
    words.extend((0..nodes).map(|_| random.between(0, sets - 1)));
    for subgroup in subgroups(random, nodes, shards) {
        words.push(subgroup * 256 + random.number(sets));
    }
    let wide = random.chance(WIDE);
    put_caps(random, wide, &mut words);
    words
}

/// In so many of a hundred settings shards are to have caps above m.
pub const WIDE: u32 = 60;

/// Gives the shards of good settings, which have none, their caps: 0 or m, and
/// in wide settings mostly above m, which may be above N.
pub fn put_caps(random: &mut Random, wide: bool, words: &mut [u32]) {
    let first_shard = 4 + words[0] as usize;
    for word in &mut words[first_shard..] {
        let need = *word % 256;
        let above = match random.between(0, 3) {
            0 => need + 1,
            1 => need + 2,
            2 => 16,
            _ => random.between(need, 16),
        };
        let cap = match wide && random.chance(75) {
            true => above.min(16),
            false => random.pick(&[0, need]),
        };
        *word += cap * 65536;
    }
}

/// A subgroup for each shard: alone, in blocks, interleaved or sparse.
fn subgroups(random: &mut Random, nodes: u32, shards: u32) -> Vec<u32> {
    let shape = random.between(0, 4);
    let alone = random.between(0, 3);
    let mut taken = [0; 4];
    let mut subgroups = Vec::new();
    for shard in 0..shards {
        let mut subgroup = match shape {
            0 => alone,
            1 => shard % 4,
            2 => shard * 4 / shards,
            3 => random.pick(&[alone, 3 - alone]),
            _ => random.between(0, 3),
        };
        while taken[subgroup as usize] == nodes {
            subgroup = (subgroup + 1) % 4;
        }
        taken[subgroup as usize] += 1;
        subgroups.push(subgroup);
    }
    subgroups
}

/// Valid contents of a message. The settings allow some.
pub fn contents(random: &mut Random, form: Form, settings: &Settings) -> Contents {
    let members = members(random, settings);
    let node = random.pick(&mask::nodes(members));
    let view = view(random, form);
    let masks = shard_masks(random, settings, members, node);
    let mut contents = Contents {
        node,
        view,
        members,
        records: Vec::new(),
    };
    for (shard, &mask) in masks.iter().enumerate() {
        let record = Triple::new(MEMBERS, shard as u32, mask, 0);
        contents.records.push(record);
    }
    match form {
        Form::Report => {
            if random.chance(50) {
                add_termination(random, settings, &mut contents, view);
            }
            add_runs(random, settings, &mut contents);
        }
        Form::Order => {
            add_termination(random, settings, &mut contents, view - 1);
            add_carried(random, &masks, &mut contents);
        }
    }
    contents
}

/// A view number within the form's limits, often at one of them.
fn view(random: &mut Random, form: Form) -> u32 {
    let lowest = random.number(u32::MAX - 1);
    let view = match random.between(0, 4) {
        0 => 1,
        1 => u32::MAX - 1,
        2 => random.between(1, 12),
        _ => lowest,
    };
    match form {
        Form::Report => view,
        Form::Order => view + 1,
    }
}

/// A members mask with enough nodes for the fullest subgroup.
pub fn members(random: &mut Random, settings: &Settings) -> u32 {
    let shards_in = |subgroup| settings.shards_of(subgroup).len();
    let fewest = (0..settings::SUBGROUPS).map(shards_in).max().unwrap_or(1);
    if random.chance(40) {
        return mask::below(settings.nodes);
    }
    let mut nodes: Vec<u32> = (0..settings.nodes).collect();
    random.shuffle(&mut nodes);
    nodes.truncate(random.between(fewest as u32, settings.nodes) as usize);
    nodes.into_iter().map(mask::only).sum()
}

/// A mask for each shard: not empty, within `members`, disjoint within its
/// subgroup. The node is to carry no shard, one in each subgroup, or any.
pub fn shard_masks(random: &mut Random, settings: &Settings, members: u32, node: u32) -> Vec<u32> {
    let wish = random.between(0, 3);
    let keep = random.between(0, 100);
    let mut masks = vec![0; settings.shards as usize];
    for subgroup in 0..settings::SUBGROUPS {
        let shards = settings.shards_of(subgroup);
        if shards.is_empty() {
            continue;
        }
        let mut nodes = mask::nodes(members);
        random.shuffle(&mut nodes);
        if wish == 0 && nodes.len() > shards.len() {
            nodes.retain(|&other| other != node);
        }
        if wish == 1 {
            let place = nodes.iter().position(|&other| other == node);
            nodes.swap(0, place.unwrap_or(0));
        }
        for (index, &member) in nodes.iter().enumerate() {
            if index < shards.len() {
                masks[shards[index] as usize] |= mask::only(member);
            } else if random.chance(keep) {
                masks[random.pick(&shards) as usize] |= mask::only(member);
            }
        }
    }
    masks
}

/// A position with a view of at most `last_view`.
pub fn position(random: &mut Random, last_view: u32) -> (u32, u32) {
    if last_view == 0 || random.chance(30) {
        return (0, 0);
    }
    (random.number(last_view), random.number(u32::MAX))
}

fn add_termination(
    random: &mut Random,
    settings: &Settings,
    contents: &mut Contents,
    last_view: u32,
) {
    let all_zero = random.chance(10);
    for shard in 0..settings.shards {
        let (view, k) = if all_zero {
            (0, 0)
        } else {
            position(random, last_view)
        };
        let record = Triple::new(TERMINATION, shard, view, k);
        contents.records.push(record);
    }
}

/// Runs for the shards, from none to as many as a message can hold.
fn add_runs(random: &mut Random, settings: &Settings, contents: &mut Contents) {
    let each = random.pick(&[0, 1, 3, 10, 127]);
    let full = random.chance(10);
    for shard in 0..settings.shards {
        let room = MOST_RECORDS - 1 - contents.records.len();
        let wanted = if full { each } else { random.between(0, each) };
        for view in run_views(random, contents.view, wanted.min(room as u32)) {
            let record = Triple::new(RUN, shard, view, random.number(u32::MAX));
            contents.records.push(record);
        }
    }
}

/// Up to `count` different views, ascending. Near the last view they are dense.
fn run_views(random: &mut Random, last_view: u32, count: u32) -> BTreeSet<u32> {
    let dense = random.chance(50);
    let lowest = last_view.saturating_sub(2 * count).max(1);
    (0..count)
        .map(|_| {
            if dense {
                random.between(lowest, last_view)
            } else {
                random.number(last_view)
            }
        })
        .collect()
}

/// Holder and cut for each shard that the recipient carries.
fn add_carried(random: &mut Random, masks: &[u32], contents: &mut Contents) {
    let carried: Vec<u32> = (0..masks.len() as u32)
        .filter(|&shard| mask::has(masks[shard as usize], contents.node))
        .collect();
    let members = mask::nodes(contents.members);
    for &shard in &carried {
        let holder = Triple::new(HOLDER, shard, random.pick(&members), 0);
        contents.records.push(holder);
    }
    for &shard in &carried {
        let (view, k) = position(random, contents.view - 1);
        contents.records.push(Triple::new(CUT, shard, view, k));
    }
}

/// A message with the given contents. The chain may skip records, which hold
/// anything.
pub fn message(random: &mut Random, contents: &Contents) -> Vec<u32> {
    let needed = 1 + contents.records.len();
    if needed > MOST_RECORDS {
        return reference::message::encode(contents);
    }
    let room = (MOST_RECORDS - needed) as u32;
    let skipped = match random.between(0, 3) {
        0 | 1 => 0,
        2 => random.between(0, room.min(5)),
        _ => random.between(0, room),
    };
    let records = needed + skipped as usize;
    let mut indexes: Vec<usize> = (1..records).collect();
    if random.chance(80) {
        random.shuffle(&mut indexes);
    }
    indexes.truncate(needed - 1);
    indexes.sort_unstable();
    lay_out(random, contents, &indexes, records)
}

/// Puts the records after the head at `indexes` of a message of `records`
/// records.
fn lay_out(
    random: &mut Random,
    contents: &Contents,
    indexes: &[usize],
    records: usize,
) -> Vec<u32> {
    let mut words: Vec<u32> = Vec::new();
    for index in 0..records {
        words.extend(anything(random, contents, index as u32));
    }
    words[..3].copy_from_slice(&[contents.node, contents.view, contents.members]);
    let mut last = 0;
    for (record, &index) in contents.records.iter().zip(indexes) {
        words[4 * last + 3] = index as u32;
        let triple = [record.word0, record.word1, record.word2];
        words[4 * index..4 * index + 3].copy_from_slice(&triple);
        last = index;
    }
    words[4 * last + 3] = 0;
    words
}

/// A record that is off the chain: zeros, a likely record or random words.
fn anything(random: &mut Random, contents: &Contents, index: u32) -> [u32; 4] {
    let next = random.pick(&[0, index, index + 1, 127, u32::MAX]);
    match random.between(0, 2) {
        0 => [0; 4],
        1 if !contents.records.is_empty() => {
            let record = random.pick(&contents.records);
            [record.word0, record.word1, record.word2, next]
        }
        _ => [random.word(), random.word(), random.word(), next],
    }
}

#[cfg(test)]
mod tests {
    use super::*;
    use reference::message;

    #[test]
    fn what_is_generated_is_valid() {
        let mut random = Random::new(7);
        for _ in 0..2000 {
            let words = settings_words(&mut random);
            let settings = settings::parse(&words).unwrap();
            for form in [Form::Report, Form::Order] {
                let contents = contents(&mut random, form, &settings);
                let words = super::message(&mut random, &contents);
                let taken = message::read_with(form, &settings, &words);
                assert_eq!(taken, Ok(contents));
            }
        }
    }
}
