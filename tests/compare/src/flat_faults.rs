//! Faults put into flat reports. As in `damage`, some lie just inside.

use crate::damage;
use crate::random::Random;
use reference::flat::{Flat, FlatRun};
use reference::log::START;
use reference::message::MOST_RECORDS;
use reference::settings::Settings;
use std::collections::BTreeSet;

/// Three times this is 1, but for whole turns of a word.
const THIRD: u32 = 2_863_311_531;
/// What a count may be too large by: a byte's, two bytes' or three bytes' turn,
/// and turns of the count in bytes.
const TURNS: [u32; 6] = [1 << 8, 1 << 16, 1 << 24, 1 << 30, 1 << 31, 3 << 30];

/// Damages a flat report in its parts; its counts are right.
pub fn parts(random: &mut Random, settings: &Settings, flat: &mut Flat) {
    match random.between(0, 15) {
        0 | 1 => more_masks(random, flat),
        2 | 3 => fewer_masks(random, flat),
        4..=6 => shard(random, settings, flat),
        7 | 8 => unsorted(random, settings, flat),
        9 => repeated(random, settings, flat),
        10 | 11 => zero(random, settings, flat),
        12 => large_and_zero(random, settings, flat),
        _ => fill(random, settings, flat),
    }
}

fn resize_masks(flat: &mut Flat, masks: usize, mask: u32) {
    flat.masks.resize(masks, mask);
    if let Some(positions) = &mut flat.positions {
        positions.resize(masks, START);
    }
}

fn more_masks(random: &mut Random, flat: &mut Flat) {
    let more = random.pick(&[1, 1, 1, 1, 2, 5, 48, 63, 112, 127, 128, 241, 300]);
    let any = random.word();
    let mask = random.pick(&[flat.members, 0, any]);
    resize_masks(flat, flat.masks.len() + more, mask);
}

fn fewer_masks(random: &mut Random, flat: &mut Flat) {
    let one_less = flat.masks.len().saturating_sub(1);
    let any = random.below(flat.masks.len() + 1);
    let masks = random.pick(&[one_less, one_less, one_less, any, 0]);
    resize_masks(flat, masks, 0);
}

/// Gives a flat report some sorted runs, if it has fewer than two and its view
/// allows as many.
fn some_runs(random: &mut Random, settings: &Settings, flat: &mut Flat) {
    if flat.runs.len() >= 2 {
        return;
    }
    let last_view = flat.view.max(1);
    let mut keys = BTreeSet::new();
    for _ in 0..random.between(2, 6) {
        let shard = random.between(0, settings.shards - 1);
        keys.insert((shard, random.number(last_view)));
    }
    let mut run = |(shard, view)| FlatRun {
        shard,
        view,
        count: random.number(u32::MAX),
    };
    flat.runs = keys.into_iter().map(&mut run).collect();
}

/// A run, if there is one.
fn some_run(random: &mut Random, flat: &Flat) -> Option<usize> {
    let any = (!flat.runs.is_empty()).then(|| random.below(flat.runs.len()))?;
    Some(random.pick(&[any, any, 0, flat.runs.len() - 1]))
}

/// A run's shard is from S up: in a byte, or larger than a record can hold. In
/// part of it, a lower shard may stand.
fn shard(random: &mut Random, settings: &Settings, flat: &mut Flat) {
    some_runs(random, settings, flat);
    let Some(index) = some_run(random, flat) else {
        return;
    };
    let run = &mut flat.runs[index];
    let low = random.between(0, settings.shards - 1);
    let byte = random.between(settings.shards, 255);
    let turn = random.pick(&TURNS);
    run.shard = match random.between(0, 9) {
        0 => settings.shards,
        1 => byte,
        2 => 16,
        3 => 255,
        4 => 256,
        5 => run.shard.saturating_add(turn),
        6 => low + turn,
        7 => random.between(256, u32::MAX),
        8 => u32::MAX,
        _ => low,
    };
}

fn unsorted(random: &mut Random, settings: &Settings, flat: &mut Flat) {
    some_runs(random, settings, flat);
    if flat.runs.len() < 2 {
        return;
    }
    let first = random.below(flat.runs.len() - 1);
    let other = random.below(flat.runs.len());
    let second = if random.chance(70) { first + 1 } else { other };
    flat.runs.swap(first, second);
}

/// A run is there twice, its count the same or another.
fn repeated(random: &mut Random, settings: &Settings, flat: &mut Flat) {
    some_runs(random, settings, flat);
    if let Some(index) = some_run(random, flat) {
        let mut run = flat.runs[index];
        if random.chance(50) {
            run.count = random.number(u32::MAX);
        }
        flat.runs.insert(index + 1, run);
    }
}

fn zero(random: &mut Random, settings: &Settings, flat: &mut Flat) {
    some_runs(random, settings, flat);
    if let Some(index) = some_run(random, flat) {
        flat.runs[index].count = 0;
    }
}

/// A count of 0 together with a shard that no record can hold, in one triple or
/// in two.
fn large_and_zero(random: &mut Random, settings: &Settings, flat: &mut Flat) {
    some_runs(random, settings, flat);
    let (one, other) = (some_run(random, flat), some_run(random, flat));
    if let (Some(one), Some(other)) = (one, other) {
        let index = if random.chance(50) { one } else { other };
        flat.runs[one].shard = random.between(256, u32::MAX);
        flat.runs[index].count = 0;
    }
}

/// Gives a flat report so many runs that as one of ours it has 128 records, a
/// few less or more, or many more; now and then the last count is 0.
pub fn fill(random: &mut Random, settings: &Settings, flat: &mut Flat) {
    let any = random.below(600);
    let choices = [126, 127, 128, 128, 128, 129, 129, 130, 160, 200, 400, any];
    let others = flat.records() - flat.runs.len();
    let count = random.pick(&choices).saturating_sub(others) as u32;
    if flat.view >= 1 && flat.view <= count {
        flat.view = random.between(count + 1, u32::MAX - 1);
    }
    let widest = (flat.view / (count + 1)).max(1);
    let any = random.between(1, widest);
    let step = random.pick(&[1, widest, any]);
    let run = |index: u32| FlatRun {
        shard: (u64::from(index) * u64::from(settings.shards) / u64::from(count)) as u32,
        view: step * (index + 1),
        count: random.number(u32::MAX),
    };
    flat.runs = (0..count).map(run).collect();
    if random.chance(15) {
        if let Some(last) = flat.runs.last_mut() {
            last.count = 0;
        }
    }
    if flat.records() > MOST_RECORDS && random.chance(20) {
        flat.node = settings.nodes;
    }
}

/// Damages the words of a flat report.
pub fn words(random: &mut Random, words: &mut Vec<u32>) {
    match random.between(0, 11) {
        0 | 1 => count_of_masks(random, words),
        2 | 3 => flag(random, words),
        4 | 5 => count_of_runs(random, words),
        6 => wrapping_runs(random, words),
        7 | 8 => one_triple(random, words),
        9 | 10 => damage::length(random, words),
        _ => damage::word(random, words),
    }
}

/// Where the termination word and the count of runs stand, if the words are a
/// flat report.
fn places(words: &[u32]) -> Option<(usize, usize)> {
    let flat = Flat::parse(words)?;
    let flag = 4 + flat.masks.len();
    Some((flag, words.len() - 3 * flat.runs.len() - 1))
}

/// Another count: a little off, 0, too large by a turn, or the greatest.
fn other_count(random: &mut Random, count: u32) -> u32 {
    let turn = random.pick(&TURNS);
    random.pick(&[
        count.wrapping_sub(1),
        count.wrapping_add(1),
        count.wrapping_add(3),
        0,
        count.wrapping_add(turn),
        count.wrapping_add(turn),
        u32::MAX,
    ])
}

fn count_of_masks(random: &mut Random, words: &mut [u32]) {
    if words.len() > 3 {
        words[3] = other_count(random, words[3]);
    }
}

fn flag(random: &mut Random, words: &mut [u32]) {
    if let Some((flag, _)) = places(words) {
        let turn = random.pick(&TURNS);
        let was = words[flag];
        words[flag] = random.pick(&[1 - was, 2, 2, 3, was + turn, turn, u32::MAX]);
    }
}

fn count_of_runs(random: &mut Random, words: &mut [u32]) {
    if let Some((_, count)) = places(words) {
        words[count] = other_count(random, words[count]);
    }
}

/// A word or two more, and a count of runs that explains them but for whole
/// turns.
fn wrapping_runs(random: &mut Random, words: &mut Vec<u32>) {
    if let Some((_, count)) = places(words) {
        words.extend(vec![1; random.pick(&[1, 2])]);
        words[count] = ((words.len() - count - 1) as u32).wrapping_mul(THIRD);
    }
}

/// A triple more or less than counted, or part of one.
fn one_triple(random: &mut Random, words: &mut Vec<u32>) {
    let length = random.pick(&[1, 2, 3, 3]);
    if random.chance(50) {
        words.truncate(words.len().saturating_sub(length));
    } else {
        let end = words.len();
        words.extend_from_within(end.saturating_sub(length)..end);
    }
}

/// Words with so many masks that, but for whole turns, what follows the masks
/// stands before them: the head is termination word and count of runs, and the
/// count explains the length.
pub fn wrapping_masks(random: &mut Random) -> Vec<u32> {
    let runs = random.between(1, 12);
    let (mut words, before) = match random.chance(50) {
        true => (vec![0, runs, 3, u32::MAX - 3], 2),
        false => (vec![0, 0, runs, u32::MAX - 2], 3),
    };
    let any = random.between(1, 9);
    words.resize(before + 3 * runs as usize, any);
    words
}
