//! Faults put into a state's words and into held slots, a few for each part of
//! soundness (restart-model(7), SOUND STATES). Some leave the state sound.

use crate::random::Random;
use crate::world::World;
use crate::{damage, generate};
use reference::desk::{self, SLOT_WORDS};
use reference::mask;
use reference::message::encode;
use reference::placement::Subgroup;
use reference::settings::{Settings, SUBGROUPS};
use reference::state::STATE_WORDS;
use std::cmp::Ordering;

/// Where the parts of a state begin.
const NUMBER: usize = 1;
const MEMBERS: usize = 2;
const TERMINATED: usize = 3;
const MASKS: usize = 4;
const POSITIONS: usize = 20;
const HELD: usize = 52;
const FETCHED: usize = 53;
const PREPARED: usize = 54;
const PLAN_NUMBER: usize = 55;
const PLAN_MEMBERS: usize = 56;
const PLAN_TOTAL: usize = 57;
const PLAN_MASKS: usize = 58;
const HOLDERS: usize = 74;
const TARGETS: usize = 90;
const REMEMBERED: usize = 122;
const UNUSED: usize = 154;

/// Puts a fault into the words of a state and names it.
pub fn state(random: &mut Random, settings: &Settings, words: &mut [u32]) -> &'static str {
    let shard = random.below(settings.shards as usize);
    let held = words[HELD];
    if words[0] != 0 && random.chance(20) {
        return plan_members(random, settings, words);
    }
    match random.between(0, 21) {
        0 => phase(random, words),
        1 => near(random, words, NUMBER, "kept number"),
        2 => any_mask(random, settings, words, MEMBERS, "kept members"),
        3 => {
            words[TERMINATED] = random.pick(&[0, 1, 1, 2, u32::MAX]);
            "termination kept or not"
        }
        4 => any_mask(random, settings, words, MASKS + shard, "kept shard mask"),
        5 => position(random, words, POSITIONS + 2 * shard, "kept position"),
        6 => any_mask(random, settings, words, HELD, "held"),
        7 => marks(random, words, FETCHED, held, "fetched"),
        8 => marks(random, words, PREPARED, held, "prepared"),
        9 => near(random, words, PLAN_NUMBER, "plan's number"),
        10 => any_mask(random, settings, words, PLAN_MEMBERS, "plan's members"),
        11 => near(random, words, PLAN_TOTAL, "plan's total"),
        12 => plan_mask(random, settings, words, shard),
        13 => {
            let other = random.between(0, settings.nodes);
            words[HOLDERS + shard] = random.pick(&[other, other, 32, u32::MAX]);
            "holder"
        }
        14 => position(random, words, TARGETS + 2 * shard, "target"),
        15 => dead_word(random, settings, words),
        16 => other_placement(random, settings, words),
        17 | 18 => {
            let nodes = mask::nodes(held & mask::below(settings.nodes));
            let node = match nodes.is_empty() {
                true => 0,
                false => random.pick(&nodes),
            };
            memory(random, words, node)
        }
        19 => {
            let node = random.between(0, settings.nodes - 1);
            memory(random, words, node)
        }
        20 => earlier_release(words),
        _ => {
            let index = random.below(STATE_WORDS);
            words[index] = random.word();
            "any word"
        }
    }
}

/// What is remembered of a node is another view.
fn memory(random: &mut Random, words: &mut [u32], node: u32) -> &'static str {
    let at = REMEMBERED + node as usize;
    let (view, kept) = (words[at], words[NUMBER]);
    let other = words[REMEMBERED + random.below(32)];
    let choices = [
        view.wrapping_sub(1),
        view.wrapping_add(1),
        kept,
        kept,
        kept.wrapping_add(1),
        0,
        other,
        u32::MAX,
    ];
    words[at] = random.pick(&choices);
    memory_of(words, node)
}

fn memory_of(words: &[u32], node: u32) -> &'static str {
    match mask::has(words[HELD], node) {
        true => "view remembered of a held node",
        false => "view remembered of an absent node",
    }
}

/// A greater view than the kept one is remembered of a node. If it is absent
/// the state is sound, and its reports have number 18.
pub fn beyond(random: &mut Random, words: &mut [u32], node: u32) -> &'static str {
    let kept = words[NUMBER];
    words[REMEMBERED + node as usize] = random.pick(&[kept.saturating_add(1), u32::MAX]);
    memory_of(words, node)
}

/// A state of a release that remembered nothing.
fn earlier_release(words: &mut [u32]) -> &'static str {
    words[REMEMBERED..].fill(0);
    "state of an earlier release"
}

fn phase(random: &mut Random, words: &mut [u32]) -> &'static str {
    words[0] = random.pick(&[0, 1, 2, 3, 4, 256, u32::MAX]);
    "phase"
}

/// A number changed a little, or to an end of its range.
fn near(random: &mut Random, words: &mut [u32], at: usize, name: &'static str) -> &'static str {
    let word = words[at];
    let choices = [
        word.wrapping_sub(1),
        word.wrapping_add(1),
        word.wrapping_add(1),
        0,
        1,
        u32::MAX - 1,
        u32::MAX,
    ];
    words[at] = random.pick(&choices);
    name
}

/// A mask with a node more or less, or a bit from N up.
fn any_mask(
    random: &mut Random,
    settings: &Settings,
    words: &mut [u32],
    at: usize,
    name: &'static str,
) -> &'static str {
    match random.between(0, 5) {
        0 | 1 => words[at] ^= mask::only(random.between(0, settings.nodes - 1)),
        2 => words[at] |= mask::only(settings.nodes.min(31)),
        3 => words[at] &= words[at].wrapping_sub(1),
        4 => words[at] = random.pick(&[0, u32::MAX, mask::below(settings.nodes)]),
        _ => words[at] ^= mask::only(random.between(0, 31)),
    }
    name
}

fn marks(
    random: &mut Random,
    words: &mut [u32],
    at: usize,
    held: u32,
    name: &'static str,
) -> &'static str {
    let bit = mask::only(random.between(0, 31));
    let without_lowest = held & held.wrapping_sub(1);
    words[at] = random.pick(&[0, held, without_lowest, words[at] ^ bit, held | bit]);
    name
}

fn position(random: &mut Random, words: &mut [u32], at: usize, name: &'static str) -> &'static str {
    let (view, k) = (words[at], words[at + 1]);
    let kept = words[NUMBER];
    let choices = [
        (0, 0),
        (0, 3),
        (view, 0),
        (view, k.wrapping_add(1)),
        (view, k.wrapping_sub(1)),
        (view.wrapping_add(1), k),
        (kept, 1),
        (kept.wrapping_add(1), 1),
    ];
    (words[at], words[at + 1]) = random.pick(&choices);
    name
}

/// A node of the plan's shard replaced, left out or added, or two shards
/// exchanged.
fn plan_mask(
    random: &mut Random,
    settings: &Settings,
    words: &mut [u32],
    shard: usize,
) -> &'static str {
    let at = PLAN_MASKS + shard;
    let node = mask::only(random.between(0, settings.nodes - 1));
    let other = PLAN_MASKS + random.below(settings.shards as usize);
    match random.between(0, 3) {
        0 => words[at] ^= node,
        1 => words[at] = words[at] & words[at].wrapping_sub(1) | node,
        2 => words[at] |= words[other],
        _ => words.swap(at, other),
    }
    "plan's shard mask"
}

/// Other members of a plan's shard, with the total that they make: a node more
/// or less or for another, as many as the cap or one more, or nodes of few sets.
/// What comes of it is judged, so that its name says what it is.
fn plan_members(random: &mut Random, settings: &Settings, words: &mut [u32]) -> &'static str {
    let held = words[HELD] & mask::below(settings.nodes);
    let any = random.between(0, settings.shards - 1);
    let mut more: Vec<u32> = (0..settings.shards).collect();
    more.retain(|&shard| mask::count(words[PLAN_MASKS + shard as usize]) > settings.need(shard));
    let shard = match more.is_empty() || random.chance(60) {
        true => any,
        false => random.pick(&more),
    };
    let at = PLAN_MASKS + shard as usize;
    let own = words[at] & held;
    let beside = settings.shards_of(settings.subgroup(shard)).into_iter();
    let taken = beside.fold(0, |all, other| all | words[PLAN_MASKS + other as usize]);
    let mut free = mask::nodes(held & !taken);
    random.shuffle(&mut free);
    let mut members = mask::nodes(own);
    random.shuffle(&mut members);
    let (need, cap) = (settings.need(shard) as usize, settings.cap(shard) as usize);
    match random.between(0, 6) {
        0 | 6 => drop(members.pop()),
        1 => members.extend(free.pop()),
        2 => {
            members.pop();
            members.extend(free.pop());
        }
        3 | 4 => {
            members.extend(free);
            members.truncate(cap + random.below(2));
        }
        _ => {
            members.extend(free);
            members.sort_by_key(|&node| settings.set(node));
            let fewest = random.between(need as u32, cap as u32);
            members.truncate(fewest as usize);
        }
    }
    let before: Vec<u32> = words[PLAN_MASKS..HOLDERS].to_vec();
    words[at] = members.into_iter().map(mask::only).sum();
    let old: Vec<u32> = words[MASKS..POSITIONS].to_vec();
    let after: Vec<u32> = words[PLAN_MASKS..HOLDERS].to_vec();
    let all = |number| Subgroup {
        settings,
        number,
        held,
        old: &old,
    };
    let subgroups = (0..SUBGROUPS).map(all);
    words[PLAN_TOTAL] = subgroups.map(|subgroup| subgroup.moves(&after)).sum();
    judged(&all(settings.subgroup(shard)), shard, &before, &after)
}

/// The name of a plan with other members of a shard.
fn judged(subgroup: &Subgroup, shard: u32, before: &[u32], after: &[u32]) -> &'static str {
    let count = mask::count(after[shard as usize]);
    if !subgroup.valid(after) {
        let settings = subgroup.settings;
        return match count {
            _ if count > settings.cap(shard) => PLAN_OVER_CAP,
            _ if count >= settings.need(shard) => PLAN_OF_FEW_SETS,
            _ => PLAN_OF_FEW_NODES,
        };
    }
    let moves = subgroup.moves(after).cmp(&subgroup.moves(before));
    let stays = subgroup.stays(before).cmp(&subgroup.stays(after));
    match moves.then(stays) {
        Ordering::Greater if moves == Ordering::Greater => PLAN_OF_MORE_MOVES,
        Ordering::Greater => PLAN_OF_FEWER_STAYS,
        Ordering::Equal if before != after => PLAN_AS_GOOD,
        _ => "plan's members",
    }
}

/// A plan that is refused for its members alone, and one that is taken although
/// decide would have placed others, by the names of what was done.
pub const PLAN_OVER_CAP: &str = "plan's shard with more nodes than its cap";
pub const PLAN_OF_FEW_SETS: &str = "plan's shard with enough nodes of too few sets";
pub const PLAN_OF_FEW_NODES: &str = "plan's shard with too few nodes";
pub const PLAN_OF_MORE_MOVES: &str = "valid plan of more moves";
pub const PLAN_OF_FEWER_STAYS: &str = "valid plan of as many moves where fewer stay";
pub const PLAN_AS_GOOD: &str = "valid plan of as many moves and stays";

/// A word that means nothing under these settings.
fn dead_word(random: &mut Random, settings: &Settings, words: &mut [u32]) -> &'static str {
    let shards = settings.shards as usize;
    let parts = [
        (MASKS + shards, POSITIONS),
        (POSITIONS + 2 * shards, HELD),
        (PLAN_MASKS + shards, HOLDERS),
        (HOLDERS + shards, TARGETS),
        (TARGETS + 2 * shards, REMEMBERED),
        (REMEMBERED + settings.nodes as usize, UNUSED),
        (UNUSED, STATE_WORDS),
    ];
    let (from, to) = random.pick(&parts);
    if from < to {
        words[from + random.below(to - from)] = random.pick(&[1, 1 << 31, u32::MAX]);
    }
    "word that means nothing"
}

/// Another valid placement with its own total: least moves, stays and order are
/// not checked again. It is the best one for other old members.
fn other_placement(random: &mut Random, settings: &Settings, words: &mut [u32]) -> &'static str {
    let held = words[HELD] & mask::below(settings.nodes);
    let old = words[MASKS..POSITIONS].to_vec();
    let others: Vec<u32> = old.iter().map(|_| random.word()).collect();
    let mut total = 0;
    for number in 0..SUBGROUPS {
        let subgroup = |old| Subgroup {
            settings,
            number,
            held,
            old,
        };
        let Some(placed) = subgroup(&others).any_best() else {
            return "another placement";
        };
        total += subgroup(&old).moves(&placed);
        for shard in settings.shards_of(number) {
            words[PLAN_MASKS + shard as usize] = placed[shard as usize];
        }
    }
    words[PLAN_TOTAL] = total;
    "another placement"
}

/// Puts a fault into a slot of the desk and names it.
pub fn desk(random: &mut Random, world: &World, held: u32, desk: &mut [u32]) -> &'static str {
    let nodes = if random.chance(90) { held } else { !held };
    let all = mask::nodes(nodes);
    if all.is_empty() {
        return "nothing held";
    }
    let node = random.pick(&all);
    let whole = desk::slot(desk, node).to_vec();
    let first = node as usize * SLOT_WORDS;
    let slot = &mut desk[first..first + SLOT_WORDS];
    match random.between(0, 7) {
        0 => {
            damage::next_index(random, slot);
            "slot's next index"
        }
        1 => {
            let index = random.below(40);
            slot[index] = random.pick(&[0, 1, slot[index] ^ 1, slot[index] ^ 256]);
            "slot's word"
        }
        2 => {
            slot.fill(random.pick(&[0, 1, u32::MAX]));
            "slot filled"
        }
        3 => {
            let other = random.pick(&all);
            let words = desk::slot(desk, other).to_vec();
            desk[first..first + SLOT_WORDS].copy_from_slice(&words);
            "slot of another node"
        }
        4 => other_report(random, world, node, slot),
        5 => {
            slot[SLOT_WORDS - 4 + random.below(4)] = random.word();
            "slot's last words"
        }
        6 => run_count(random, slot),
        _ => laid_out_anew(random, world, &whole, slot),
    }
}

/// Another valid report of the node: of another view, or with another log.
fn other_report(random: &mut Random, world: &World, node: u32, slot: &mut [u32]) -> &'static str {
    if let Some(report) = world.report(random, node) {
        let words = encode(&report);
        slot.fill(0);
        slot[..words.len()].copy_from_slice(&words);
    }
    "slot's other report"
}

/// Makes the count of a run another one.
fn run_count(random: &mut Random, slot: &mut [u32]) -> &'static str {
    let runs: Vec<usize> = (4..SLOT_WORDS)
        .step_by(4)
        .filter(|&at| slot[at] / 256 == 3)
        .collect();
    if !runs.is_empty() {
        let at = random.pick(&runs) + 2;
        slot[at] = random.pick(&[0, 1, slot[at].wrapping_sub(1), slot[at].wrapping_add(1)]);
    }
    "slot's run"
}

/// The same report with its records at other places, up to the slot's end.
fn laid_out_anew(
    random: &mut Random,
    world: &World,
    whole: &[u32],
    slot: &mut [u32],
) -> &'static str {
    let form = reference::message::Form::Report;
    if let Ok(report) = reference::message::read_with(form, &world.settings, whole) {
        let words = generate::message(random, &report);
        slot[..words.len()].copy_from_slice(&words);
    }
    "slot laid out anew"
}
