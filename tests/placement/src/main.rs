//! Compares the proved placement of a subgroup with the reference:
//! `placements [SEED [SMALL [LARGE]]]`.
//!
//! Small cases against the search through all placements, large ones (up to 32
//! nodes, 16 shards) against the greedy method over the flow of least cost. Only
//! small ones, a tenth of them, have any costs and any failure sets: these go to
//! the total search, which answers everything but is quick in small cases alone.
//! Whether there is a placement, its weight and each node's owner must agree. A
//! case depends on the seed and its index alone.

mod library;
mod task;

use crate::library::Lent;
use crate::task::{Task, CLOSED, NODES, NONE, SHARDS, WRONG_LENGTH};
use differential::random::{clock_seed, Random};
use std::collections::BTreeMap;
use std::process::ExitCode;

const SMALL: u64 = 20_000;
const LARGE: u64 = 5_000;
/// A small case has at most so many ways to place its nodes; one with any costs
/// fewer, since the total search answers it.
const MOST_WAYS: u64 = 3000;
const MOST_WAYS_ANY: u64 = 100;
/// From this many cases on, rare ones are a failure.
const JUDGED: u64 = 10_000;

/// What the costs of a case mean.
#[derive(Clone, Copy, Debug, PartialEq, Eq, PartialOrd, Ord)]
enum Costs {
    /// A node that stays costs nothing, one placed nowhere 1, and a move more
    /// than all the rooms beside the needs: least moves, then most stays.
    MovesThenStays,
    /// A move costs 1, all else nothing.
    Moves,
    /// Anything.
    Any,
}

fn main() -> ExitCode {
    let argument = |index| {
        let argument = std::env::args().nth(index);
        argument.and_then(|text| text.parse::<u64>().ok())
    };
    let seed = argument(1).unwrap_or_else(clock_seed);
    let small = argument(2).unwrap_or(SMALL);
    let all = small + argument(3).unwrap_or(LARGE);
    println!("placements: seed {seed}");
    if !refuses_wrong_lengths() {
        println!("placements: a wrong length is not refused");
        return ExitCode::FAILURE;
    }
    let mut counts: BTreeMap<String, u64> = BTreeMap::new();
    for index in 0..all {
        let mut random = Random::of_input(seed, index);
        let (costs, task, expected) = if index < small {
            let (costs, task) = small_case(&mut random);
            let expected = task.by_search();
            (costs, task, expected)
        } else {
            let (costs, task) = large_case(&mut random);
            let expected = task.by_flow();
            (costs, task, expected)
        };
        let found = library::answer(&task);
        if found != expected {
            println!("placements: seed {seed}, case {index}: library {found:?}");
            println!("reference {expected:?}");
            println!("{task:?}");
            return ExitCode::FAILURE;
        }
        let asked = if task.limit.is_some() {
            "within"
        } else {
            "least"
        };
        let placed = if expected.0 == NONE { "none" } else { "placed" };
        *counts
            .entry(format!("{costs:?}, {asked}, {placed}"))
            .or_default() += 1;
    }
    let mut good = true;
    for costs in [Costs::MovesThenStays, Costs::Moves, Costs::Any] {
        for asked in ["least", "within"] {
            for placed in ["none", "placed"] {
                let name = format!("{costs:?}, {asked}, {placed}");
                let times = counts.get(&name).copied().unwrap_or(0);
                println!("  {name}: {times}");
                good &= all < JUDGED || times * 500 >= all;
            }
        }
    }
    if !good {
        println!("placements: the cases are no good");
        return ExitCode::FAILURE;
    }
    println!("placements: {all} cases, {small} of them small, 0 differ");
    ExitCode::SUCCESS
}

/// Each of the five lengths one short and one over: refused, and the owners are
/// as they were.
fn refuses_wrong_lengths() -> bool {
    let bytes = [0; 600];
    let mut good = true;
    for limit in [None, Some(0), Some(u32::MAX)] {
        for wrong in 0..10 {
            let length = |whole: usize, index: usize| match wrong {
                _ if wrong == 2 * index => whole - 1,
                _ if wrong == 2 * index + 1 => whole + 1,
                _ => whole,
            };
            let lent = Lent {
                sets: &bytes[..length(32, 0)],
                needs: &bytes[..length(16, 1)],
                caps: &bytes[..length(16, 2)],
                costs: &bytes[..length(512, 3)],
                idle: 0,
                limit,
            };
            let mut owners = [77; 40];
            let number = library::call(&lent, &mut owners[..length(32, 4)]);
            good &= number == WRONG_LENGTH && owners == [77; 40];
        }
    }
    good
}

/// What a case is made of.
struct Shape {
    nodes: usize,
    sets: u32,
    shards: usize,
    /// The greatest need.
    most: u32,
    /// Of a hundred pairs how many are allowed.
    allowed: u32,
    /// What the costs mean.
    costs: Costs,
}

/// Up to 9 nodes and 3 shards; of all pairs few enough are allowed.
fn small_case(random: &mut Random) -> (Costs, Task) {
    let costs = match random.chance(10) {
        true => Costs::Any,
        false => random.pick(&[Costs::MovesThenStays, Costs::Moves]),
    };
    let most = if costs == Costs::Any {
        MOST_WAYS_ANY
    } else {
        MOST_WAYS
    };
    loop {
        let shards = random.between(1, 3);
        let shape = Shape {
            nodes: random.between(1, 9) as usize,
            sets: random.between(1, 4),
            shards: shards as usize,
            most: 3,
            allowed: random.pick(&[40, 70, 90, 100]),
            costs,
        };
        let case = case_of(random, &shape);
        if case.1.ways() <= most {
            return case;
        }
    }
}

/// 20 to 32 nodes and up to 16 shards; needs that the nodes can about fill.
fn large_case(random: &mut Random) -> (Costs, Task) {
    let nodes = random.between(20, 32);
    let sets = random.between(4, 16);
    let shards = random.between(2, 16);
    let shape = Shape {
        nodes: nodes as usize,
        sets,
        shards: shards as usize,
        most: (nodes / shards).clamp(1, sets) + 1,
        allowed: random.pick(&[60, 90, 100]),
        costs: random.pick(&[Costs::MovesThenStays, Costs::Moves]),
    };
    case_of(random, &shape)
}

fn case_of(random: &mut Random, shape: &Shape) -> (Costs, Task) {
    let mut task = Task {
        sets: [0; NODES],
        needs: [0; SHARDS],
        caps: [0; SHARDS],
        costs: [CLOSED; SHARDS * NODES],
        idle: 0,
        limit: None,
    };
    let costs = shape.costs;
    let without = costs == Costs::Any && random.chance(30);
    for set in &mut task.sets {
        *set = random.between(0, shape.sets - 1) as u8;
        if without && random.chance(20) {
            *set = random.pick(&[16, 17, 31, 255]);
        }
    }
    // The shards lie anywhere among the sixteen, and the nodes among the 32; of
    // a case with any costs the shards are the first ones.
    let mut shards: Vec<usize> = (0..SHARDS).collect();
    if costs != Costs::Any {
        random.shuffle(&mut shards);
    }
    shards.truncate(shape.shards);
    let mut nodes: Vec<usize> = (0..NODES).collect();
    random.shuffle(&mut nodes);
    nodes.truncate(shape.nodes);
    let wide = random.chance(60);
    for &shard in &shards {
        let need = random.between(1, shape.most.min(shape.sets));
        let cap = match wide {
            true => random.pick(&[need, need + 1, need + 2, 16, 16]),
            false => need,
        };
        (task.needs[shard], task.caps[shard]) = (need as u8, cap as u8);
    }
    put_costs(random, &mut task, costs, &shards, &nodes, shape.allowed);
    if costs == Costs::Any && random.chance(15) {
        let shard = random.below(4);
        task.needs[shard] = random.pick(&[0, 0, 1, 16, 17, 255]);
        task.caps[shard] = random.pick(&[0, 1, 2, 16, 17, 32, 255]);
    }
    if random.chance(50) {
        task.limit = Some(limit(random, &task));
    }
    (costs, task)
}

fn put_costs(
    random: &mut Random,
    task: &mut Task,
    costs: Costs,
    shards: &[usize],
    nodes: &[usize],
    allowed: u32,
) {
    let spare = |shard: &usize| u32::from(task.caps[*shard] - task.needs[*shard]);
    let rooms: u32 = shards.iter().map(spare).sum();
    let greatest = random.pick(&[1, 3, 9, 254]);
    let (idle, moved) = match costs {
        Costs::MovesThenStays => (1, random.pick(&[rooms + 1, 34, 64])),
        Costs::Moves => (0, 1),
        Costs::Any => (random.between(0, greatest), 0),
    };
    let absent = random.pick(&[0, 0, 10, 30]);
    task.idle = idle as u8;
    for &node in nodes {
        let old = random.pick(shards);
        let had = random.chance(80);
        if costs != Costs::Any && random.chance(absent) {
            continue;
        }
        for &shard in shards {
            task.costs[shard * NODES + node] = match costs {
                Costs::Any if random.chance(100 - allowed) => CLOSED,
                Costs::Any => random.between(0, greatest) as u8,
                _ if had && shard == old => 0,
                _ => moved as u8,
            };
        }
    }
}

/// A limit near the least weight, or any.
fn limit(random: &mut Random, task: &Task) -> u32 {
    let (least, _) = task.by_flow();
    let near = match least {
        NONE => 0,
        least => least,
    };
    let (any, few) = (random.word(), random.between(0, 5));
    random.pick(&[
        near.saturating_sub(1),
        near,
        near,
        near + 1,
        near + few,
        near + 34,
        9_999,
        10_000,
        any,
    ])
}
