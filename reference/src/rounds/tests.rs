use super::*;
use crate::cases::{random_layout, random_world, Random, World, SETTINGS};
use crate::quorum::Wait;
use std::collections::BTreeSet;

impl World {
    /// So many rounds, by both ways to find placements.
    fn rounds(&self, count: u32) -> Result<(World, Decision, u32), Number> {
        let World {
            settings,
            state,
            desk,
        } = self;
        let by = |way: Way| rounds_by(way, Role::Planner, settings, state, desk, count);
        let answer = by(GREEDY);
        assert_eq!(by(EXHAUSTIVE), answer);
        let Improved {
            state,
            decision,
            gap,
        } = answer?;
        let next = World {
            state,
            ..self.clone()
        };
        Ok((next, decision, gap))
    }

    /// The masks, the total and the gap that so many rounds reach.
    fn reached_by(&self, count: u32) -> (Vec<u32>, u32, u32) {
        let (next, decision, gap) = self.rounds(count).unwrap();
        assert_eq!(decision, Decision::Plan);
        assert_eq!(next.check(), 0);
        let plan = next.state().plan.unwrap();
        (plan.masks, plan.total, gap)
    }

    /// Masks and total of decide's plan.
    fn decided(&self) -> (Vec<u32>, u32) {
        let mut world = self.clone();
        assert_eq!(world.decide(), Decision::Plan);
        let plan = world.state().plan.unwrap();
        (plan.masks, plan.total)
    }

    /// The number that rounds get; 0 if none.
    fn number(&self, role: Role, count: u32) -> u32 {
        let World {
            settings,
            state,
            desk,
        } = self;
        let answer = rounds(role, settings, state, desk, count);
        answer.err().map_or(0, |number| number.0)
    }
}

/// What each number of rounds from 0 on reaches, masks, total and gap; then
/// nothing changes. And decide's masks and total.
fn holds(world: &World, course: &[(&[u32], u32, u32)], decided: (&[u32], u32)) {
    let counts = [
        course.len() as u32,
        course.len() as u32 + 1,
        64,
        127,
        128,
        129,
        256,
        u32::MAX,
    ];
    let later = counts
        .iter()
        .map(|&count| (count, course[course.len() - 1]));
    for (count, (masks, total, gap)) in (0..).zip(course.iter().copied()).chain(later) {
        let expected = (masks.to_vec(), total, gap);
        assert_eq!(world.reached_by(count), expected, "{count} rounds");
    }
    assert_eq!(world.decided(), (decided.0.to_vec(), decided.1));
}

/// The gap is 1 though the moves are least.
#[test]
fn case_a() {
    let world = World::printed(&SETTINGS, &[0, 1, 2, 3, 4, 5]);
    let course: [(&[u32], u32, u32); 2] = [(&[5, 42, 16], 3, 2), (&[5, 50, 8], 2, 1)];
    holds(&world, &course, (&[5, 50, 8], 2));
}

/// The first placement has a node that moves beyond the need: 0 1 2 comes before
/// 0 2.
#[test]
fn a_move_beyond_the_need() {
    let world = World::plain(&[3, 2, 1, 1, 0, 0, 1, 3 * 65536 + 2], 7, 7, &[5]);
    holds(&world, &[(&[7], 1, 1), (&[5], 0, 0)], (&[5], 0));
}

/// The first of fewer moves, not the first of least.
#[test]
fn the_first_of_fewer() {
    let world = World::plain(&[3, 1, 1, 2, 0, 0, 0, 257, 257], 7, 7, &[4, 1]);
    let course: [(&[u32], u32, u32); 3] = [(&[1, 2], 2, 2), (&[2, 1], 1, 1), (&[4, 1], 0, 0)];
    holds(&world, &course, (&[4, 1], 0));
}

/// Shard 1 is of subgroup 0, and goes first.
#[test]
fn the_lowest_subgroup() {
    let world = World::plain(&[2, 1, 1, 2, 0, 0, 257, 1], 3, 3, &[2, 2]);
    let course: [(&[u32], u32, u32); 3] = [(&[1, 1], 2, 2), (&[1, 2], 1, 1), (&[2, 2], 0, 0)];
    holds(&world, &course, (&[2, 2], 0));
}

/// Subgroup 0 has none of fewer moves: the round goes to subgroup 1.
#[test]
fn the_lowest_that_has_one() {
    let world = World::plain(&[3, 3, 1, 3, 1, 2, 2, 257, 1, 257], 7, 7, &[4, 3, 1]);
    let course: [(&[u32], u32, u32); 3] =
        [(&[1, 1, 2], 2, 2), (&[2, 1, 1], 1, 1), (&[4, 1, 1], 0, 0)];
    holds(&world, &course, (&[4, 1, 1], 0));
}

/// Least moves, and fewer stay than by decide.
#[test]
fn stays_play_no_part() {
    let world = World::plain(&[2, 1, 1, 1, 0, 0, 131_329], 3, 3, &[3]);
    holds(&world, &[(&[1], 0, 0)], (&[3], 0));
}

/// No round, and still a gap.
#[test]
fn a_gap_that_nobody_closes() {
    let settings = [3, 2, 1, 2, 1, 0, 0, 196_866, 131_329];
    let world = World::plain(&settings, 7, 7, &[2, 1]);
    holds(&world, &[(&[3, 4], 2, 1)], (&[3, 4], 2));
}

/// The floor counts sets, not nodes, of held old members, up to m.
#[test]
fn what_the_floor_counts() {
    // Nodes 0 to 2 of set 0, then 3 of set 1, 4 of set 2, 5 of set 3.
    let words = [6, 4, 1, 1, 0, 0, 0, 1, 2, 3, 8 * 65536 + 3];
    let settings = settings::parse(&words).unwrap();
    let floor = |held: u32, old: u32| {
        floor(&Layout {
            settings: &settings,
            held,
            old: &[old],
        })
    };
    assert_eq!(floor(0b11_1111, 0b00_0111), 2, "three of one set");
    assert_eq!(floor(0b11_1111, 0b00_1001), 1);
    assert_eq!(floor(0b11_1111, 0b01_1001), 0);
    assert_eq!(floor(0b11_1111, 0b11_1111), 0, "more sets than needed");
    assert_eq!(floor(0b11_0110, 0b01_1001), 2, "one of three held");
    assert_eq!(floor(0b10_0110, 0b01_1001), 3, "none held");
}

/// Waits and refusals are decide's, and there is no gap beside them.
#[test]
fn waits() {
    let mut seven = SETTINGS;
    seven[2] = 7;
    let mut three = SETTINGS;
    three[11] = 3;
    let none = World::of(&SETTINGS, &[]);
    let few = World::printed(&SETTINGS, &[0, 1, 2]);
    let size = World::printed(&seven, &[0, 1, 2, 3, 4, 5]);
    let holder = World::printed(&SETTINGS, &[0, 1, 2, 3, 4]);
    let room = World::printed(&three, &[0, 1, 2, 3, 4, 5]);
    for (world, wait) in [
        (none, Wait::NoView),
        (few, Wait::NoMajority),
        (size, Wait::TooFew),
        (holder, Wait::NoHolder(2)),
        (room, Wait::NoPlacement(0)),
    ] {
        for count in [0, 1, 128, u32::MAX] {
            let (next, decision, gap) = world.rounds(count).unwrap();
            assert_eq!((decision, gap), (Decision::Wait(wait), 0));
            assert_eq!(next, world);
        }
    }
}

/// Rows 1, 2, 15, 3 and 4, in this order.
#[test]
fn rows() {
    let good = World::printed(&SETTINGS, &[0, 1, 2, 3, 4, 5]);
    for count in [0, 128, 129, u32::MAX] {
        assert_eq!(good.number(Role::Planner, count), 0);
        let mut world = good.clone();
        assert_eq!(world.decide(), Decision::Plan);
        assert_eq!(world.number(Role::Planner, count), 4);
        world.state[57] += 1;
        assert_eq!(world.number(Role::Planner, count), 3);
        for role in [Role::Watcher(0), Role::Nobody] {
            assert_eq!(world.number(role, count), 15);
            assert_eq!(good.number(role, count), 15);
        }
        world.settings[0] = 0;
        assert_eq!(world.number(Role::Nobody, count), 2);
        world.desk.pop();
        assert_eq!(world.number(Role::Nobody, count), 1);
    }
}

/// Every later event takes the plan that rounds have reached.
#[test]
fn a_restart_by_rounds() {
    let world = World::printed(&SETTINGS, &[0, 1, 2, 3, 4, 5]);
    let (mut next, decision, _) = world.rounds(0).unwrap();
    assert_eq!(decision, Decision::Plan);
    assert_eq!(next.number(Role::Planner, 0), 4);
    let mut dropped = next.clone();
    dropped.mark(events::drop_node, 3);
    assert_eq!(dropped.state().held, 0);
    for node in 0..6 {
        let World {
            settings,
            state,
            desk,
        } = &next;
        assert!(events::order(Role::Planner, settings, state, desk, node, 512).is_ok());
    }
    for event in [events::fetched, events::prepared] {
        for node in 0..6 {
            next.mark(event, node);
        }
    }
    assert_eq!(next.state().phase, state::Phase::Committed);
}

/// Whether there are too many placements to go through.
fn many(layout: &Layout) -> bool {
    let ways = |subgroup: Subgroup| {
        let wide = |&shard: &u32| layout.settings.cap(shard) > layout.settings.need(shard);
        let shards = layout.settings.shards_of(subgroup.number);
        let ways = 1 + shards.iter().filter(|shard| wide(shard)).count() as u64;
        ways.pow(mask::count(layout.held))
    };
    layout.subgroups().map(ways).max() > Some(10_000)
}

/// Each subgroup's valid placements, each with its moves.
fn everything(layout: &Layout) -> Vec<Vec<(Placement, u32)>> {
    let with_moves = |subgroup: Subgroup| {
        let all = subgroup.all().into_iter();
        all.map(|masks| (masks.clone(), subgroup.moves(&masks)))
            .collect()
    };
    layout.subgroups().map(with_moves).collect()
}

/// The first of those with fewer moves than this.
fn first_among(all: &[(Placement, u32)], than: u32) -> Option<(Placement, u32)> {
    let fewer = all.iter().filter(|&&(_, moves)| moves < than);
    let first = fewer.min_by(|one, other| order::compare(&one.0, &other.0));
    first.cloned()
}

/// The placements of all subgroups as one.
fn joined(each: &[(Placement, u32)]) -> Placement {
    let both = |one: Placement, other: &Placement| {
        let shards = one.iter().zip(other);
        shards.map(|(one, other)| one | other).collect()
    };
    let nothing = vec![0; each[0].0.len()];
    each.iter().map(|(masks, _)| masks).fold(nothing, both)
}

/// A round as restart-model(7) says it, of what each subgroup has reached, by the
/// list of all placements.
fn round_among(every: &[Vec<(Placement, u32)>], at: &mut [(Placement, u32)]) -> bool {
    for (all, reached) in every.iter().zip(at) {
        if let Some(first) = first_among(all, reached.1) {
            *reached = first;
            return true;
        }
    }
    false
}

/// Whether one subgroup has another placement, with fewer moves, and all below it
/// have the least.
fn lowers_one(layout: &Layout, least: &[u32], before: &[u32], after: &[u32]) -> bool {
    let differs = |&shard: &u32| before[shard as usize] != after[shard as usize];
    let changed: BTreeSet<u32> = (0..layout.settings.shards)
        .filter(differs)
        .map(|shard| layout.settings.subgroup(shard))
        .collect();
    let moves = |number: u32, masks: &[u32]| layout.subgroup(number).moves(masks);
    let one = changed.first().copied().unwrap();
    changed.len() == 1
        && moves(one, after) < moves(one, before)
        && (0..one).all(|number| moves(number, before) == least[number as usize])
}

/// Both ways reach the same by every number of rounds, and what the list of all
/// placements says. The gap bounds every valid placement; as many rounds as the
/// gap at 0 rounds are enough for the first of least moves; each round before
/// changes one subgroup, in which the moves fall, and those below it have the
/// least.
#[test]
fn both_ways_and_what_is_promised() {
    let mut random = Random(0x0C12_0C12);
    let (mut found, mut improved, mut several, mut open) = (0, 0, 0, 0);
    for _ in 0..4000 {
        let (words, held, old) = random_layout(&mut random, 8);
        let settings = settings::parse(&words).unwrap();
        let layout = Layout {
            settings: &settings,
            held,
            old: &old,
        };
        if many(&layout) {
            continue;
        }
        let start = reached(&layout, GREEDY, 0);
        assert_eq!(start, reached(&layout, EXHAUSTIVE, 0));
        assert_eq!(start.clone().err(), layout.each(order::exhaustive).err());
        let Ok(start) = start else { continue };
        let every = everything(&layout);
        let least_of = |all: &Vec<(Placement, u32)>| all.iter().map(|&(_, moves)| moves).min();
        let least: Vec<u32> = every.iter().map(|all| least_of(all).unwrap()).collect();
        assert!(floor(&layout) <= least.iter().sum());
        let mut at: Vec<(Placement, u32)> = every
            .iter()
            .map(|all| first_among(all, u32::MAX).unwrap())
            .collect();
        let enough = gap(&layout, &start);
        let mut masks = start;
        let mut count = 0;
        loop {
            assert_eq!(masks, joined(&at));
            assert_eq!(reached(&layout, GREEDY, count), Ok(masks.clone()));
            assert!(layout.valid(&masks));
            let gap = gap(&layout, &masks);
            assert_eq!(gap + floor(&layout), layout.moves(&masks));
            assert!(layout.moves(&masks) - least.iter().sum::<u32>() <= gap);
            let next = round(&layout, GREEDY, &masks);
            assert_eq!(round(&layout, EXHAUSTIVE, &masks), next);
            assert_eq!(round_among(&every, &mut at), next.is_some());
            let Some(next) = next else { break };
            assert!(lowers_one(&layout, &least, &masks, &next));
            masks = next;
            count += 1;
        }
        assert!(count <= enough && enough <= MOST_ROUNDS);
        assert_eq!(layout.moves(&masks), least.iter().sum());
        for later in [enough, MOST_ROUNDS, MOST_ROUNDS + 1, u32::MAX] {
            assert_eq!(reached(&layout, GREEDY, later), Ok(masks.clone()));
        }
        let first_least: Vec<(Placement, u32)> = every
            .iter()
            .zip(&least)
            .map(|(all, least)| first_among(all, least + 1).unwrap())
            .collect();
        assert_eq!(masks, joined(&first_least));
        // Where every cap is its need, least moves leave no choice of stays.
        if settings.cap_of == settings.need_of {
            assert_eq!(layout.each(order::greedy), Ok(masks.clone()));
        }
        found += 1;
        improved += u32::from(count > 0);
        several += u32::from(count > 1);
        open += u32::from(gap(&layout, &masks) > 0);
    }
    println!("{found} placed, {improved} improved, {several} more than once, {open} with a gap at the end");
    assert!(found > 1000 && improved > 500 && several > 200 && open > 20);
}

/// Waits are decide's, whatever the rounds; a plan differs from decide's in masks
/// and total alone, its state is sound, and nobody has fewer moves by more than
/// the gap.
#[test]
fn beside_decide() {
    let mut random = Random(0x12_0012);
    let (mut plans, mut waits, mut more) = (0, [0; 6], 0);
    for _ in 0..3000 {
        let world = random_world(&mut random, 6);
        let mut decided = world.clone();
        let decision = decided.decide();
        let count = [0, 1, 2, 128][random.below(4) as usize];
        let World {
            settings,
            state,
            desk,
        } = &world;
        let answer = rounds(Role::Planner, settings, state, desk, count).unwrap();
        assert_eq!(answer.decision, decision);
        if let Decision::Wait(wait) = decision {
            assert_eq!((&answer.state, answer.gap), (state, 0));
            waits[wait.reason() as usize] += 1;
            continue;
        }
        let next = World {
            state: answer.state,
            ..world.clone()
        };
        assert_eq!(next.check(), 0);
        let (one, other) = (next.state().plan.unwrap(), decided.state().plan.unwrap());
        assert!(other.total <= one.total && one.total - other.total <= answer.gap);
        assert!(count < 128 || one.total == other.total);
        let mut alike = next.state.clone();
        alike[57..74].copy_from_slice(&decided.state[57..74]);
        assert_eq!(alike, decided.state);
        plans += 1;
        more += u32::from(one.total > other.total);
    }
    println!("{plans} plans, {more} of more moves than decide's, waits by reason {waits:?}");
    assert!(plans > 500 && more > 50 && waits[2..].iter().all(|&count| count > 50));
}

/// How many rounds a layout takes, by flow, and the placement at their end. No
/// round leaves the gap as it was.
fn course(layout: &Layout) -> (u32, Placement) {
    let mut masks = reached(layout, GREEDY, 0).unwrap();
    let mut count = 0;
    while let Some(better) = round(layout, GREEDY, &masks) {
        assert!(layout.valid(&better) && gap(layout, &better) < gap(layout, &masks));
        masks = better;
        count += 1;
    }
    (count, masks)
}

/// Four subgroups of four shards that need eight of 32 nodes each. The start
/// gives each shard in turn the first nodes that it can have; nobody stays,
/// though all could. A round brings one node back, the last of a subgroup two.
#[test]
fn many_rounds() {
    let mut words = vec![32, 16, 1, 16];
    words.extend((0..32).map(|node| node / 2));
    words.extend((0..16).map(|shard| shard % 4 * 256 + 8));
    let settings = settings::parse(&words).unwrap();
    let lists = [0x0000_5555, 0x0000_AAAA, 0x5555_0000, 0xAAAA_0000];
    for (turned, rounds) in [([3, 2, 1, 0], 64), ([1, 2, 3, 0], 124), ([2, 3, 0, 1], 124)] {
        let old: Vec<u32> = (0..16).map(|shard| lists[turned[shard / 4]]).collect();
        let layout = Layout {
            settings: &settings,
            held: u32::MAX,
            old: &old,
        };
        let start = reached(&layout, GREEDY, 0).unwrap();
        let first: Vec<u32> = (0..16).map(|shard| lists[shard / 4]).collect();
        assert_eq!((&start, gap(&layout, &start)), (&first, 128));
        assert_eq!(course(&layout), (rounds, old.clone()));
    }
}

/// All 128 rounds are needed: two shards in each subgroup that need two sets and
/// had two nodes. The start gives them all 32 nodes, 16 each, and nobody stays;
/// each round leaves one move less.
#[test]
fn every_round_is_needed() {
    let mut words = vec![32, 2, 1, 8];
    words.extend((0..32).map(|node| u32::from((15..31).contains(&node))));
    words.extend((0..8).map(|shard| 16 * 65536 + shard % 4 * 256 + 2));
    let old = [[0x8001_0000; 4], [0x0000_8001; 4]].concat();
    let World {
        settings,
        state,
        desk,
    } = World::plain(&words, u32::MAX, u32::MAX, &old);
    for count in [
        0,
        1,
        2,
        31,
        32,
        33,
        64,
        100,
        126,
        127,
        128,
        129,
        1 << 16,
        u32::MAX,
    ] {
        let answer = rounds(Role::Planner, &settings, &state, &desk, count).unwrap();
        let left = 128 - count.min(128);
        assert_eq!(answer.decision, Decision::Plan);
        assert_eq!((answer.state[57], answer.gap), (left, left));
        let masks = &answer.state[58..66];
        match count {
            0 => assert_eq!(masks, [[0xFFFF; 4], [0xFFFF_0000; 4]].concat()),
            32 => {
                let after = [0x8001_0000, 0xFFFF, 0xFFFF, 0xFFFF, 0x8001];
                assert_eq!(masks[..5], after);
                assert_eq!(masks[5..], [0xFFFF_0000; 3]);
            }
            128.. => assert_eq!(masks, old),
            _ => {}
        }
    }
}

/// Layouts of up to 32 nodes, by flow alone: the end is the first of least moves
/// in each subgroup, as many rounds as the gap at 0 rounds are enough, and where
/// decide has a placement, rounds have one.
#[test]
fn large_layouts() {
    let mut random = Random(0x3232_1616);
    let (mut found, mut rounds, mut most) = (0, 0, 0);
    for _ in 0..150 {
        let (nodes, sets) = (12 + random.below(21), 1 + random.below(16));
        let (shards, subgroups) = (1 + random.below(16), 1 + random.below(4));
        let need = 1 + random.below(sets.min(1 + nodes * subgroups / (shards * 2)));
        let wide = random.below(3);
        let mut words = vec![nodes, sets, 1, shards];
        words.extend((0..nodes).map(|_| random.below(sets)));
        for _ in 0..shards {
            let need = 1 + random.below(need);
            let cap = (need + wide * random.below(4)).min(16);
            words.push(cap * 65536 + random.below(subgroups) * 256 + need);
        }
        let settings = settings::parse(&words).unwrap();
        let mut old = vec![0; shards as usize];
        for number in 0..subgroups {
            let own = settings.shards_of(number);
            for node in (0..nodes).filter(|_| !own.is_empty()) {
                let shard = own[random.below(own.len() as u32) as usize];
                old[shard as usize] |= mask::only(node);
            }
        }
        let layout = Layout {
            settings: &settings,
            held: mask::below(nodes) & !mask::only(random.below(nodes)),
            old: &old,
        };
        let start = reached(&layout, GREEDY, 0);
        assert_eq!(start.clone().err(), layout.each(order::greedy).err());
        let Ok(start) = start else { continue };
        let (count, end) = course(&layout);
        assert!(count <= gap(&layout, &start) && gap(&layout, &start) <= MOST_ROUNDS);
        assert_eq!(reached(&layout, GREEDY, MOST_ROUNDS), Ok(end.clone()));
        let first_least = |one: &Subgroup| one.first_within(one.least_moves()?);
        assert_eq!(layout.each(first_least), Ok(end.clone()));
        found += 1;
        rounds += count;
        most = most.max(count);
    }
    println!("{found} placed, {rounds} rounds, up to {most} in one");
    assert!(found > 60 && rounds > 500);
}
