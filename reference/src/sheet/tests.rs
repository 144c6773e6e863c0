use super::*;
use crate::cases::{
    four_reports, one_shard, printed_report, report, reported, reports, terminated, FOUR,
    MEMBERS_MASK, SETTINGS, SEVEN,
};
use crate::desk::{self, DESK_WORDS};
use crate::message::{encode, Contents, Triple, MEMBERS, RUN, TERMINATION};
use crate::order;
use crate::program::Reported;

fn sheet_of(world: &Reported) -> Result<Sheet, Number> {
    sheet(Role::Planner, &world.settings, &world.state, &world.desk)
}

fn ready_of(world: &Reported) -> Ready {
    let Reported {
        settings,
        state,
        desk,
    } = world;
    ready(Role::Planner, settings, state, desk, |_| true).unwrap()
}

fn refused(world: &Reported) -> u32 {
    sheet_of(world).unwrap_err().0
}

/// A small xorshift generator.
struct Random(u64);

impl Random {
    fn below(&mut self, limit: u32) -> u32 {
        self.0 ^= self.0 << 13;
        self.0 ^= self.0 >> 7;
        self.0 ^= self.0 << 17;
        ((self.0 >> 33) % u64::from(limit)) as u32
    }
}

/// Settings of up to `most` nodes, and every node's report of one of two views.
fn world(random: &mut Random, most: u32) -> Reported {
    let nodes = 1 + random.below(most);
    let sets = 1 + random.below(nodes.min(3));
    let shards = 1 + random.below(3);
    let mut settings = vec![nodes, sets, 1 + random.below(nodes), shards];
    settings.extend((0..nodes).map(|_| random.below(sets)));
    for shard in 0..shards {
        // Subgroups of their own: any mask will do.
        let need = 1 + random.below(sets.min(2));
        let cap = [0, 0, need, 16][random.below(4) as usize];
        settings.push(cap * 65536 + shard * 256 + need);
    }
    let all = mask::below(nodes);
    let mut views = Vec::new();
    for _ in 0..2 {
        let mut masks = Vec::new();
        for _ in 0..shards {
            masks.push(1 + random.below(all));
        }
        views.push((all, masks));
    }
    let positions: Option<Vec<(u32, u32)>> = (random.below(3) == 0).then(|| {
        let position = |_| [(0, 0), (6, 1), (7, 1)][random.below(3) as usize];
        (0..shards).map(position).collect()
    });
    let mut messages = Vec::new();
    for node in 0..nodes {
        let old = random.below(4) == 0;
        let (members, masks) = &views[usize::from(old)];
        let mut records = Vec::new();
        for (shard, &mask) in (0..).zip(masks) {
            records.push(Triple::new(MEMBERS, shard, mask, 0));
        }
        if let (Some(positions), false, true) = (&positions, old, random.below(2) == 0) {
            for (shard, &(view, k)) in (0..).zip(positions) {
                records.push(Triple::new(TERMINATION, shard, view, k));
            }
        }
        for shard in 0..shards {
            for view in 6..=7 - u32::from(old) {
                if random.below(2) == 0 {
                    records.push(Triple::new(RUN, shard, view, 1 + random.below(2)));
                }
            }
        }
        messages.push(encode(&Contents {
            node,
            view: 7 - u32::from(old),
            members: *members,
            records,
        }));
    }
    reported(&settings, &messages)
}

/// Worlds that the laws below are tried on.
fn worlds() -> Vec<Reported> {
    let mut random = Random(11);
    let mut worlds: Vec<Reported> = (0..100).map(|_| world(&mut random, 6)).collect();
    worlds.push(reported(&SETTINGS, &reports(&SEVEN)));
    worlds.push(reported(&FOUR, &four_reports()));
    worlds
}

/// The lines with `undecided` nodes down or up below the nodes `above`: those
/// with the last of them down, followed by those with it up.
fn halves(ready: &Ready, undecided: u32, above: u32) -> Vec<Line> {
    let Some(last) = undecided.checked_sub(1) else {
        let number = number_of(ready.decide(above));
        return vec![Line {
            mask: above,
            number,
        }];
    };
    let mut lines = halves(ready, last, above);
    lines.extend(halves(ready, last, above | mask::only(last)));
    lines
}

#[test]
fn last_node_down_then_up() {
    for world in worlds() {
        let sheet = sheet_of(&world).unwrap();
        let ready = ready_of(&world);
        assert_eq!(sheet.lines, halves(&ready, ready.nodes, 0));
    }
}

/// Every mask stands in the sheet one time, the counts add up to 2 to the power
/// N, and each is the number of its lines.
#[test]
fn masks_and_counts() {
    let mut seen = [0; COUNTS];
    for world in worlds() {
        let sheet = sheet_of(&world).unwrap();
        let sets = 1 << world.settings[0];
        let masks: Vec<u32> = sheet.lines.iter().map(|line| line.mask).collect();
        assert_eq!(masks, (0..sets).collect::<Vec<u32>>());
        let counts = sheet.counts();
        assert_eq!(counts.iter().sum::<u32>(), sets);
        let mut by_line = [0; COUNTS];
        for line in &sheet.lines {
            let place = [0, 2, 3, 4, 5].iter().position(|&n| n == line.number);
            by_line[place.expect("a plan or one of waits 2 to 5")] += 1;
        }
        assert_eq!(counts, by_line);
        // Nobody is no majority.
        assert_eq!(sheet.lines[0].number, 2);
        for (seen, count) in seen.iter_mut().zip(counts) {
            *seen += count;
        }
    }
    assert!(seen.iter().all(|&count| count > 30), "{seen:?}");
}

/// What decide says once the other nodes have been dropped, and what it says
/// with the exhaustive choice of placements.
#[test]
fn the_others_dropped() {
    for world in worlds() {
        let nodes = world.settings[0];
        for line in sheet_of(&world).unwrap().lines {
            let mut state = world.state.clone();
            for node in mask::nodes(mask::below(nodes) & !line.mask) {
                state =
                    events::drop_node(Role::Planner, &world.settings, &state, &world.desk, node)
                        .unwrap();
            }
            let (settings, desk) = (&world.settings, &world.desk);
            let decided =
                events::decide_by(order::exhaustive, Role::Planner, settings, &state, desk);
            let (decision, _) = decided.unwrap();
            assert_eq!(line.number, number_of(decision), "mask {}", line.mask);
        }
    }
}

/// Which nodes the state holds plays no part, nor what it remembers of them.
#[test]
fn held_and_memory_play_no_part() {
    for world in worlds() {
        let expected = sheet_of(&world);
        for held in [0, 1, world.state[52]] {
            for remembered in [0, 6, 7, u32::MAX] {
                let mut state = world.state.clone();
                state[52] = held;
                for node in 0..world.settings[0] {
                    if !mask::has(held, node) {
                        state[122 + node as usize] = remembered;
                    }
                }
                let settings = &world.settings;
                let other = sheet(Role::Planner, settings, &state, &world.desk);
                assert_eq!(other, expected);
            }
        }
    }
}

/// Caps change no line.
#[test]
fn caps_change_no_line() {
    for world in worlds() {
        let first = world.settings.len() - world.settings[3] as usize;
        for cap in [0, 3, 16] {
            let mut settings = world.settings.clone();
            for word in &mut settings[first..] {
                *word = cap * 65536 + *word % 65536;
            }
            let other = sheet(Role::Planner, &settings, &world.state, &world.desk);
            assert_eq!(other, sheet_of(&world));
        }
    }
}

/// Number 23: a slot that would not be sound if its node were held.
#[test]
fn every_slot_is_looked_at() {
    let mut world = reported(&SETTINGS, &reports(&SEVEN));
    let good = sheet_of(&world).unwrap();
    let (settings, state, desk) = (&world.settings, &world.state, &world.desk);
    world.state = events::drop_node(Role::Planner, settings, state, desk, 6).unwrap();
    assert_eq!(sheet_of(&world).as_ref(), Ok(&good));
    let none = [(0, 0); 3];
    let other_masks = Contents {
        members: MEMBERS_MASK & !8,
        ..report(6, 7, &[])
    };
    let bad: [Vec<u32>; 7] = [
        vec![],
        vec![0; 4],
        printed_report(5),
        encode(&report(6, 8, &[])),
        encode(&terminated(&report(6, 7, &[]), none)),
        encode(&other_masks),
        vec![6, 7, 127, 0],
    ];
    for slot in bad {
        world.desk = desk::with_message(&world.desk, 6, &slot);
        assert_eq!(refused(&world), 23, "{slot:?}");
    }
    // A termination of an older view is not asked for.
    let old = terminated(&report(6, 6, &[]), none);
    world.desk = desk::with_message(&world.desk, 6, &encode(&old));
    let counts = sheet_of(&world).unwrap().counts();
    assert_eq!(counts, [7, 64, 0, 32, 25]);
}

/// Rows 1, 2, 15, 3, 4, 22 and 23, in this order.
#[test]
fn rows() {
    let eleven = {
        let mut settings = vec![11, 1, 1, 1];
        settings.resize(15, 0);
        settings.push(1);
        settings
    };
    let mut world = Reported {
        settings: vec![],
        state: vec![7],
        desk: vec![],
    };
    let said = |world: &Reported, role: Role| {
        let Reported {
            settings,
            state,
            desk,
        } = world;
        sheet(role, settings, state, desk).unwrap_err().0
    };
    assert_eq!(said(&world, Role::Nobody), 1);
    world.desk = vec![0; DESK_WORDS];
    assert_eq!(said(&world, Role::Nobody), 2);
    world.settings = eleven.clone();
    for role in [Role::Nobody, Role::Watcher(0), Role::Watcher(3)] {
        assert_eq!(said(&world, role), 15);
    }
    assert_eq!(said(&world, Role::Planner), 3);
    // Eleven nodes, no kept view.
    world.state = state::encode(&state::fresh());
    assert_eq!(said(&world, Role::Planner), 22);
    world.settings = [vec![10, 1, 1, 1], vec![0; 10], vec![1]].concat();
    assert_eq!(said(&world, Role::Planner), 23);
    // Ordered, with eleven nodes.
    let mut ordered = reported(&eleven, &[one_shard(0, 1, 1, 1)]);
    let Reported {
        settings,
        state,
        desk,
    } = &ordered;
    let (decision, next) = events::decide(Role::Planner, settings, state, desk).unwrap();
    assert_eq!(decision, Decision::Plan);
    assert_eq!(said(&ordered, Role::Planner), 22);
    ordered.state = next;
    assert_eq!(said(&ordered, Role::Planner), 4);
}
