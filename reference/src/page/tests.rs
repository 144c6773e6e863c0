use super::*;
use crate::cases::{report as report_of, terminated, World, SETTINGS};
use crate::events::{self, Decision};
use crate::message::{encode as message_of, Contents, Triple, MEMBERS, RUN};
use crate::quorum::Wait;

impl World {
    /// What a page answers, where both ways to find a placement do.
    fn asked(&self, role: Role, subgroup: u32) -> Result<Vec<u32>, Number> {
        let by = |choice: Choice| {
            let World {
                settings,
                state,
                desk,
            } = self;
            page_by(choice, role, settings, state, desk, subgroup, 512)
        };
        let page = by(order::greedy);
        assert_eq!(page, by(order::exhaustive));
        page
    }

    /// The page of a subgroup, which is the same for planner and watcher.
    fn page(&self, subgroup: u32) -> Vec<u32> {
        let page = self.asked(Role::Planner, subgroup).unwrap();
        assert_eq!(
            self.asked(Role::Watcher(subgroup), subgroup),
            Ok(page.clone())
        );
        assert_eq!(page.len(), 72);
        page
    }

    fn refused(&self, role: Role, subgroup: u32) -> u32 {
        self.asked(role, subgroup).unwrap_err().0
    }
}

/// The words of a page by its parts, each as far as it is not zero.
fn words(head: [u32; 6], holders: &[u32], targets: &[u32], masks: &[u32]) -> Vec<u32> {
    let mut words = vec![0; 72];
    words[..6].copy_from_slice(&head);
    words[8..8 + holders.len()].copy_from_slice(holders);
    words[24..24 + targets.len()].copy_from_slice(targets);
    words[56..56 + masks.len()].copy_from_slice(masks);
    words
}

fn settings_with(index: usize, word: u32) -> [u32; 14] {
    let mut settings = SETTINGS;
    settings[index] = word;
    settings
}

/// Case A through all phases.
#[test]
fn case_a() {
    let mut world = World::printed(&SETTINGS, &[0, 1, 2, 3, 4, 5]);
    let targets = [0, 0, 7, 5];
    let of_phase = |phase| words([phase, 7, 7, 7, 1, 2], &[0, 1, 5], &targets, &[5, 50, 8]);
    assert_eq!(world.page(0), of_phase(0));
    assert_eq!(world.page(1), words([0, 7, 0, 0, 1, 0], &[], &[], &[]));
    assert_eq!(world.refused(Role::Planner, 4), 15);
    assert_eq!(world.decide(), Decision::Plan);
    assert_eq!(world.page(0), of_phase(1));
    for node in 0..6 {
        world.mark(events::fetched, node);
        assert_eq!(world.page(0), of_phase(if node < 5 { 1 } else { 2 }));
    }
    for node in 0..6 {
        world.mark(events::prepared, node);
        assert_eq!(world.page(0), of_phase(if node < 5 { 2 } else { 3 }));
    }
    assert_eq!(world.page(3), words([3, 7, 0, 0, 1, 0], &[], &[], &[]));
}

/// Decide waits, and the page says what there is.
#[test]
fn waits_aside() {
    let few = words([0, 7, 7, 3, 0, 0], &[0, 1], &[0, 0, 7, 5], &[]);
    let mut world = World::printed(&SETTINGS, &[0, 1, 2, 3, 4]);
    assert_eq!(world.page(0), few);
    assert_eq!(world.decide(), Decision::Wait(Wait::NoHolder(2)));
    let mut world = World::printed(&SETTINGS, &[0, 1, 4]);
    assert_eq!(world.page(0), few);
    assert_eq!(world.decide(), Decision::Wait(Wait::NoMajority));
    let mut world = World::printed(&settings_with(11, 3), &[0, 1, 2, 3, 4, 5]);
    let page = words([0, 7, 7, 7, 0, 0], &[0, 1, 5], &[0, 0, 7, 5], &[]);
    assert_eq!(world.page(0), page);
    assert_eq!(world.decide(), Decision::Wait(Wait::NoPlacement(0)));
}

#[test]
fn no_kept_view() {
    let world = World::of(&SETTINGS, &[]);
    assert_eq!(world.page(0), words([0, 0, 7, 0, 0, 0], &[], &[], &[]));
    assert_eq!(world.page(2), words([0, 0, 0, 0, 1, 0], &[], &[], &[]));
}

/// All have gone again: the kept view remains, and nobody holds anything.
#[test]
fn nobody_held() {
    let mut world = World::printed(&SETTINGS, &[0]);
    world.mark(events::drop_node, 0);
    assert_eq!(world.page(0), words([0, 7, 7, 0, 0, 0], &[], &[], &[]));
}

/// Shards of two subgroups: each has its own placement, although decide waits
/// for a holder, or has no placement in another.
#[test]
fn two_subgroups() {
    let mut settings = SETTINGS;
    settings[11..].copy_from_slice(&[3 * 256 + 2, 3, 3 * 256 + 1]);
    let reports = [0, 2, 3, 4].map(|node| message_of(&report_of(node, 7, &[])));
    for least in [4, 7] {
        settings[2] = least;
        let mut world = World::of(&settings, &reports);
        let page = words([0, 7, 5, 1, 1, 1], &[0], &[], &[5, 0, 8]);
        assert_eq!(world.page(3), page);
        let page = words([0, 7, 2, 2, 0, 0], &[0, 4], &[], &[]);
        assert_eq!(world.page(0), page);
        let wait = match least {
            4 => Wait::NoHolder(2),
            _ => Wait::TooFew,
        };
        assert_eq!(world.decide(), Decision::Wait(wait));
    }
}

/// A kept termination that nobody has is no target.
#[test]
fn a_termination_without_holder() {
    let positions = [(7, 4), (0, 0), (0, 0)];
    let reports = [
        message_of(&terminated(&report_of(0, 7, &[]), positions)),
        message_of(&report_of(2, 7, &[])),
    ];
    let world = World::of(&SETTINGS, &reports);
    assert_eq!(world.page(0), words([0, 7, 7, 0, 0, 0], &[], &[], &[]));
}

#[test]
fn a_stale_machine() {
    let reports = [(1, 6, (6, 9)), (4, 7, (6, 8))];
    let reports = reports.map(|(node, view, run)| message_of(&report_of(node, view, &[run])));
    let world = World::of(&SETTINGS, &reports);
    let page = words([0, 7, 7, 2, 0, 0], &[0, 4], &[0, 0, 6, 8], &[]);
    assert_eq!(world.page(0), page);
}

#[test]
fn a_cap() {
    let world = World::printed(&settings_with(12, 262_146), &[0, 1, 2, 3, 4, 5]);
    let page = words([0, 7, 7, 7, 1, 0], &[0, 1, 5], &[0, 0, 7, 5], &[5, 18, 32]);
    assert_eq!(world.page(0), page);
}

/// Outside gathering the placement is the plan's, though it is not the best,
/// and the moves are this subgroup's.
#[test]
fn another_plan() {
    let mut world = World::printed(&SETTINGS, &[0, 1, 2, 3, 4, 5]);
    assert_eq!(world.decide(), Decision::Plan);
    world.state[57..61].copy_from_slice(&[5, 6, 41, 16]);
    let page = words([1, 7, 7, 7, 1, 5], &[0, 1, 5], &[0, 0, 7, 5], &[6, 41, 16]);
    assert_eq!(world.page(0), page);

    let mut settings = SETTINGS;
    settings[11..].copy_from_slice(&[3 * 256 + 2, 3, 3 * 256 + 1]);
    let mut world = World::printed(&settings, &[0, 1, 2, 3, 4, 5]);
    assert_eq!(world.decide(), Decision::Plan);
    assert_eq!(world.state[57], 1, "moves in all subgroups");
    let page = words([1, 7, 2, 2, 1, 1], &[0, 1], &[0, 0, 7, 5], &[0, 50]);
    assert_eq!(world.page(0), page);
    let page = words([1, 7, 5, 5, 1, 0], &[0, 0, 5], &[], &[5, 0, 32]);
    assert_eq!(world.page(3), page);
}

/// The words of roles that are none get 15 for every page.
#[test]
fn roles_of_nobody() {
    let world = World::printed(&SETTINGS, &[0, 1, 2, 3, 4, 5]);
    for word in [0, 1, 255, 257, 511, 516, 768, u32::MAX] {
        for subgroup in [0, 1, 2, 3, 4, 5, u32::MAX] {
            assert_eq!(world.refused(Role::of(word), subgroup), 15);
        }
    }
    for own in 0..4 {
        for subgroup in [0, 1, 2, 3, 4, 5, 512, u32::MAX] {
            if subgroup != own {
                assert_eq!(world.refused(Role::Watcher(own), subgroup), 15);
            }
        }
    }
    for subgroup in [4, 5, 256, u32::MAX] {
        assert_eq!(world.refused(Role::Planner, subgroup), 15);
    }
}

/// Rows 1, 2, 15 and 3, in this order.
#[test]
fn rows_of_a_page() {
    let good = World::printed(&SETTINGS, &[0, 1, 2, 3, 4, 5]);
    let mut world = good.clone();
    world.state[0] = 9;
    let watcher = Role::Watcher(0);
    assert_eq!(world.refused(watcher, 0), 3);
    assert_eq!(world.refused(watcher, 1), 15);
    assert_eq!(world.refused(Role::Planner, 4), 15);
    world.state.pop();
    assert_eq!(world.refused(watcher, 1), 15);
    assert_eq!(world.refused(watcher, 0), 3);
    world.settings[0] = 0;
    assert_eq!(world.refused(watcher, 1), 2);
    world.desk.pop();
    assert_eq!(world.refused(watcher, 1), 1);
    for buffer in [0, 72, 511, 513] {
        let World {
            settings,
            state,
            desk,
        } = &good;
        let page = page(Role::Planner, settings, state, desk, 0, buffer);
        assert_eq!(page, Err(Number(1)));
    }
}

/// A report of view 7 with these masks and these runs of shards.
fn with_masks(node: u32, masks: &[u32], runs: &[(u32, u32, u32)]) -> Vec<u32> {
    let mask = |(shard, &mask): (u32, &u32)| Triple::new(MEMBERS, shard, mask, 0);
    let run = |&(shard, view, count): &(u32, u32, u32)| Triple::new(RUN, shard, view, count);
    let masks = (0..).zip(masks).map(mask);
    message_of(&Contents {
        node,
        view: 7,
        members: 7,
        records: masks.chain(runs.iter().map(run)).collect(),
    })
}

/// Two worlds that agree on subgroup 0 and on little else: one decides a plan,
/// the other waits.
#[test]
fn a_pair_of_worlds() {
    let mut one = World::of(
        &[3, 2, 1, 2, 0, 1, 1, 1, 257],
        &[
            with_masks(0, &[1, 2], &[(0, 7, 2)]),
            with_masks(1, &[1, 2], &[(1, 7, 9)]),
        ],
    );
    let mut other = World::of(
        &[3, 3, 3, 3, 0, 1, 1, 1, 514, 257],
        &[
            with_masks(0, &[1, 6, 2], &[(0, 7, 2), (1, 5, 1), (1, 7, 1)]),
            with_masks(1, &[1, 6, 2], &[(2, 6, 3)]),
        ],
    );
    let page = words([0, 7, 1, 1, 1, 0], &[0], &[7, 2], &[1]);
    assert_eq!(one.page(0), page);
    assert_eq!(other.page(0), page);
    assert_ne!(one.page(1), other.page(1));
    assert_eq!(one.decide(), Decision::Plan);
    assert_eq!(other.decide(), Decision::Wait(Wait::TooFew));
}
