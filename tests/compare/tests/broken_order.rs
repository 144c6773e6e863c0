//! The comparison finds planners whose plans are valid, of the least moves and
//! of the most stays, but not the first of them. Each stand-in below is the
//! reference with another choice among placements that are as good.

use differential::calls::{self, Asked, Outcome, Pages};
use differential::library::{Planner, PLAN};
use differential::mock::{self, Behaviour, Faithful};
use differential::plans::{self, Size, Tally};
use differential::{events, regressions};
use reference::mask;
use reference::order::{self, Choice};
use reference::placement::{Placement, Subgroup};
use reference::{settings, state, words};
use std::cmp::Ordering;

const SEED: u64 = 20_261_116;
const SEQUENCES: u64 = 1000;
const CASES: u64 = 2000;
/// Stand-ins that go through all placements do so up to this many.
const MOST: u64 = 5_000;

/// What differs in the first case that does.
fn found_in_plans(planner: &Planner, size: Size) -> Option<String> {
    let mut pages = Pages::new(false);
    (0..CASES).find_map(|index| {
        let case = plans::case(SEED, size, index);
        plans::compare(planner, &mut pages, &case).err()
    })
}

/// What differs in the first sequence that does.
fn found_in_events(planner: &Planner) -> Option<String> {
    let mut pages = Pages::new(false);
    (0..SEQUENCES).find_map(|index| {
        let sequence = events::sequence(SEED, index);
        let played = events::play(planner, &mut pages, sequence, |_, _| {});
        played.err().map(|difference| difference.what)
    })
}

/// The reference's outcome, where `choice` finds the placements of a plan.
fn chosen(choice: Choice, asked: &Asked) -> Outcome {
    let first = calls::expected(asked);
    if first.answer != PLAN {
        return first;
    }
    let other = calls::expected_by(choice, asked);
    assert_as_good(asked, &first, &other);
    other
}

/// The other plan is a plan of equal moves, and not an earlier one. (Of its
/// stays the choices below see to themselves.)
fn assert_as_good(asked: &Asked, first: &Outcome, other: &Outcome) {
    let settings = settings::parse(&words::whole_words(&asked.table.settings)).unwrap();
    let plan = |outcome: &Outcome| {
        let state = state::decode(&settings, &words::whole_words(&outcome.state)).unwrap();
        state.plan.unwrap()
    };
    let (first, other) = (plan(first), plan(other));
    assert_eq!(first.total, other.total);
    assert_ne!(
        order::compare(&first.masks, &other.masks),
        Ordering::Greater
    );
}

/// Defines a stand-in by its choice, and its test.
macro_rules! later {
    ($(#[$text:meta])* $name:ident, $test:ident, $choice:expr) => {
        $(#[$text])*
        struct $name;

        impl Behaviour for $name {
            fn event(asked: &Asked) -> Outcome {
                chosen($choice, asked)
            }
        }

        #[test]
        fn $test() {
            let planner = mock::planner::<$name>();
            let by_plans = found_in_plans(&planner, Size::Small);
            let by_events = found_in_events(&planner);
            println!("{}: {by_plans:?}; {by_events:?}", stringify!($name));
            assert!(by_plans.is_some(), "not found by plans");
            assert!(by_events.is_some(), "not found by events");
        }
    };
}

#[test]
fn the_reference_agrees_with_itself() {
    let planner = mock::planner::<Faithful>();
    let mut pages = Pages::new(true);
    for size in [Size::Small, Size::Large] {
        let mut tally = Tally::default();
        for index in 0..150 {
            let case = plans::case(SEED, size, index);
            match plans::compare(&planner, &mut pages, &case) {
                Ok(compared) => tally.count(&case, &compared),
                Err(what) => panic!("{} case {index}: {what}", size.name()),
            }
        }
        tally.print(size);
        assert!(tally.plans > 100);
    }
    let stored = regressions::play_all(&planner, &mut pages);
    assert!(stored.is_ok());
}

/// The first of the best placements by another order, where there are not too
/// many; else the right one.
fn first_by<K: Ord>(subgroup: &Subgroup, key: impl Fn(&Placement) -> K) -> Option<Placement> {
    if many(subgroup) {
        return order::greedy(subgroup);
    }
    order::all_best(subgroup).into_iter().min_by_key(key)
}

/// Whether the placements are too many to go through.
fn many(subgroup: &Subgroup) -> bool {
    let nodes = mask::count(subgroup.held);
    let shards = subgroup.settings.shards_of(subgroup.number);
    nodes > 12 || plans::placements(subgroup.settings, &shards, nodes) > MOST
}

fn lists(masks: &[u32]) -> Vec<Vec<u32>> {
    masks.iter().map(|&own| mask::nodes(own)).collect()
}

later!(
    /// Takes the placement that the flow comes to.
    FromTheFlow,
    what_the_flow_comes_to,
    |subgroup| subgroup.any_best()
);

later!(
    /// Takes the last one.
    Last,
    the_last_of_equal_moves,
    |subgroup| first_by(subgroup, |masks| std::cmp::Reverse(lists(masks)))
);

later!(
    /// Starts with the last shard.
    LastShardFirst,
    shards_descending,
    |subgroup| first_by(subgroup, |masks| {
        let mut lists = lists(masks);
        lists.reverse();
        lists
    })
);

/// Has those that stay first, then the others, which is seldom another order: a
/// stored case has it.
struct StaysFirst;

impl Behaviour for StaysFirst {
    fn event(asked: &Asked) -> Outcome {
        let stays_first = |subgroup: &Subgroup| {
            first_by(subgroup, |masks| {
                let both = masks.iter().zip(subgroup.old);
                both.map(|(own, old)| [own & old, own & !old].map(mask::nodes))
                    .collect::<Vec<_>>()
            })
        };
        chosen(stays_first, asked)
    }
}

#[test]
fn old_members_listed_first() {
    let planner = mock::planner::<StaysFirst>();
    let found = regressions::play_all(&planner, &mut Pages::new(false)).err();
    assert!(found.is_some_and(|what| what.contains("who stays does not count in a list")));
}

later!(
    /// Has the first placement in subgroup 0 and any in the others.
    OnlySubgroup0,
    the_order_in_subgroup_0_alone,
    |subgroup| match subgroup.number {
        0 => order::greedy(subgroup),
        _ => subgroup.any_best(),
    }
);

later!(
    /// Has the last list in the last shard of each subgroup, all others right.
    LastShardLast,
    the_last_shard_of_a_subgroup,
    |subgroup| {
        let shards = subgroup.settings.shards_of(subgroup.number);
        let last = shards.last().map_or(0, |&last| last as usize);
        first_by(subgroup, |masks| {
            let mut lists = lists(masks);
            let own = std::mem::take(&mut lists[last]);
            (lists, std::cmp::Reverse(own))
        })
    }
);

/// The flow's placement is found in large cases as well.
#[test]
fn what_the_flow_comes_to_in_large_cases() {
    let planner = mock::planner::<FromTheFlow>();
    assert!(found_in_plans(&planner, Size::Large).is_some());
}

/// What the comparison says of a plan that is as cheap and comes later.
#[test]
fn the_difference_is_a_mask_of_the_plan() {
    let planner = mock::planner::<Last>();
    let what = found_in_plans(&planner, Size::Small).expect("a difference");
    let word = what.split(' ').nth(1).and_then(|word| word.parse().ok());
    assert!(
        word.is_some_and(|word: usize| (58..74).contains(&word)),
        "{what}"
    );
}
