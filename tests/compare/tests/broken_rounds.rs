//! The comparison of decisions by rounds finds libraries that are wrong. Each
//! stand-in below is the reference with one fault in what restart_decide_within does;
//! the random inputs must come to it. Those that break what decide, the gap and
//! the round before promise are found again without the reference.

use differential::calls::{self, Asked, Kind, Outcome, Pages};
use differential::library::{Answer, Planner, PLAN};
use differential::mock::{self, Behaviour, Faithful};
use differential::pairs::{self, World};
use differential::previews::Sort;
use differential::regressions;
use differential::rounds::{Comparison, Tally};
use reference::order::{self, Layout};
use reference::placement::Placement;
use reference::roles::PLANNER;
use reference::rounds::{self, Way, GREEDY};
use reference::{events, mask, roles, words};

const SEED: u64 = 20_261_117;
/// Restarts, and layouts of each sort but for the first large one, which is far.
const RESTARTS: u64 = 40;
const LAYOUTS: u64 = 70;

/// The first input at which the planner differs, and how.
fn found(planner: &Planner, with_reference: bool) -> Option<(Sort, u64, String)> {
    let mut comparison = Comparison {
        planner,
        pages: &mut Pages::new(false),
        with_reference,
        tally: &mut Tally::default(),
    };
    let sorts = [Sort::Small, Sort::Tight, Sort::Large, Sort::Restart];
    let inputs = |sort| match sort {
        Sort::Restart => 0..RESTARTS,
        _ => 1..LAYOUTS,
    };
    let of_sort = |sort| inputs(sort).map(move |index| (sort, index));
    let mut inputs = sorts.into_iter().flat_map(of_sort);
    inputs.find_map(|(sort, index)| {
        let compared = comparison.input(SEED, sort, index);
        compared
            .err()
            .map(|difference| (sort, index, difference.what))
    })
}

#[test]
fn the_reference_agrees_with_itself() {
    let mut tally = Tally::default();
    let planner = mock::planner::<Faithful>();
    let mut comparison = Comparison {
        planner: &planner,
        pages: &mut Pages::new(true),
        with_reference: true,
        tally: &mut tally,
    };
    for sort in Sort::ALL {
        for index in 1..20 {
            assert!(comparison.input(SEED, sort, index).is_ok(), "{index}");
        }
    }
    assert!(tally.calls > 60 && tally.by_rounds > 20 && tally.afterwards > 20);
}

#[test]
fn stored_cases_hold() {
    let planner = mock::planner::<Faithful>();
    let played = regressions::play_all(&planner, &mut Pages::new(true));
    assert!(played.is_ok(), "{played:?}");
}

/// How a stand-in must be found.
enum By {
    /// Only by what the reference says.
    Reference,
    /// By decide, the gap or the round before as well.
    Both,
}

fn assert_found<B: Behaviour>(by: By) {
    let planner = mock::planner::<B>();
    let with = found(&planner, true);
    println!("{}: {with:?}", std::any::type_name::<B>());
    assert!(with.is_some(), "not found by the reference");
    if let By::Both = by {
        let without = found(&planner, false);
        println!("  {without:?}");
        assert!(without.is_some(), "not found by its own events");
    }
}

/// Defines a stand-in by what it does in the place of a decision by rounds, and
/// its test.
macro_rules! wrong {
    ($(#[$text:meta])* $name:ident, $test:ident, $by:expr, $event:expr) => {
        $(#[$text])*
        struct $name;

        impl Behaviour for $name {
            fn event(asked: &Asked) -> Outcome {
                let event: fn(&Asked, Outcome) -> Outcome = $event;
                match asked.kind {
                    Kind::DecideWithin => event(asked, calls::expected(asked)),
                    _ => calls::expected(asked),
                }
            }
        }

        #[test]
        fn $test() {
            assert_found::<$name>($by);
        }
    };
}

/// The same call with other rounds.
fn with_rounds(asked: &Asked, count: u32) -> Outcome {
    calls::expected(&Asked {
        node: count,
        ..asked.clone()
    })
}

/// What is decided where the placement comes from elsewhere.
fn placed(asked: &Asked, place: impl Fn(&Layout) -> Result<Placement, u32>) -> Outcome {
    let mut outcome = calls::expected(asked);
    if !outcome.answer().planned() {
        return outcome;
    }
    let whole = |bytes: &[u8]| words::whole_words(bytes);
    let (settings, state) = (&whole(&asked.table.settings), &whole(&asked.table.state));
    let (desk, role) = (&whole(&asked.table.desk), roles::Role::of(asked.role));
    let (_, next) = events::decide_with(place, role, settings, state, desk)
        .unwrap_or_else(|_| panic!("a plan was made"));
    outcome.state = words::to_bytes(&next);
    outcome.answer = PLAN + with_layout(asked, |_, layout| rounds::gap(layout, &next[58..]));
    outcome
}

/// What of the layout that is placed.
fn with_layout<T>(asked: &Asked, of: impl FnOnce(&World, &Layout) -> T) -> T {
    let world = pairs::world(&asked.table).expect("what is planned is sound");
    let kept = world.state.kept.as_ref().expect("a plan has a kept view");
    let layout = Layout {
        settings: &world.settings,
        held: world.state.held,
        old: &kept.masks,
    };
    of(&world, &layout)
}

/// Another gap, of the plan's masks.
fn with_gap(asked: &Asked, mut outcome: Outcome, gap: fn(&Layout, &[u32]) -> u32) -> Outcome {
    if outcome.answer().planned() {
        let masks = words::whole_words(&outcome.state)[58..74].to_vec();
        let gap = with_layout(asked, |_, layout| gap(layout, &masks));
        outcome.answer = PLAN + gap;
    }
    outcome
}

/// The moves less a floor that counts each shard so.
fn above(layout: &Layout, masks: &[u32], of_shard: impl Fn(u32) -> u32) -> u32 {
    let floor: u32 = (0..layout.settings.shards).map(of_shard).sum();
    layout.moves(masks).saturating_sub(floor)
}

/// The sets of these nodes.
fn sets(layout: &Layout, nodes: u32) -> u32 {
    let nodes = mask::nodes(nodes).into_iter();
    let mut sets: Vec<u32> = nodes.map(|node| layout.settings.set(node)).collect();
    sets.sort_unstable();
    sets.dedup();
    sets.len() as u32
}

/// Rounds, each by `round`.
fn by_rounds(
    asked: &Asked,
    start: order::Choice,
    round: fn(&Layout, &[u32]) -> Option<Placement>,
) -> Outcome {
    placed(asked, |layout| {
        let mut masks = layout.each(start)?;
        for _ in 0..asked.node.min(128) {
            match round(layout, &masks) {
                Some(better) => masks = better,
                None => break,
            }
        }
        Ok(masks)
    })
}

/// The masks with one subgroup's from another placement.
fn replaced(layout: &Layout, masks: &[u32], number: u32, other: &[u32]) -> Placement {
    let mut masks = masks.to_vec();
    for shard in layout.settings.shards_of(number) {
        masks[shard as usize] = other[shard as usize];
    }
    masks
}

/// A round in the first of these subgroups that has fewer moves.
fn round_in(layout: &Layout, masks: &[u32], numbers: &[u32], way: Way) -> Option<Placement> {
    numbers.iter().find_map(|&number| {
        let subgroup = layout.subgroup(number);
        let better = (way.fewer)(&subgroup, subgroup.moves(masks))?;
        Some(replaced(layout, masks, number, &better))
    })
}

wrong!(
    /// Decides in full, whatever the rounds.
    Full,
    the_full_plan,
    By::Reference,
    |asked, _| placed(asked, |layout| layout.each(order::greedy))
);

wrong!(
    /// Starts from a placement of the fewest moves.
    StartsAtLeast,
    a_start_of_the_fewest_moves,
    By::Reference,
    |asked, _| by_rounds(asked, |subgroup| subgroup.first_within(subgroup.least_moves()?), |layout, masks| {
        rounds::round(layout, GREEDY, masks)
    })
);

wrong!(
    /// Does one round more.
    OneMore,
    a_round_more,
    By::Reference,
    |asked, _| with_rounds(asked, asked.node.saturating_add(1))
);

wrong!(
    /// Does one round less.
    OneLess,
    a_round_less,
    By::Reference,
    |asked, _| with_rounds(asked, asked.node.saturating_sub(1))
);

wrong!(
    /// Has the rounds in a byte.
    InByte,
    rounds_in_a_byte,
    By::Both,
    |asked, _| with_rounds(asked, asked.node % 256)
);

wrong!(
    /// Takes more than 128 rounds for none.
    TooManyAreNone,
    more_than_128_as_none,
    By::Both,
    |asked, outcome| match asked.node {
        0..=128 => outcome,
        _ => with_rounds(asked, 0),
    }
);

wrong!(
    /// Refuses more than 128 rounds.
    TooManyRefused,
    more_than_128_refused,
    By::Both,
    |asked, outcome| match asked.node {
        0..=128 => outcome,
        _ => Outcome::unchanged(asked, 1),
    }
);

wrong!(
    /// Does at most 8 rounds.
    Eight,
    at_most_8_rounds,
    By::Both,
    |asked, _| with_rounds(asked, asked.node.min(8))
);

wrong!(
    /// Takes a round's placement of the fewest moves.
    LeastNotFirst,
    the_fewest_in_one_round,
    By::Reference,
    |asked, _| by_rounds(asked, |subgroup| subgroup.first(), |layout, masks| {
        let fewest = Way {
            first: GREEDY.first,
            fewer: |subgroup, moves| {
                let least = subgroup.least_moves()?;
                (least < moves).then(|| subgroup.first_within(least)).flatten()
            },
        };
        round_in(layout, masks, &[0, 1, 2, 3], fewest)
    })
);

wrong!(
    /// Looks at the stays in a round.
    BestNotFirst,
    stays_in_a_round,
    By::Reference,
    |asked, _| by_rounds(asked, |subgroup| subgroup.first(), |layout, masks| {
        let best = Way {
            first: GREEDY.first,
            fewer: |subgroup, moves| {
                let best = order::greedy(subgroup)?;
                (subgroup.moves(&best) < moves).then_some(best)
            },
        };
        round_in(layout, masks, &[0, 1, 2, 3], best)
    })
);

wrong!(
    /// Takes in a round what has as many moves.
    AsMany,
    as_many_moves_in_a_round,
    By::Both,
    |asked, _| by_rounds(asked, |subgroup| subgroup.first(), |layout, masks| {
        let as_many = Way {
            first: GREEDY.first,
            fewer: |subgroup, moves| subgroup.first_within(moves),
        };
        round_in(layout, masks, &[0, 1, 2, 3], as_many)
    })
);

wrong!(
    /// Begins with the highest subgroup.
    HighestFirst,
    the_highest_subgroup_first,
    By::Both,
    |asked, _| by_rounds(asked, |subgroup| subgroup.first(), |layout, masks| {
        round_in(layout, masks, &[3, 2, 1, 0], GREEDY)
    })
);

wrong!(
    /// Stops where subgroup 0 has none of fewer moves.
    SubgroupZero,
    an_end_with_subgroup_0,
    By::Both,
    |asked, _| by_rounds(asked, |subgroup| subgroup.first(), |layout, masks| {
        round_in(layout, masks, &[0], GREEDY)
    })
);

wrong!(
    /// Leaves out subgroup 3.
    NotThree,
    rounds_without_subgroup_3,
    By::Both,
    |asked, _| by_rounds(asked, |subgroup| subgroup.first(), |layout, masks| {
        round_in(layout, masks, &[0, 1, 2], GREEDY)
    })
);

wrong!(
    /// Betters every subgroup in a round.
    EverySubgroup,
    every_subgroup_in_a_round,
    By::Both,
    |asked, _| by_rounds(asked, |subgroup| subgroup.first(), |layout, masks| {
        let mut better = masks.to_vec();
        for number in 0..4 {
            better = round_in(layout, &better, &[number], GREEDY).unwrap_or(better);
        }
        (better != masks).then_some(better)
    })
);

wrong!(
    /// Has so many rounds for each subgroup.
    RoundsEach,
    rounds_for_each_subgroup,
    By::Both,
    |asked, _| placed(asked, |layout| {
        let mut masks = layout.each(GREEDY.first)?;
        for number in 0..4 {
            for _ in 0..asked.node.min(128) {
                masks = round_in(layout, &masks, &[number], GREEDY).unwrap_or(masks);
            }
        }
        Ok(masks)
    })
);

wrong!(
    /// Stops after a round that leaves the lowest subgroup.
    StopsBetween,
    an_end_between_subgroups,
    By::Both,
    |asked, _| placed(asked, |layout| {
        let mut masks = layout.each(GREEDY.first)?;
        let used = |number: &u32| !layout.settings.shards_of(*number).is_empty();
        let lowest = (0..4).find(used).unwrap_or(0);
        for _ in 0..asked.node.min(128) {
            match round_in(layout, &masks, &[lowest], GREEDY) {
                Some(better) => masks = better,
                None => break,
            }
        }
        Ok(masks)
    })
);

wrong!(
    /// Tells no gap.
    NoGap,
    no_gap,
    By::Both,
    |asked, outcome| with_gap(asked, outcome, |_, _| 0)
);

wrong!(
    /// Tells the moves for the gap.
    GapIsMoves,
    the_moves_for_the_gap,
    By::Both,
    |asked, outcome| with_gap(asked, outcome, |layout, masks| layout.moves(masks))
);

wrong!(
    /// Tells how many moves there are above the fewest.
    GapToLeast,
    the_gap_to_the_fewest,
    By::Both,
    |asked, outcome| with_gap(asked, outcome, |layout, masks| {
        let least = layout.subgroups().map(|subgroup| subgroup.least_moves());
        layout.moves(masks) - least.flatten().sum::<u32>()
    })
);

wrong!(
    /// Counts nodes and not their sets.
    GapByNodes,
    a_gap_by_nodes,
    By::Both,
    |asked, outcome| with_gap(asked, outcome, |layout, masks| above(layout, masks, |shard| {
        let staying = mask::count(layout.held & layout.old[shard as usize]);
        layout.settings.need(shard).saturating_sub(staying)
    }))
);

wrong!(
    /// Counts old members that are not held.
    GapByAbsent,
    a_gap_by_absent_members,
    By::Both,
    |asked, outcome| with_gap(asked, outcome, |layout, masks| above(layout, masks, |shard| {
        let own = sets(layout, layout.old[shard as usize]);
        layout.settings.need(shard).saturating_sub(own)
    }))
);

wrong!(
    /// Counts up to the cap.
    GapByCap,
    a_gap_by_caps,
    By::Both,
    |asked, outcome| with_gap(asked, outcome, |layout, masks| above(layout, masks, |shard| {
        let own = sets(layout, layout.held & layout.old[shard as usize]);
        layout.settings.cap(shard).saturating_sub(own)
    }))
);

wrong!(
    /// Leaves out the floor of the last shard.
    GapWithoutLast,
    a_gap_without_the_last_shard,
    By::Both,
    |asked, outcome| with_gap(asked, outcome, |layout, masks| above(layout, masks, |shard| {
        let own = sets(layout, layout.held & layout.old[shard as usize]);
        match shard + 1 == layout.settings.shards {
            true => 0,
            false => layout.settings.need(shard).saturating_sub(own),
        }
    }))
);

wrong!(
    /// Tells the gap of the start.
    GapOfStart,
    the_gap_of_the_start,
    By::Both,
    |asked, mut outcome| {
        if outcome.answer().planned() {
            outcome.answer = with_rounds(asked, 0).answer;
        }
        outcome
    }
);

wrong!(
    /// Adds the gap to a wait.
    GapOfWait,
    a_gap_beside_a_wait,
    By::Both,
    |_, mut outcome| {
        if let Answer::Wait(5, value) = outcome.answer() {
            outcome.answer = calls::wait_word(5, Some(value + 1));
        }
        outcome
    }
);

wrong!(
    /// Has the moves of the start in the state.
    MovesOfStart,
    the_moves_of_the_start,
    By::Both,
    |asked, mut outcome| {
        if outcome.answer().planned() {
            let start = with_rounds(asked, 0).state;
            outcome.state[4 * 57..4 * 58].copy_from_slice(&start[4 * 57..4 * 58]);
        }
        outcome
    }
);

wrong!(
    /// Keeps the kept number.
    KeptNumber,
    the_kept_views_number,
    By::Both,
    |asked, mut outcome| {
        if outcome.answer().planned() {
            outcome.state[4 * 55..4 * 56].copy_from_slice(&asked.table.state[4..8]);
        }
        outcome
    }
);

wrong!(
    /// Goes on gathering beside a plan.
    StillGathering,
    a_plan_that_does_not_lead_to_ordered,
    By::Both,
    |_, mut outcome| {
        if outcome.answer().planned() {
            outcome.state[0] = 0;
        }
        outcome
    }
);

wrong!(
    /// Leaves the state as it was.
    StateStays,
    a_plan_that_is_not_left,
    By::Both,
    |asked, outcome| Outcome::unchanged(asked, outcome.answer)
);

wrong!(
    /// Writes how many rounds there were into a state that waits.
    WaitWrites,
    a_wait_that_writes,
    By::Both,
    |asked, mut outcome| {
        if matches!(outcome.answer(), Answer::Wait(_, _)) {
            outcome.state[4 * 159..].copy_from_slice(&asked.node.to_le_bytes());
        }
        outcome
    }
);

wrong!(
    /// Clears the slot of a node that is not held.
    DeskWritten,
    a_desk_that_is_changed,
    By::Both,
    |_, mut outcome| {
        if outcome.answer().planned() {
            outcome.desk[65535] ^= 1;
        }
        outcome
    }
);

wrong!(
    /// Waits for no reason where no rounds are given.
    WaitsForRounds,
    a_wait_where_there_are_no_rounds,
    By::Both,
    |asked, outcome| match asked.node {
        0 if outcome.answer().planned() => Outcome::unchanged(asked, calls::wait_word(5, None)),
        _ => outcome,
    }
);

wrong!(
    /// Tells of a wait 5 the highest subgroup without a placement.
    HighestWaits,
    the_highest_subgroup_without_a_placement,
    By::Both,
    |asked, mut outcome| {
        if let Answer::Wait(5, _) = outcome.answer() {
            let highest = with_layout(asked, |_, layout| {
                let none = |number: &u32| layout.subgroup(*number).first().is_none();
                (0..4).filter(none).max()
            });
            outcome.answer = calls::wait_word(5, highest);
        }
        outcome
    }
);

wrong!(
    /// Looks for a placement before it looks for logs.
    FiveBeforeFour,
    wait_5_before_4,
    By::Both,
    |asked, mut outcome| {
        if let Answer::Wait(4, _) = outcome.answer() {
            let lowest = with_layout(asked, |_, layout| {
                (0..4).find(|&number| layout.subgroup(number).first().is_none())
            });
            if lowest.is_some() {
                outcome.answer = calls::wait_word(5, lowest);
            }
        }
        outcome
    }
);

wrong!(
    /// Lets everybody decide.
    AnyRole,
    rounds_in_any_role,
    By::Both,
    |asked, outcome| match outcome.answer {
        15 => calls::expected(&Asked {
            role: PLANNER,
            ..asked.clone()
        }),
        _ => outcome,
    }
);

wrong!(
    /// Decides anew while ordered.
    OtherPhases,
    rounds_while_ordered,
    By::Both,
    |asked, outcome| match outcome.answer {
        4 => Outcome::unchanged(asked, PLAN),
        _ => outcome,
    }
);

wrong!(
    /// Looks at the phase before it asks whether the state is sound.
    FourBeforeThree,
    number_4_before_3,
    By::Both,
    |asked, mut outcome| {
        if outcome.answer == 3 && asked.table.state.first().is_some_and(|&phase| phase != 0) {
            outcome.answer = 4;
        }
        outcome
    }
);
