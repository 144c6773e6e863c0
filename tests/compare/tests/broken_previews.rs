//! The comparison of previews finds libraries that are wrong. Each stand-in below
//! is the reference with one fault in what previews do; the random inputs
//! must come to it. Each is found with the reference, and again without it: by
//! drop and decide, or by the previews of each node.

use differential::calls::{self, Asked, Kind, Outcome, Pages, Table, BUFFER_BYTES};
use differential::library::{Answer, Planner, ACCEPTED, PLAN};
use differential::mock::{self, Behaviour, Faithful};
use differential::pairs::{self, World};
use differential::previews::{Comparison, Sort, Tally};
use reference::message::{Contents, TERMINATION};
use reference::roles::{Role, PLANNER};
use reference::state::{self, State};
use reference::{mask, words};

const SEED: u64 = 20_261_117;
/// How many inputs are tried of the sorts that are quick to compare, and then of
/// the others.
const QUICK: u64 = 100;
const SLOW: u64 = 20;

/// The first input at which the planner differs, and how.
fn found(planner: &Planner, with_reference: bool) -> Option<(Sort, u64, String)> {
    let mut comparison = Comparison {
        planner,
        pages: &mut Pages::new(false),
        with_reference,
        tally: &mut Tally::default(),
    };
    let quick = (0..QUICK).flat_map(|index| [(Sort::Small, index), (Sort::Restart, index)]);
    let slow = (0..SLOW).flat_map(|index| [(Sort::Tight, index), (Sort::Large, index)]);
    let mut inputs = quick.chain(slow);
    inputs.find_map(|(sort, index)| {
        let compared = comparison.input(SEED, sort, index);
        compared
            .err()
            .map(|difference| (sort, index, difference.what))
    })
}

#[test]
fn the_reference_agrees_with_itself() {
    let mut tally = Tally::default();
    let planner = mock::planner::<Faithful>();
    let mut comparison = Comparison {
        planner: &planner,
        pages: &mut Pages::new(true),
        with_reference: true,
        tally: &mut tally,
    };
    for sort in Sort::ALL {
        for index in 0..4 {
            assert!(comparison.input(SEED, sort, index).is_ok(), "{index}");
        }
    }
    assert!(tally.calls > 200 && tally.by_events > 80 && tally.by_previews > 20);
}

fn assert_found<B: Behaviour>() {
    let planner = mock::planner::<B>();
    let with = found(&planner, true);
    let without = found(&planner, false);
    println!("{}: {with:?}; {without:?}", std::any::type_name::<B>());
    assert!(with.is_some(), "not found by the reference");
    assert!(without.is_some(), "not found by its own events");
}

/// Defines a stand-in by what it does in the place of a call, and its test.
macro_rules! wrong {
    ($(#[$text:meta])* $name:ident, $test:ident, $event:expr) => {
        $(#[$text])*
        struct $name;

        impl Behaviour for $name {
            fn event(asked: &Asked) -> Outcome {
                let event: fn(&Asked, Outcome) -> Outcome = $event;
                event(asked, calls::expected(asked))
            }
        }

        #[test]
        fn $test() {
            assert_found::<$name>();
        }
    };
}

/// Whether a preview was given: a plan or a wait.
fn given(asked: &Asked, outcome: &Outcome) -> bool {
    asked.kind == Kind::Preview && !outcome.answer().refused()
}

/// Whether a mask was given.
fn masked(asked: &Asked, outcome: &Outcome) -> bool {
    asked.kind == Kind::PreviewAll && !outcome.answer().refused()
}

/// What the reference says of another call over the same.
fn said(asked: &Asked, kind: Kind, state: &[u8]) -> Outcome {
    calls::expected(&Asked {
        kind,
        table: Table {
            state: state.to_vec(),
            ..asked.table.clone()
        },
        ..asked.clone()
    })
}

/// The preview that would be given if the copy had this state.
fn decided(asked: &Asked, copy: &[u8]) -> Outcome {
    let decided = said(asked, Kind::Decide, copy);
    let mut buffer = decided.state;
    buffer.resize(BUFFER_BYTES, 0);
    Outcome {
        buffer,
        ..Outcome::unchanged(asked, decided.answer)
    }
}

/// A preview whose copy is another one.
fn with_copy(asked: &Asked, outcome: Outcome, change: impl FnOnce(&World, &mut State)) -> Outcome {
    if !given(asked, &outcome) {
        return outcome;
    }
    let world = pairs::world(&asked.table).expect("what is previewed is sound");
    let mut copy = world.state.clone();
    copy.held &= !mask::only(asked.node);
    change(&world, &mut copy);
    decided(asked, &words::to_bytes(&state::encode(&copy)))
}

/// A preview that leaves other words.
fn with_words(asked: &Asked, mut outcome: Outcome, change: impl FnOnce(&mut [u32])) -> Outcome {
    if given(asked, &outcome) {
        let mut words = words::whole_words(&outcome.buffer);
        change(&mut words);
        outcome.buffer = words::to_bytes(&words);
    }
    outcome
}

/// Another mask, where one is given.
fn with_mask(
    asked: &Asked,
    mut outcome: Outcome,
    change: impl FnOnce(&World, u32) -> u32,
) -> Outcome {
    if masked(asked, &outcome) {
        let world = pairs::world(&asked.table).expect("what is previewed is sound");
        let lost = words::whole_words(&outcome.buffer)[0];
        let lost = change(&world, lost);
        outcome.buffer[..4].copy_from_slice(&lost.to_le_bytes());
    }
    outcome
}

/// The mask of the held nodes whose preview is so.
fn those(asked: &Asked, world: &World, so: impl Fn(u32, Answer) -> bool) -> u32 {
    let preview = |node: u32| {
        let asked = Asked {
            role: PLANNER,
            kind: Kind::Preview,
            node,
            ..asked.clone()
        };
        calls::expected(&asked).answer()
    };
    let own = mask::nodes(world.state.held).into_iter();
    let own = own.filter(|&node| so(node, preview(node)));
    own.fold(0, |all, node| all | mask::only(node))
}

wrong!(
    /// Does not drop the node.
    NotDropped,
    a_node_that_is_not_dropped,
    |asked, outcome| match given(asked, &outcome) {
        true => decided(asked, &asked.table.state),
        false => outcome,
    }
);

wrong!(
    /// Drops the lowest held node.
    LowestDropped,
    the_lowest_node_is_dropped,
    |asked, outcome| with_copy(asked, outcome, |world, copy| {
        copy.held = world.state.held & (world.state.held - 1);
    })
);

wrong!(
    /// Leaves the state with the node still held.
    StillHeld,
    a_node_that_stays_held,
    |asked, outcome| with_words(asked, outcome, |words| words[52] |= mask::only(asked.node))
);

wrong!(
    /// Says that there is a plan.
    WaitAsPlan,
    a_wait_taken_as_a_plan,
    |asked, mut outcome| {
        if given(asked, &outcome) {
            outcome.answer = PLAN;
        }
        outcome
    }
);

wrong!(
    /// Looks for no placement: there is a plan where the quorum is met.
    QuorumAlone,
    no_placement_is_looked_for,
    |asked, mut outcome| {
        if given(asked, &outcome) && matches!(outcome.answer(), Answer::Wait(5, _)) {
            outcome.answer = PLAN;
        }
        outcome
    }
);

wrong!(
    /// Answers a refused preview as decide would.
    AbsentNode,
    a_preview_of_an_absent_node,
    |asked, outcome| match (asked.kind, outcome.answer) {
        (Kind::Preview, 14) => decided(asked, &asked.table.state),
        _ => outcome,
    }
);

wrong!(
    /// Writes into the buffer though it refuses.
    RefusalWrites,
    a_refusal_that_writes,
    |asked, mut outcome| {
        if asked.kind == Kind::Preview && outcome.answer == 14 {
            outcome.buffer.fill(0);
        }
        outcome
    }
);

wrong!(
    /// Writes the mask's buffer though it refuses.
    MaskRefusalWrites,
    a_refused_mask_that_writes,
    |asked, mut outcome| {
        if asked.kind == Kind::PreviewAll && outcome.answer == 4 {
            outcome.buffer.fill(0);
        }
        outcome
    }
);

wrong!(
    /// Keeps the greatest view that the others reported.
    KeptForgotten,
    a_kept_view_that_is_forgotten,
    |asked, outcome| with_copy(asked, outcome, |world, copy| {
        let others = |report: &&Contents| report.node != asked.node;
        let others = world.reports.iter().filter(others);
        let greatest = others.max_by_key(|report| report.view);
        let kept = copy.kept.as_ref().map_or(0, |view| view.number);
        match greatest {
            Some(report) if report.view < kept => {
                copy.kept = Some(reference::soundness::view(&world.settings, report));
                copy.termination = reference::soundness::termination(report);
            }
            _ => {}
        }
    })
);

wrong!(
    /// Keeps a termination only while somebody else reports it.
    TerminationForgotten,
    a_termination_that_is_forgotten,
    |asked, outcome| with_copy(asked, outcome, |world, copy| {
        let kept = copy.kept.as_ref().map_or(0, |view| view.number);
        let has = |report: &Contents| {
            report.view == kept
                && report.node != asked.node
                && !report.of_kind(TERMINATION).is_empty()
        };
        if !world.reports.iter().any(has) {
            copy.termination = None;
        }
    })
);

wrong!(
    /// Forgets what the node has reported.
    MemoryForgotten,
    a_memory_that_is_forgotten,
    |asked, outcome| with_words(asked, outcome, |words| words[122 + asked.node as usize] = 0)
);

wrong!(
    /// Leaves decide's plan, of which the node is a part.
    PlanWithTheNode,
    the_plan_with_the_node,
    |asked, mut outcome| {
        let whole = said(asked, Kind::Decide, &asked.table.state);
        if given(asked, &outcome) && outcome.answer == PLAN && whole.answer == PLAN {
            outcome.buffer[4 * 55..4 * 122].copy_from_slice(&whole.state[4 * 55..4 * 122]);
        }
        outcome
    }
);

wrong!(
    /// Leaves the copy while it is gathering, without the plan.
    PlanLeftOut,
    a_plan_that_is_left_out,
    |asked, outcome| with_words(asked, outcome, |words| {
        words[0] = 0;
        words[55..122].fill(0);
    })
);

wrong!(
    /// Leaves the buffer where it waits.
    WaitLeavesNothing,
    a_wait_that_leaves_nothing,
    |asked, mut outcome| {
        if given(asked, &outcome) && outcome.answer != PLAN {
            outcome.buffer.clone_from(&asked.buffer);
        }
        outcome
    }
);

wrong!(
    /// Leaves what was in the buffer after the state.
    LeavesTheRest,
    the_rest_of_the_buffer,
    |asked, mut outcome| {
        if given(asked, &outcome) {
            outcome.buffer[640..].copy_from_slice(&asked.buffer[640..]);
        }
        outcome
    }
);

wrong!(
    /// Leaves the buffer's last word.
    LeavesTheLastWord,
    the_last_word_of_the_buffer,
    |asked, mut outcome| {
        if masked(asked, &outcome) {
            outcome.buffer[2044..].copy_from_slice(&asked.buffer[2044..]);
        }
        outcome
    }
);

wrong!(
    /// Leaves what was in the buffer after the mask.
    LeavesAllButTheMask,
    the_rest_after_the_mask,
    |asked, mut outcome| {
        if masked(asked, &outcome) {
            outcome.buffer[4..].copy_from_slice(&asked.buffer[4..]);
        }
        outcome
    }
);

wrong!(
    /// Changes the state itself.
    ChangesState,
    a_state_that_is_changed,
    |asked, mut outcome| {
        if given(asked, &outcome) {
            outcome.state.copy_from_slice(&outcome.buffer[..640]);
        }
        outcome
    }
);

wrong!(
    /// Clears the node's slot.
    ChangesDesk,
    a_desk_that_is_changed,
    |asked, mut outcome| {
        if given(asked, &outcome) {
            let first = 2048 * asked.node as usize;
            outcome.desk[first..first + 2048].fill(0);
        }
        outcome
    }
);

wrong!(
    /// Takes a buffer that a state fits into.
    ShortBuffer,
    a_buffer_of_160_words,
    |asked, mut outcome| {
        if asked.kind == Kind::Preview && outcome.answer == 1 && asked.buffer.len() >= 640 {
            let whole = calls::expected(&Asked {
                buffer: vec![0; BUFFER_BYTES],
                ..asked.clone()
            });
            if given(asked, &whole) {
                outcome.answer = whole.answer;
                outcome.buffer[..640].copy_from_slice(&whole.buffer[..640]);
            }
        }
        outcome
    }
);

wrong!(
    /// Gives 14 for a node that there is not.
    FourteenBeforeSix,
    number_14_before_6,
    |asked, mut outcome| {
        if asked.kind == Kind::Preview && outcome.answer == 6 {
            outcome.answer = 14;
        }
        outcome
    }
);

wrong!(
    /// Looks at the node before the phase.
    NodeBeforePhase,
    numbers_6_and_14_before_4,
    |asked, mut outcome| {
        if asked.kind == Kind::Preview && outcome.answer == 4 {
            let dropped = said(asked, Kind::Fetched, &asked.table.state);
            if [6, 14].contains(&dropped.answer) {
                outcome.answer = dropped.answer;
            }
        }
        outcome
    }
);

wrong!(
    /// Previews a drop while ordered or preparing, too.
    OtherPhases,
    previews_where_drop_is_taken,
    |asked, outcome| match (asked.kind, outcome.answer) {
        (Kind::Preview, 4) => {
            let dropped = said(asked, Kind::Drop, &asked.table.state);
            match dropped.answer {
                0 => decided(asked, &dropped.state),
                _ => outcome,
            }
        }
        _ => outcome,
    }
);

wrong!(
    /// Gives a mask outside gathering.
    MaskOtherPhases,
    masks_outside_gathering,
    |asked, outcome| match (asked.kind, outcome.answer) {
        (Kind::PreviewAll, 4) => Outcome {
            buffer: vec![0; BUFFER_BYTES],
            ..Outcome::unchanged(asked, ACCEPTED + 1)
        },
        _ => outcome,
    }
);

wrong!(
    /// Looks at the phase before it asks whether the state is sound.
    FourBeforeThree,
    number_4_before_3,
    |asked, mut outcome| {
        let previews = [Kind::Preview, Kind::PreviewAll].contains(&asked.kind);
        if previews && outcome.answer == 3 && asked.table.state.first().is_some_and(|&p| p != 0) {
            outcome.answer = 4;
        }
        outcome
    }
);

wrong!(
    /// Asks only the slots of the other nodes to be sound.
    OwnSlot,
    a_slot_that_is_not_looked_at,
    |asked, outcome| match (asked.kind, outcome.answer) {
        (Kind::Preview, 3) if asked.node < 32 && asked.table.state.len() == 640 => {
            let mut copy = words::whole_words(&asked.table.state);
            let held = mask::has(copy[52], asked.node) && copy[0] == 0;
            copy[52] &= !mask::only(asked.node);
            let copy = words::to_bytes(&copy);
            match held && said(asked, Kind::CheckState, &copy).answer == 0 {
                true => decided(asked, &copy),
                false => outcome,
            }
        }
        _ => outcome,
    }
);

wrong!(
    /// Lets everybody preview.
    AnyRole,
    previews_in_any_role,
    |asked, outcome| match (asked.kind, outcome.answer) {
        (Kind::Preview, 15) => calls::expected(&Asked {
            role: PLANNER,
            ..asked.clone()
        }),
        _ => outcome,
    }
);

wrong!(
    /// Gives a watcher the mask.
    WatchersMask,
    a_mask_for_watchers,
    |asked, outcome| match (asked.kind, Role::of(asked.role)) {
        (Kind::PreviewAll, Role::Watcher(_)) => calls::expected(&Asked {
            role: PLANNER,
            ..asked.clone()
        }),
        _ => outcome,
    }
);

wrong!(
    /// Names nodes that are not held, for without them one waits as well.
    UnheldBits,
    a_mask_with_nodes_that_are_not_held,
    |asked, outcome| with_mask(asked, outcome, |world, lost| {
        let absent = mask::below(world.settings.nodes) & !world.state.held;
        match said(asked, Kind::Decide, &asked.table.state).answer {
            PLAN => lost,
            _ => lost | absent,
        }
    })
);

wrong!(
    /// Names the nodes that may go.
    MaskTurned,
    a_mask_that_is_turned,
    |asked, outcome| with_mask(asked, outcome, |world, lost| world.state.held & !lost)
);

wrong!(
    /// Names nobody where decide waits already.
    NoneWhereWaiting,
    a_mask_of_0_where_decide_waits,
    |asked, outcome| with_mask(asked, outcome, |_, lost| {
        match said(asked, Kind::Decide, &asked.table.state).answer {
            PLAN => lost,
            _ => 0,
        }
    })
);

wrong!(
    /// Looks for no placement.
    MaskByQuorum,
    a_mask_by_the_quorum_alone,
    |asked, outcome| with_mask(asked, outcome, |world, _| {
        those(asked, world, |_, answer| matches!(answer, Answer::Wait(2..=4, _)))
    })
);

wrong!(
    /// Looks at members only: without another node no majority goes.
    MaskByMembers,
    a_mask_of_members_alone,
    |asked, outcome| with_mask(asked, outcome, |world, lost| {
        lost & world.state.kept.as_ref().map_or(0, |view| view.members)
    })
);

wrong!(
    /// Names a node of the plan where nobody idle has its failure set.
    MaskBySet,
    a_mask_by_failure_sets_alone,
    |asked, outcome| with_mask(asked, outcome, |world, lost| {
        let decided = said(asked, Kind::Decide, &asked.table.state);
        if decided.answer != PLAN {
            return lost;
        }
        let plan = words::whole_words(&decided.state);
        let placed = plan[58..74].iter().fold(0, |all, own| all | own);
        let settings = &world.settings;
        let idle = |node: u32| {
            let own = settings.set(node);
            let others = mask::nodes(world.state.held & !placed).into_iter();
            others.into_iter().any(|other| settings.set(other) == own)
        };
        those(asked, world, |node, answer| match answer {
            Answer::Plan => mask::has(placed, node) && !idle(node),
            _ => true,
        })
    })
);

wrong!(
    /// Counts nodes and not their failure sets.
    MaskByCount,
    a_mask_by_counts_alone,
    |asked, outcome| with_mask(asked, outcome, |world, _| {
        let settings = &world.settings;
        let left = mask::count(world.state.held) - u32::from(world.state.held != 0);
        let most = (0..4).map(|subgroup| {
            let needs = settings.shards_of(subgroup).into_iter();
            needs.map(|shard| settings.need(shard)).sum()
        });
        let few = most.max().unwrap_or(0) > left;
        those(asked, world, |_, answer| match answer {
            Answer::Wait(5, _) => few,
            Answer::Wait(_, _) => true,
            _ => false,
        })
    })
);

wrong!(
    /// Goes up to node 30.
    MaskToThirty,
    a_mask_without_node_31,
    |asked, outcome| with_mask(asked, outcome, |_, lost| lost & !mask::only(31))
);

wrong!(
    /// Answers with the mask as a length.
    MaskAsLength,
    a_mask_as_a_length,
    |asked, mut outcome| {
        if masked(asked, &outcome) {
            let lost = words::whole_words(&outcome.buffer)[0];
            outcome.answer = ACCEPTED + lost % ACCEPTED;
        }
        outcome
    }
);

wrong!(
    /// Answers 0 and not a length.
    NoLength,
    a_mask_without_a_length,
    |asked, mut outcome| {
        if masked(asked, &outcome) {
            outcome.answer = 0;
        }
        outcome
    }
);

wrong!(
    /// Refuses the mask where nobody is held.
    NobodyRefused,
    a_mask_of_nobody_refused,
    |asked, outcome| match pairs::world(&asked.table) {
        Some(world) if masked(asked, &outcome) && world.state.held == 0 => {
            Outcome::unchanged(asked, 14)
        }
        _ => outcome,
    }
);

wrong!(
    /// Names the highest shard without a holder.
    HighestShard,
    the_highest_shard_without_holder,
    |asked, mut outcome| {
        let Some(world) = pairs::world(&asked.table) else {
            return outcome;
        };
        if !given(asked, &outcome) || !matches!(outcome.answer(), Answer::Wait(4, _)) {
            return outcome;
        }
        let mut state = world.state.clone();
        state.held &= !mask::only(asked.node);
        let others = world.reports.iter();
        let others = others.filter(|report| report.node != asked.node).cloned();
        let others: Vec<Contents> = others.collect();
        let gathered = reference::soundness::gathered(&world.settings, &state, &others);
        let view = state.kept.as_ref().expect("a wait 4 has a view");
        let without = |&shard: &u32| gathered.holding(view, shard).is_none();
        let highest = (0..world.settings.shards).filter(without).max();
        outcome.answer = calls::wait_word(4, highest);
        outcome
    }
);
