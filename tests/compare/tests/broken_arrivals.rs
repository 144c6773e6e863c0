//! The program `arrivals` finds libraries for which the order of reports is not
//! harmless, or which commit when they should not. Each stand-in below is the
//! reference with one fault in what an event keeps; nothing is compared
//! with the reference itself.

use differential::arrivals::{Sort, Tally, Tested};
use differential::calls::{self, Asked, Kind, Outcome, Pages, Table};
use differential::library::{Answer, PLAN};
use differential::mock::{self, Behaviour, Faithful};
use reference::message::{self, Form};
use reference::{desk, mask, settings, words};
use std::cell::Cell;

const SEED: u64 = 20_261_117;
const COUNT: u64 = 300;

/// The words of a state.
const PHASE: usize = 0;
const KEPT: usize = 1;
const MADE: usize = 3;
const TERMINATION: std::ops::Range<usize> = 20..52;
const HELD: usize = 52;
const FETCHED: usize = 53;
const PREPARED: usize = 54;
const PLANNED: std::ops::Range<usize> = 55..122;
const REMEMBERED: usize = 122;

/// The first input of a sort that shows a fault, and what it shows.
fn found<B: Behaviour>(sort: Sort) -> Option<(u64, String)> {
    let mut tested = Tested {
        planner: &mock::planner::<B>(),
        game: mock::game::<B>(),
        pages: &mut Pages::new(false),
        tally: &mut Tally::default(),
    };
    (0..COUNT).find_map(|index| {
        let played = tested.input(SEED, sort, index);
        played.err().map(|broken| (index, broken.what))
    })
}

fn assert_found<B: Behaviour>(sort: Sort) {
    let found = found::<B>(sort);
    println!("{}: {found:?}", std::any::type_name::<B>());
    assert!(found.is_some());
}

#[test]
fn the_reference_keeps_both_promises() {
    let mut tally = Tally::default();
    let mut tested = Tested {
        planner: &mock::planner::<Faithful>(),
        game: mock::game::<Faithful>(),
        pages: &mut Pages::new(true),
        tally: &mut tally,
    };
    for sort in Sort::ALL {
        for index in 0..100 {
            let played = tested.input(SEED, sort, index);
            assert!(played.is_ok(), "{} {index}: {played:?}", sort.name());
        }
    }
    assert!(tally.calls > 5000);
}

/// Stand-ins that do something else, given the call and what the reference does.
macro_rules! stand_ins {
    ($sort:expr; $($(#[$doc:meta])* $name:ident, $test:ident: $event:expr;)*) => {
        $(
            $(#[$doc])*
            struct $name;

            impl Behaviour for $name {
                fn event(asked: &Asked) -> Outcome {
                    let event: fn(&Asked, Outcome) -> Outcome = $event;
                    event(asked, calls::expected(asked))
                }
            }

            #[test]
            fn $test() {
                assert_found::<$name>($sort);
            }
        )*
    };
}

fn state_of(bytes: &[u8]) -> Vec<u32> {
    words::whole_words(bytes)
}

/// The outcome of an accepted call of a kind, with other words in its state, given
/// the state before.
fn leaving(
    kind: Kind,
    asked: &Asked,
    mut outcome: Outcome,
    change: impl FnOnce(&[u32], &mut [u32]),
) -> Outcome {
    if asked.kind == kind && !outcome.answer().refused() {
        let mut state = state_of(&outcome.state);
        change(&state_of(&asked.table.state), &mut state);
        outcome.state = words::to_bytes(&state);
    }
    outcome
}

/// Who sends a report's message; 0 of other calls.
fn sender(asked: &Asked) -> u32 {
    state_of(&asked.message).first().copied().unwrap_or(0)
}

/// Lets go of the lowest node but the sender, where more than three are held.
fn forgetting(asked: &Asked, outcome: Outcome) -> Outcome {
    leaving(Kind::Report, asked, outcome, |_, after| {
        let others = after[HELD] & !mask::only(sender(asked));
        if mask::count(others) > 2 {
            after[HELD] &= !(others & others.wrapping_neg());
        }
    })
}

/// Whether a held node has reported the same view with other masks.
fn unlike_another(asked: &Asked) -> bool {
    if asked.kind != Kind::Report {
        return false;
    }
    let [settings, state, desk] =
        [&asked.table.settings, &asked.table.state, &asked.table.desk].map(|b| state_of(b));
    let settings = settings::parse(&settings).expect("a call that is accepted");
    let own = message::read_with(Form::Report, &settings, &state_of(&asked.message));
    let own = own.expect("a report that is accepted");
    let mut held = mask::nodes(state[HELD]).into_iter();
    held.any(|node| {
        let other = desk::report(&settings, &desk, node).expect("a sound slot");
        let masks = other.shard_masks(&settings) != own.shard_masks(&settings);
        node != own.node && other.view == own.view && masks
    })
}

stand_ins! {
    Sort::Shuffle;
    /// The termination of the first report that has one stays, whatever view comes.
    FirstTermination, the_first_termination_stays: |asked, outcome| {
        leaving(Kind::Report, asked, outcome, |before, after| {
            if before[MADE] == 1 {
                after[MADE] = 1;
                after[TERMINATION].copy_from_slice(&before[TERMINATION]);
            }
        })
    };
    /// The termination of the first report of a view, or that it has none, stays.
    FirstOfView, the_first_report_of_a_view_decides: |asked, outcome| {
        leaving(Kind::Report, asked, outcome, |before, after| {
            if before[KEPT] == after[KEPT] {
                after[MADE] = before[MADE];
                after[TERMINATION].copy_from_slice(&before[TERMINATION]);
            }
        })
    };
    /// A termination of an older view stays with a greater one that has none.
    OlderTermination, an_older_termination_stays: |asked, outcome| {
        leaving(Kind::Report, asked, outcome, |before, after| {
            if before[KEPT] < after[KEPT] && after[MADE] == 0 {
                after[MADE] = before[MADE];
                after[TERMINATION].copy_from_slice(&before[TERMINATION]);
            }
        })
    };
    /// With four nodes held, a report makes it forget one of them.
    Forgetful, the_held_mask_forgets: forgetting;
    /// The masks of the last report of the kept view stay.
    LastMasks, the_last_masks_stay: |asked, outcome| match outcome.answer() {
        Answer::Number(12) => {
            let fresh = Table {
                state: words::to_bytes(&reference::state::encode(&reference::state::fresh())),
                ..asked.table.clone()
            };
            let alone = calls::expected(&Asked { table: fresh, ..asked.clone() });
            let (mut state, own) = (state_of(&asked.table.state), state_of(&alone.state));
            state[KEPT..KEPT + 2].copy_from_slice(&own[KEPT..KEPT + 2]);
            state[4..20].copy_from_slice(&own[4..20]);
            state[HELD] |= own[HELD];
            Outcome { state: words::to_bytes(&state), ..alone }
        }
        _ => outcome,
    };
    /// A report has to fit those of its view, though a greater one is kept.
    Stern, reports_of_an_older_view_must_fit: |asked, outcome| {
        match outcome.answer() == Answer::Accepted && unlike_another(asked) {
            true => Outcome::unchanged(asked, 12),
            false => outcome,
        }
    };
    /// The kept view is remembered for the sender, and not its own.
    KeptRemembered, the_kept_view_is_remembered: |asked, outcome| {
        let node = sender(asked) as usize;
        leaving(Kind::Report, asked, outcome, |_, after| {
            after[REMEMBERED + node] = after[KEPT];
        })
    };
    /// A report clears a word after its own slot.
    OtherSlot, another_slot_is_touched: |asked, mut outcome| {
        if asked.kind == Kind::Report && outcome.answer() == Answer::Accepted {
            let end = 2048 * (sender(asked) as usize + 1);
            if let Some(word) = outcome.desk.get_mut(end..end + 4) {
                word.fill(0);
            }
        }
        outcome
    };
    /// A shorter message leaves the rest of a longer one that came before it.
    LongerSlot, a_shorter_message_leaves_a_rest: |asked, mut outcome| {
        if asked.kind == Kind::Report && outcome.answer() == Answer::Accepted {
            let longest = LONGEST.with(Cell::get).max(asked.message.len());
            LONGEST.with(|kept| kept.set(longest));
            let first = 2048 * sender(asked) as usize;
            let rest = first + asked.message.len()..first + longest;
            outcome.desk[rest.clone()].copy_from_slice(&asked.table.desk[rest]);
        }
        outcome
    };
    /// Rounds are forgotten every other time.
    MoodyRounds, rounds_answer_otherwise: |asked, outcome| {
        let turn = TURN.with(Cell::take);
        TURN.with(|kept| kept.set(turn + u32::from(asked.kind == Kind::DecideWithin)));
        match asked.kind == Kind::DecideWithin && turn % 2 == 1 {
            true => calls::expected(&Asked { node: 0, ..asked.clone() }),
            false => outcome,
        }
    };
    /// Decide waits every other time.
    Moody, decide_answers_otherwise: |asked, outcome| {
        let turn = TURN.with(Cell::take);
        TURN.with(|kept| kept.set(turn + u32::from(asked.kind == Kind::Decide)));
        match asked.kind == Kind::Decide && outcome.answer == PLAN && turn % 2 == 1 {
            true => Outcome::unchanged(asked, calls::wait_word(2, None)),
            false => outcome,
        }
    };
}

thread_local! {
    static LONGEST: Cell<usize> = const { Cell::new(0) };
    static TURN: Cell<u32> = const { Cell::new(0) };
}

stand_ins! {
    Sort::Sequence;
    /// The same one, by the log.
    ForgetfulLater, the_held_mask_forgets_by_the_log: forgetting;
    /// All but one prepared are enough.
    AllButOne, committed_without_all_prepared: |asked, outcome| {
        leaving(Kind::Prepared, asked, outcome, |_, after| {
            if mask::count(after[HELD] & !after[PREPARED]) <= 1 {
                after[PHASE] = 3;
                after[PREPARED] = after[HELD];
            }
        })
    };
    /// All fetched are enough.
    Unprepared, committed_without_preparing: |asked, outcome| {
        leaving(Kind::Fetched, asked, outcome, |_, after| {
            if after[FETCHED] == after[HELD] {
                after[PHASE] = 3;
                after[PREPARED] = after[HELD];
            }
        })
    };
    /// Nodes are prepared that did not fetch.
    Unfetched, prepared_without_fetching: |asked, outcome| {
        let mut table = asked.table.clone();
        let mut state = state_of(&table.state);
        let early = asked.kind == Kind::Prepared && outcome.answer() == Answer::Number(4);
        if !early || state[PHASE] != 1 {
            return outcome;
        }
        state[FETCHED] = state[HELD];
        state[PHASE] = 2;
        table.state = words::to_bytes(&state);
        let taken = calls::expected(&Asked { table, ..asked.clone() });
        match taken.answer() {
            Answer::Accepted => taken,
            _ => outcome,
        }
    };
    /// It never commits.
    Never, never_committed: |asked, outcome| {
        leaving(Kind::Prepared, asked, outcome, |_, after| {
            after[PHASE] = after[PHASE].min(2);
        })
    };
    /// A drop outside gathering is accepted and changes nothing.
    DropsNothing, a_drop_that_stops_nothing: |asked, outcome| {
        leaving(Kind::Drop, asked, outcome, |before, after| {
            if before[PHASE] != 0 {
                after.copy_from_slice(before);
            }
        })
    };
    /// A drop outside gathering lets the others go on.
    OthersGoOn, a_drop_of_one_alone: |asked, outcome| {
        let node = asked.node;
        leaving(Kind::Drop, asked, outcome, |before, after| {
            if before[PHASE] != 0 {
                let left = before[HELD] & !mask::only(node);
                after.copy_from_slice(before);
                after[HELD] = left;
                after[FETCHED] &= left;
                after[PREPARED] &= left;
            }
        })
    };
    /// The marks outlive a drop: who fetched for the old plan need not again.
    KeepsMarks, marks_outlive_a_drop: |asked, _| {
        let mut table = asked.table.clone();
        let mut state = state_of(&table.state);
        let own = state.len() == 160 && state[PHASE] == 0;
        let marks = if own { state[FETCHED] } else { 0 };
        if own {
            state[FETCHED] = 0;
            table.state = words::to_bytes(&state);
        }
        let outcome = calls::expected(&Asked { table, ..asked.clone() });
        let state = match outcome.answer().refused() || asked.kind.reads() {
            true => asked.table.state.clone(),
            false => outcome.state.clone(),
        };
        let outcome = Outcome { state, ..outcome };
        if outcome.answer().refused() {
            return outcome;
        }
        match asked.kind {
            Kind::Drop => leaving(Kind::Drop, asked, outcome, |before, after| {
                after[FETCHED] = before[FETCHED];
            }),
            Kind::Report => leaving(Kind::Report, asked, outcome, |_, after| {
                after[FETCHED] = marks;
            }),
            kind @ (Kind::Decide | Kind::DecideWithin) => leaving(kind, asked, outcome, |_, after| {
                after[FETCHED] = marks;
                if after[PHASE] == 1 {
                    after[FETCHED] &= after[HELD];
                    after[PHASE] += u32::from(after[FETCHED] == after[HELD]);
                }
            }),
            _ => outcome,
        }
    };
    /// A plan of rounds goes to preparing at once.
    HastyRounds, a_plan_of_rounds_that_is_fetched_already: |asked, outcome| {
        leaving(Kind::DecideWithin, asked, outcome, |_, after| {
            if after[PHASE] == 1 {
                after[PHASE] = 2;
                after[FETCHED] = after[HELD];
            }
        })
    };
    /// A plan goes to preparing at once.
    Hasty, a_plan_that_is_fetched_already: |asked, outcome| {
        leaving(Kind::Decide, asked, outcome, |_, after| {
            if after[PHASE] == 1 {
                after[PHASE] = 2;
                after[FETCHED] = after[HELD];
            }
        })
    };
    /// A new report of a committed restart begins another.
    Reopened, committed_is_left_by_a_report: |asked, outcome| {
        let mut state = state_of(&asked.table.state);
        let late = asked.kind == Kind::Report && outcome.answer() == Answer::Number(4);
        if !late || state[PHASE] != 3 {
            return outcome;
        }
        state[PHASE] = 0;
        state[FETCHED..=PREPARED].fill(0);
        state[PLANNED].fill(0);
        let table = Table { state: words::to_bytes(&state), ..asked.table.clone() };
        let taken = calls::expected(&Asked { table, ..asked.clone() });
        match taken.answer() {
            Answer::Accepted => taken,
            _ => outcome,
        }
    };
    /// A mark that is refused is made nevertheless.
    Marked, a_refused_mark_is_made: |asked, mut outcome| {
        let mut state = state_of(&asked.table.state);
        let refused = asked.kind == Kind::Prepared && outcome.answer() == Answer::Number(4);
        if refused && state[PHASE] == 1 && mask::has(state[HELD], asked.node) {
            state[PREPARED] |= mask::only(asked.node);
            outcome.state = words::to_bytes(&state);
        }
        outcome
    };
    /// A wait lets go of a node.
    Waiting, a_wait_that_changes_something: |asked, mut outcome| {
        if asked.kind == Kind::Decide && matches!(outcome.answer(), Answer::Wait(5, _)) {
            let mut state = state_of(&asked.table.state);
            state[HELD] &= state[HELD] - 1;
            outcome.state = words::to_bytes(&state);
        }
        outcome
    };
    /// A preview drops the node.
    RealPreview, a_preview_that_drops: |asked, outcome| {
        match asked.kind == Kind::Preview && !outcome.answer().refused() {
            true => {
                let drop = Asked { kind: Kind::Drop, ..asked.clone() };
                let state = calls::expected(&drop).state;
                Outcome { state, ..outcome }
            }
            false => outcome,
        }
    };
}
