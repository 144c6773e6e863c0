//! The comparison of events finds planners that are wrong. Each stand-in below
//! is the reference with one fault, most of them easily
//! made in reading restart-model(7); the random sequences must come to it.

use differential::calls::{self, wait_word, Asked, Kind, Outcome, Pages, DESK_BYTES, STATE_BYTES};
use differential::library::{Answer, Planner, ACCEPTED, PLAN};
use differential::mock::{self, Behaviour, Faithful};
use differential::recorder::Recorder;
use differential::{events, regressions};
use reference::desk::{self, SLOT_WORDS};
use reference::log::{self, Log, Position, Run, START};
use reference::mask;
use reference::message::{self, Contents, Form, CUT, HOLDER, TERMINATION};
use reference::quorum::{Gathered, Reports};
use reference::settings::{self, Settings, SUBGROUPS};
use reference::soundness;
use reference::state::{self, Phase, Plan, State, View};
use reference::words;

const SEED: u64 = 20_261_115;
const COUNT: u64 = 1500;

/// The sequence and call of the first difference, with what differs.
fn found(planner: &Planner) -> Option<(u64, usize, String)> {
    let mut pages = Pages::new(false);
    (0..COUNT).find_map(|index| {
        let sequence = events::sequence(SEED, index);
        let played = events::play(planner, &mut pages, sequence, |_, _| {});
        let difference = played.err()?;
        Some((index, difference.step, difference.what))
    })
}

fn assert_found<B: Behaviour>() {
    let planner = mock::planner::<B>();
    let found = found(&planner);
    let stored = regressions::play_all(&planner, &mut Pages::new(false)).err();
    println!("{}: {found:?}; {stored:?}", std::any::type_name::<B>());
    assert!(found.is_some(), "not found");
}

#[test]
fn the_reference_agrees_with_itself() {
    let planner = mock::planner::<Faithful>();
    let mut pages = Pages::new(true);
    for index in 0..100 {
        let sequence = events::sequence(SEED, index);
        let played = events::play(&planner, &mut pages, sequence, |_, _| {});
        assert!(played.is_ok(), "sequence {index}");
    }
    let stored = regressions::play_all(&planner, &mut pages);
    assert!(stored.is_ok_and(|cases| cases > 50));
}

/// Defines a stand-in by what it does in the place of an event, and its test.
macro_rules! wrong {
    ($(#[$text:meta])* $name:ident, $test:ident, $event:expr) => {
        $(#[$text])*
        struct $name;

        impl Behaviour for $name {
            fn event(asked: &Asked) -> Outcome {
                let event: fn(&Asked, Outcome) -> Outcome = $event;
                event(asked, calls::expected(asked))
            }
        }

        #[test]
        fn $test() {
            assert_found::<$name>();
        }
    };
}

/// A sound table, taken apart.
struct Opened {
    settings: Settings,
    state: State,
    desk: Vec<u32>,
    reports: Reports,
}

fn open(asked: &Asked) -> Option<Opened> {
    let whole = |bytes: &[u8]| words::from_bytes(bytes);
    let settings = settings::parse(&whole(&asked.table.settings)?).ok()?;
    let state = state::decode(&settings, &whole(&asked.table.state)?)?;
    let desk = whole(&asked.table.desk).filter(|desk| 4 * desk.len() == DESK_BYTES)?;
    let reports = soundness::sound(&settings, &state, &desk)?;
    Some(Opened {
        settings,
        state,
        desk,
        reports,
    })
}

impl Opened {
    /// Decides. The state that comes out has what the given state has.
    fn decide(&self, asked: &Asked) -> Outcome {
        let mut outcome = Outcome::unchanged(asked, PLAN);
        let gathered = soundness::gathered(&self.settings, &self.state, &self.reports);
        match plan(&self.settings, &gathered) {
            Err(answer) => outcome.answer = answer,
            Ok(plan) => {
                let next = State {
                    phase: Phase::Ordered,
                    plan: Some(plan),
                    ..self.state.clone()
                };
                outcome.state = encoded(&next);
            }
        }
        outcome
    }

    fn kept(&self) -> &View {
        self.state.kept.as_ref().expect("a kept view")
    }
}

fn plan(settings: &Settings, gathered: &Gathered) -> Result<Plan, u32> {
    let wait = |wait: reference::quorum::Wait| wait_word(wait.reason(), wait.value());
    let (view, holdings) = gathered.quorum().map_err(wait)?;
    let mut masks = vec![0; settings.shards as usize];
    let mut total = 0;
    for number in 0..SUBGROUPS {
        let subgroup = gathered.subgroup(view, number);
        let own = subgroup.first_best().ok_or(wait_word(5, Some(number)))?;
        total += subgroup.moves(&own);
        masks
            .iter_mut()
            .zip(own)
            .for_each(|(mask, own)| *mask |= own);
    }
    Ok(Plan {
        number: view.number + 1,
        members: gathered.held,
        total,
        masks,
        holders: holdings.iter().map(|h| h.holder).collect(),
        targets: holdings.iter().map(|h| h.target).collect(),
    })
}

fn encoded(state: &State) -> Vec<u8> {
    words::to_bytes(&state::encode(state))
}

fn open_settings(asked: &Asked) -> Option<Settings> {
    settings::parse(&words::from_bytes(&asked.table.settings)?).ok()
}

/// The state that an outcome leaves.
fn left(asked: &Asked, outcome: &Outcome) -> Option<State> {
    let settings = settings::parse(&words::whole_words(&asked.table.settings)).ok()?;
    state::decode(&settings, &words::whole_words(&outcome.state))
}

/// The report that a call brings.
fn brought(asked: &Asked, opened: &Opened) -> Option<Contents> {
    let message = words::from_bytes(&asked.message)?;
    message::read_with(Form::Report, &opened.settings, &message).ok()
}

/// Refuses with `number` instead, if `bad` says so of a sound table.
fn refused_if(
    asked: &Asked,
    outcome: Outcome,
    number: u32,
    bad: impl Fn(&Opened) -> bool,
) -> Outcome {
    match open(asked) {
        Some(opened) if !outcome.answer().refused() && bad(&opened) => {
            Outcome::unchanged(asked, number)
        }
        _ => outcome,
    }
}

wrong!(
    /// A report event that stores nothing.
    StoresNothing,
    a_report_that_stores_nothing,
    |asked, mut outcome| {
        outcome.desk.clone_from(&asked.table.desk);
        outcome
    }
);

wrong!(
    /// Leaves the end of a longer report in the slot.
    LeavesTheRest,
    the_rest_of_a_longer_report,
    |asked, mut outcome| {
        if asked.kind == Kind::Report && outcome.answer == 0 {
            let node = words::whole_words(&asked.message)[0] as usize;
            let end = 4 * SLOT_WORDS * node + asked.message.len();
            let rest = end..4 * SLOT_WORDS * (node + 1);
            outcome.desk[rest.clone()].copy_from_slice(&asked.table.desk[rest]);
        }
        outcome
    }
);

wrong!(
    /// Stores only the records of the chain.
    StoresContents,
    words_off_the_chain_are_stored,
    |asked, mut outcome| {
        if let (Some(opened), 0, Kind::Report) = (open(asked), outcome.answer, asked.kind) {
            let report = brought(asked, &opened).expect("a report");
            let stored = message::encode(&report);
            let desk = desk::with_message(&opened.desk, report.node, &stored);
            outcome.desk = words::to_bytes(&desk);
        }
        outcome
    }
);

wrong!(
    /// Takes stale machines' logs, as the paper does.
    StaleCandidates,
    stale_candidates,
    |asked, outcome| match open(asked) {
        Some(mut opened) if outcome.answer == PLAN => {
            let number = opened.kept().number;
            opened.reports.iter_mut().for_each(|r| r.view = number);
            opened.decide(asked)
        }
        _ => outcome,
    }
);

wrong!(
    /// Keeps a termination of an older view.
    OlderTermination,
    a_termination_of_an_older_view,
    |asked, mut outcome| {
        let opened = open(asked);
        let before = opened.and_then(|opened| opened.state.termination);
        if let (Some(before), Some(mut state), Kind::Report) =
            (before, left(asked, &outcome), asked.kind)
        {
            state.termination.get_or_insert(before);
            outcome.state = encoded(&state);
        }
        outcome
    }
);

wrong!(
    /// Makes a termination although one is kept.
    MakesTermination,
    a_termination_made_although_one_is_kept,
    |asked, outcome| match open(asked) {
        Some(mut opened) if outcome.answer == PLAN => {
            let kept = opened.state.termination.take();
            let outcome = opened.decide(asked);
            match left(asked, &outcome) {
                Some(mut state) => {
                    state.termination = kept;
                    let state = encoded(&state);
                    Outcome { state, ..outcome }
                }
                None => outcome,
            }
        }
        _ => outcome,
    }
);

wrong!(
    /// Drops one node and keeps the others, as the paper does.
    DropKeepsOthers,
    a_drop_that_keeps_the_others,
    |asked, mut outcome| {
        if let (Some(opened), Kind::Drop, 0) = (open(asked), asked.kind, outcome.answer) {
            let next = State {
                held: opened.state.held & !mask::only(asked.node),
                kept: opened.state.kept,
                termination: opened.state.termination,
                remembered: opened.state.remembered,
                ..state::fresh()
            };
            outcome.state = encoded(&next);
        }
        outcome
    }
);

wrong!(
    /// Drops without a look at the desk.
    UnsoundDrop,
    a_drop_that_skips_soundness,
    |asked, mut outcome| {
        if asked.kind == Kind::Drop && outcome.answer == 3 && outcome.state.len() == STATE_BYTES {
            outcome.answer = 0;
        }
        outcome
    }
);

wrong!(
    /// Gives 14 for a node that is none.
    NoSuchNode,
    a_node_that_is_none,
    |asked, mut outcome| {
        if asked.kind != Kind::Report && outcome.answer == 6 {
            outcome.answer = 14;
        }
        outcome
    }
);

wrong!(
    /// Wants the holder to have the greatest end of all candidates.
    GreatestEnd,
    a_holder_without_the_greatest_end,
    |asked, outcome| {
        let waits = |opened: &Opened| {
            let kept = opened.kept();
            let gathered = soundness::gathered(&opened.settings, &opened.state, &opened.reports);
            (0..opened.settings.shards).any(|shard| {
                let own = kept.masks[shard as usize];
                let end = |node: u32| {
                    let mut reports = opened.reports.iter();
                    let report = reports.find(|r| r.node == node && r.view == kept.number);
                    report.map(|report| Log::of(report, shard).end())
                };
                let holder = gathered.holding(kept, shard).map(|h| h.holder);
                mask::nodes(own)
                    .into_iter()
                    .any(|node| end(node) > holder.and_then(end))
            })
        };
        match open(asked) {
            Some(opened) if outcome.answer == PLAN && waits(&opened) => {
                Outcome::unchanged(asked, wait_word(4, None))
            }
            _ => outcome,
        }
    }
);

wrong!(
    /// Counts only those members that reported the kept view.
    CountsReporters,
    a_majority_of_reporters,
    |asked, outcome| match open(asked) {
        Some(opened) if outcome.answer == PLAN => {
            let kept = opened.kept();
            let counts =
                |r: &&Contents| r.view == kept.number && mask::has(kept.members, r.node);
            let reporters = opened.reports.iter().filter(counts).count() as u32;
            if 2 * reporters > mask::count(kept.members) {
                return outcome;
            }
            Outcome::unchanged(asked, wait_word(2, None))
        }
        _ => outcome,
    }
);

wrong!(
    /// Takes half of the members as enough.
    HalfIsEnough,
    half_of_the_members,
    |asked, outcome| match open(asked) {
        Some(mut opened) if outcome.answer == wait_word(2, None) => {
            let (kept, held) = (opened.kept().clone(), opened.state.held);
            let members = kept.members;
            if 2 * mask::count(held & members) < mask::count(members) {
                return outcome;
            }
            let members = held & members;
            opened.state.kept = Some(View { members, ..kept });
            Outcome::unchanged(asked, opened.decide(asked).answer)
        }
        _ => outcome,
    }
);

/// Whether a state's plan has more moves than it needs.
fn too_many_moves(opened: &Opened) -> bool {
    let Some(plan) = &opened.state.plan else {
        return false;
    };
    let gathered = soundness::gathered(&opened.settings, &opened.state, &opened.reports);
    (0..SUBGROUPS).any(|number| {
        let subgroup = gathered.subgroup(opened.kept(), number);
        subgroup.least_moves() != Some(subgroup.moves(&plan.masks))
    })
}

wrong!(
    /// Asks for least moves again in every event.
    LeastMovesAgain,
    least_moves_asked_again,
    |asked, outcome| refused_if(asked, outcome, 3, too_many_moves)
);

wrong!(
    /// Takes a plan that moves more than it needs to.
    AnyPlacement,
    a_placement_of_more_moves,
    |asked, mut outcome| {
        let Some(opened) = open(asked).filter(|_| outcome.answer == PLAN) else {
            return outcome;
        };
        let mut state = left(asked, &outcome).expect("a plan");
        let plan = state.plan.as_mut().expect("a plan");
        let others = vec![0; 16];
        plan.total = 0;
        for number in 0..SUBGROUPS {
            let gathered = soundness::gathered(&opened.settings, &opened.state, &opened.reports);
            let mut subgroup = gathered.subgroup(opened.kept(), number);
            let old = std::mem::replace(&mut subgroup.old, &others);
            let placed = subgroup.any_best().expect("a placement");
            subgroup.old = old;
            plan.total += subgroup.moves(&placed);
            for shard in opened.settings.shards_of(number) {
                plan.masks[shard as usize] = placed[shard as usize];
            }
        }
        outcome.state = encoded(&state);
        outcome
    }
);

wrong!(
    /// Counts moves by failure set.
    MovesBySet,
    moves_by_failure_set,
    |asked, mut outcome| {
        let Some(opened) = open(asked).filter(|_| outcome.answer == PLAN) else {
            return outcome;
        };
        let mut state = left(asked, &outcome).expect("a plan");
        let plan = state.plan.as_mut().expect("a plan");
        let sets = |nodes: u32| {
            let set = |node| mask::only(opened.settings.set(node));
            mask::nodes(nodes).into_iter().fold(0, |all, n| all | set(n))
        };
        let old = opened.kept().masks.iter();
        let moved = plan.masks.iter().zip(old).map(|(&new, &old)| sets(new) & !sets(old));
        plan.total = moved.map(mask::count).sum();
        outcome.state = encoded(&state);
        outcome
    }
);

wrong!(
    /// Lays out subgroup 0 and copies old members for the rest.
    CopiesTheRest,
    the_other_subgroups_copied,
    |asked, mut outcome| {
        let Some(opened) = open(asked).filter(|_| outcome.answer == PLAN) else {
            return outcome;
        };
        let mut state = left(asked, &outcome).expect("a plan");
        let plan = state.plan.as_mut().expect("a plan");
        for (shard, mask) in plan.masks.iter_mut().enumerate() {
            if opened.settings.subgroup(shard as u32) != 0 {
                *mask = opened.kept().masks[shard];
            }
        }
        outcome.state = encoded(&state);
        outcome
    }
);

wrong!(
    /// Gives every plan the total of case A.
    TotalOfCaseA,
    a_total_unrelated_to_the_placement,
    |_, mut outcome| {
        if outcome.answer == PLAN {
            outcome.state[4 * 57..4 * 58].copy_from_slice(&2u32.to_le_bytes());
        }
        outcome
    }
);

wrong!(
    /// Waits before it has looked.
    WaitsFirst,
    a_wait_before_a_look,
    |asked, outcome| match outcome.answer() {
        Answer::Plan | Answer::Wait(3..=5, _) => Outcome::unchanged(asked, wait_word(2, None)),
        _ => outcome,
    }
);

wrong!(
    /// Numbers everything as malformed.
    AllMalformed,
    everything_malformed,
    |asked, outcome| match (asked.kind, outcome.answer) {
        (Kind::Report, 0) => Outcome::unchanged(asked, 9),
        _ => outcome,
    }
);

wrong!(
    /// Gives no index of a record.
    ReportNoIndex,
    a_report_refused_without_an_index,
    |_, mut outcome| {
        if let Answer::Located(number, _) = outcome.answer() {
            outcome.answer = number;
        }
        outcome
    }
);

wrong!(
    /// Tells a shard from S up and a wrong sequence as malformed.
    ReportOneNine,
    a_report_with_one_number_for_its_records,
    |_, mut outcome| {
        if let Answer::Located(16 | 17, index) = outcome.answer() {
            outcome.answer = 9 + 256 * index;
        }
        outcome
    }
);

wrong!(
    /// Tells which slot's record makes a state unsound.
    SlotIndex,
    a_state_unsound_at_a_record,
    |asked, mut outcome| {
        if outcome.answer == 3 && left(asked, &outcome).is_some() {
            outcome.answer = 3 + 256;
        }
        outcome
    }
);

wrong!(
    /// Compares the masks of equal older views.
    OlderMasks,
    masks_of_an_older_view,
    |asked, outcome| refused_if(asked, outcome, 12, |opened| {
        let Some(report) = brought(asked, opened) else {
            return false;
        };
        let view = soundness::view(&opened.settings, &report);
        let other = |r: &Contents| {
            r.view == report.view && soundness::view(&opened.settings, r) != view
        };
        asked.kind == Kind::Report && opened.reports.iter().any(other)
    })
);

wrong!(
    /// Compares the kept termination with that of a smaller view.
    SmallerTermination,
    a_termination_of_a_smaller_view,
    |asked, outcome| refused_if(asked, outcome, 13, |opened| {
        let report = brought(asked, opened);
        let kept = opened.state.kept.as_ref().map_or(0, |kept| kept.number);
        let own = report.filter(|r| r.view < kept);
        let own = own.and_then(|report| soundness::termination(&report));
        let kept = &opened.state.termination;
        asked.kind == Kind::Report && own.is_some() && kept.is_some() && own != *kept
    })
);

/// The call with nothing remembered of its report's node, which is not held
/// then: number 18 cannot be given.
fn forgetful(asked: &Asked) -> Asked {
    let mut asked = asked.clone();
    let node = words::whole_words(&asked.message)[0] as usize;
    asked.table.state[4 * (122 + node)..][..4].fill(0);
    asked.table.state[4 * 52 + node / 8] &= !(1 << (node % 8));
    asked
}

wrong!(
    /// Takes a report of a smaller view than the node's earlier one.
    StepBack,
    a_report_of_a_smaller_view,
    |asked, outcome| match outcome.answer {
        18 => calls::expected(&forgetful(asked)),
        _ => outcome,
    }
);

wrong!(
    /// Looks at the slot of a held node for its earlier view.
    HeldViews,
    a_view_that_is_remembered_while_held,
    |asked, outcome| match open(asked) {
        Some(opened) if outcome.answer == 18 => {
            let node = words::whole_words(&asked.message)[0];
            if mask::has(opened.state.held, node) {
                return outcome;
            }
            calls::expected(&forgetful(asked))
        }
        _ => outcome,
    }
);

wrong!(
    /// Refuses a report of the view that the node reported earlier.
    NoRepeat,
    a_report_of_an_equal_view,
    |asked, outcome| refused_if(asked, outcome, 18, |opened| {
        let report = brought(asked, opened).filter(|_| asked.kind == Kind::Report);
        report.is_some_and(|r| r.view == opened.state.remembered[r.node as usize])
    })
);

wrong!(
    /// Refuses a smaller view than any node has reported.
    GroupMemory,
    a_view_that_another_node_reported,
    |asked, outcome| refused_if(asked, outcome, 18, |opened| {
        let report = brought(asked, opened).filter(|_| asked.kind == Kind::Report);
        let kept = opened.state.kept.as_ref().map_or(0, |kept| kept.number);
        report.is_some_and(|report| report.view < kept)
    })
);

wrong!(
    /// Gives 18 before 11.
    MemoryFirst,
    a_smaller_view_before_its_runs,
    |asked, outcome| match left(asked, &outcome) {
        Some(state) if asked.kind == Kind::Report && outcome.answer == 11 => {
            let message = words::whole_words(&asked.message);
            if message[1] < state.remembered[message[0] as usize] {
                return Outcome::unchanged(asked, 18);
            }
            outcome
        }
        _ => outcome,
    }
);

wrong!(
    /// Gives 12 and 13 before 18.
    MemoryLast,
    a_smaller_view_after_masks_and_termination,
    |asked, outcome| match outcome.answer {
        18 => {
            let later = calls::expected(&forgetful(asked)).answer;
            Outcome::unchanged(asked, if later == 0 { 18 } else { later })
        }
        _ => outcome,
    }
);

/// Changes what is remembered of the nodes of a mask after an accepted call.
fn remembers(
    asked: &Asked,
    mut outcome: Outcome,
    nodes: impl Fn(&State) -> u32,
    view: impl Fn(&State, u32) -> u32,
) -> Outcome {
    if let (Some(opened), Some(mut state)) = (open(asked), left(asked, &outcome)) {
        for node in mask::nodes(nodes(&opened.state)) {
            state.remembered[node as usize] = view(&state, node);
        }
        outcome.state = encoded(&state);
    }
    outcome
}

wrong!(
    /// Forgets a node that is dropped in gathering.
    ForgetsDropped,
    a_drop_that_forgets_its_node,
    |asked, outcome| match (asked.kind, outcome.answer) {
        (Kind::Drop, 0) => {
            let node = mask::only(asked.node);
            let dropped = |state: &State| {
                if state.phase == Phase::Gathering { node } else { 0 }
            };
            remembers(asked, outcome, dropped, |_, _| 0)
        }
        _ => outcome,
    }
);

wrong!(
    /// Forgets all nodes where gathering starts again.
    ForgetsAll,
    a_drop_that_forgets_all,
    |asked, outcome| match (asked.kind, outcome.answer) {
        (Kind::Drop, 0) => {
            let all = |state: &State| {
                if state.phase == Phase::Gathering { 0 } else { u32::MAX }
            };
            remembers(asked, outcome, all, |_, _| 0)
        }
        _ => outcome,
    }
);

wrong!(
    /// Remembers the kept view of a node that reported a smaller one.
    RemembersKept,
    the_kept_view_remembered,
    |asked, outcome| match (asked.kind, outcome.answer) {
        (Kind::Report, 0) => {
            let node = mask::only(words::whole_words(&asked.message)[0]);
            let kept = |state: &State, _| state.kept.as_ref().map_or(0, |kept| kept.number);
            remembers(asked, outcome, |_| node, kept)
        }
        _ => outcome,
    }
);

wrong!(
    /// Remembers a report that is refused with 12 or 13.
    RemembersRefused,
    a_refused_report_remembered,
    |asked, outcome| match (asked.kind, outcome.answer) {
        (Kind::Report, 12 | 13) => {
            let message = words::whole_words(&asked.message);
            let (node, view) = (mask::only(message[0]), message[1]);
            remembers(asked, outcome, |_| node, |_, _| view)
        }
        _ => outcome,
    }
);

wrong!(
    /// Forgets what is not held when a plan is made.
    PlanForgets,
    a_plan_that_forgets_absent_nodes,
    |asked, outcome| match outcome.answer {
        PLAN => remembers(asked, outcome, |state| !state.held, |_, _| 0),
        _ => outcome,
    }
);

wrong!(
    /// Leaves what is remembered in a fresh state.
    FreshRemembers,
    a_fresh_state_that_remembers,
    |asked, mut outcome| {
        if asked.kind == Kind::Fresh && outcome.answer == 0 {
            let memory = 4 * 122..4 * 154;
            outcome.state[memory.clone()].copy_from_slice(&asked.table.state[memory]);
        }
        outcome
    }
);

wrong!(
    /// Wants the view of its report to be remembered of a held node.
    ExactMemory,
    a_memory_above_the_report,
    |asked, outcome| refused_if(asked, outcome, 3, |opened| {
        let remembered = &opened.state.remembered;
        opened.reports.iter().any(|r| remembered[r.node as usize] != r.view)
    })
);

wrong!(
    /// Wants no view above the kept one to be remembered, held or not.
    MemoryOfAbsent,
    a_memory_of_absent_nodes,
    |asked, outcome| refused_if(asked, outcome, 3, |opened| {
        let kept = opened.state.kept.as_ref().map_or(0, |kept| kept.number);
        opened.state.remembered.iter().any(|&view| view > kept)
    })
);

/// A state that is unsound, checked again with other views remembered of held
/// nodes.
fn checked_with(asked: &Asked, outcome: Outcome, view: fn(u32, u32, u32) -> u32) -> Outcome {
    let state = left(asked, &outcome).filter(|_| asked.kind == Kind::CheckState);
    let (Some(mut state), 3) = (state, outcome.answer) else {
        return outcome;
    };
    let desk = words::whole_words(&asked.table.desk);
    let kept = state.kept.as_ref().map_or(0, |kept| kept.number);
    for node in mask::nodes(state.held) {
        let own = desk::slot(&desk, node)[1];
        let remembered = &mut state.remembered[node as usize];
        *remembered = view(*remembered, own, kept);
    }
    let mut cured = asked.clone();
    cured.table.state = encoded(&state);
    Outcome::unchanged(asked, calls::expected(&cured).answer)
}

wrong!(
    /// Takes a memory below a held report, as that of an earlier release.
    MemoryBelow,
    a_memory_below_the_report,
    |asked, outcome| checked_with(asked, outcome, |view, own, _| view.max(own))
);

wrong!(
    /// Takes a memory above the kept view of a held node.
    MemoryAbove,
    a_memory_above_the_kept_view,
    |asked, outcome| checked_with(asked, outcome, |view, _, kept| view.min(kept))
);

/// Whether a state is sound once these words of it are zero.
fn checked_without(asked: &Asked, outcome: Outcome, words: std::ops::Range<usize>) -> Outcome {
    if asked.kind != Kind::CheckState || outcome.answer != 3 || outcome.state.len() != STATE_BYTES {
        return outcome;
    }
    let mut clean = asked.clone();
    clean.table.state[4 * words.start..4 * words.end].fill(0);
    Outcome::unchanged(asked, calls::expected(&clean).answer)
}

wrong!(
    /// Takes a view remembered of a node from N up.
    DeadNodes,
    a_memory_of_nodes_that_are_none,
    |asked, outcome| match open_settings(asked) {
        Some(settings) => {
            let first = 122 + settings.nodes as usize;
            checked_without(asked, outcome, first..154)
        }
        None => outcome,
    }
);

wrong!(
    /// Looks at the fetched mark in prepared.
    FetchedMark,
    the_fetched_mark_in_prepared,
    |asked, outcome| refused_if(asked, outcome, 14, |opened| {
        asked.kind == Kind::Prepared && mask::has(opened.state.fetched, asked.node)
    })
);

wrong!(
    /// Goes on when all nodes with a shard are marked.
    OnlyShards,
    marks_of_nodes_without_a_shard,
    |asked, mut outcome| {
        let state = left(asked, &outcome).filter(|_| asked.kind == Kind::Fetched);
        if let Some(mut state) = state.filter(|state| state.phase == Phase::Ordered) {
            let plan = state.plan.as_ref().expect("a plan");
            let carried = plan.masks.iter().fold(0, |all, &own| all | own);
            if mask::within(carried, state.fetched) {
                state.phase = Phase::Preparing;
                outcome.state = encoded(&state);
            }
        }
        outcome
    }
);

wrong!(
    /// Gives orders while preparing.
    LateOrders,
    orders_while_preparing,
    |asked, outcome| match open(asked) {
        Some(opened) if asked.kind == Kind::Order && opened.state.phase == Phase::Preparing => {
            let mut earlier = opened.state.clone();
            earlier.phase = Phase::Ordered;
            earlier.fetched = 0;
            earlier.prepared = 0;
            let mut asked = asked.clone();
            let state = std::mem::replace(&mut asked.table.state, encoded(&earlier));
            let outcome = calls::expected(&asked);
            Outcome { state, ..outcome }
        }
        _ => outcome,
    }
);

/// The order with other cuts: each by the node's log, the holder's and the
/// target.
fn with_cuts(
    asked: &Asked,
    mut outcome: Outcome,
    cut: impl Fn(&Log, &Log, Position) -> Position,
) -> Outcome {
    let Some(opened) =
        open(asked).filter(|_| outcome.answer > ACCEPTED && asked.kind == Kind::Order)
    else {
        return outcome;
    };
    let order = words::whole_words(&outcome.buffer);
    let order = message::read_with(Form::Order, &opened.settings, &order);
    let mut order = order.expect("an order");
    let log = |node: u32, shard: u32| {
        let report = opened.reports.iter().find(|r| r.node == node);
        Log::of(report.expect("a held node"), shard)
    };
    let (targets, holders) = (order.of_kind(TERMINATION), order.of_kind(HOLDER));
    for record in order.records.iter_mut().filter(|r| r.kind() == CUT) {
        let shard = record.shard();
        let holder = holders.iter().find(|r| r.shard() == shard);
        let holder = holder.expect("a holder").word1;
        let target = targets[shard as usize];
        let target = Position::new(target.word1, target.word2);
        let cut = cut(&log(asked.node, shard), &log(holder, shard), target);
        (record.word1, record.word2) = (cut.view, cut.k);
    }
    let words = words::padded(&message::encode(&order), SLOT_WORDS);
    outcome.buffer = words::to_bytes(&words);
    outcome
}

wrong!(
    /// Cuts at the lesser of the node's end and the target.
    CutAtTarget,
    a_cut_without_the_holders_log,
    |asked, outcome| with_cuts(asked, outcome, |node, _, target| node.end().min(target))
);

wrong!(
    /// Cuts by the view of the node's end alone, whatever comes before it.
    CutByViews,
    a_cut_by_the_view_of_the_end,
    |asked, outcome| with_cuts(asked, outcome, |node, holder, target| {
        let views = Position::new(node.end().view, u32::MAX);
        node.end().min(holder.up_to(target).up_to(views).end())
    })
);

wrong!(
    /// Cuts at the last update that both logs have, wherever they part.
    CutAtLastShared,
    a_cut_after_the_logs_have_parted,
    |asked, outcome| with_cuts(asked, outcome, |node, holder, target| {
        let shared = |run: &Run| {
            let own = node.runs.iter().find(|own| own.view == run.view);
            own.map(|own| Position::new(run.view, own.count.min(run.count)))
        };
        let wanted = holder.up_to(target);
        wanted.runs.iter().filter_map(shared).max().unwrap_or(START)
    })
);

wrong!(
    /// Goes on after two runs of one view whose counts differ.
    CutGoesOn,
    a_cut_that_skips_other_counts,
    |asked, outcome| with_cuts(asked, outcome, |node, holder, target| {
        let wanted = holder.up_to(target);
        let pairs = node.runs.iter().zip(&wanted.runs);
        let alike = pairs.take_while(|(own, run)| own.view == run.view);
        let end = |(own, run): (&Run, &Run)| Position::new(run.view, own.count.min(run.count));
        alike.map(end).last().unwrap_or(START)
    })
);

wrong!(
    /// Keeps whole runs only.
    CutBetweenRuns,
    a_cut_at_the_end_of_equal_runs,
    |asked, outcome| with_cuts(asked, outcome, |node, holder, target| {
        let wanted = holder.up_to(target);
        let pairs = node.runs.iter().zip(&wanted.runs);
        let alike = pairs.take_while(|(own, run)| own == run);
        let end = |(_, run): (&Run, &Run)| Position::new(run.view, run.count);
        alike.map(end).last().unwrap_or(START)
    })
);

wrong!(
    /// Takes two logs with one end as equal.
    CutByEnds,
    a_cut_by_equal_ends,
    |asked, outcome| with_cuts(asked, outcome, |node, holder, target| {
        if node.end() == holder.end() || node.end() == target {
            return target;
        }
        log::cut(node, holder, target)
    })
);

wrong!(
    /// Shares with the holder's whole log.
    CutPastTarget,
    a_cut_past_the_target,
    |asked, outcome| with_cuts(asked, outcome, |node, holder, _| {
        log::cut(node, holder, holder.end())
    })
);

wrong!(
    /// Leaves out a first run that only one of the logs has.
    CutFromSharedView,
    a_cut_that_does_not_start_at_the_beginning,
    |asked, outcome| with_cuts(asked, outcome, |node, holder, target| {
        let first = |log: &Log| log.runs.first().map_or(0, |run| run.view);
        let from = first(node).max(first(holder));
        let later = |log: &Log| Log {
            runs: log.runs.iter().filter(|run| run.view >= from).copied().collect(),
        };
        log::cut(&later(node), &later(holder), target)
    })
);

wrong!(
    /// Takes any word where a state has none.
    DeadWords,
    words_that_mean_nothing,
    |asked, outcome| checked_without(asked, outcome, 154..STATE_BYTES / 4)
);

wrong!(
    /// Wants zeros behind the report in a slot.
    WantsZeros,
    zeros_in_a_slot,
    |asked, outcome| refused_if(asked, outcome, 3, |opened| {
        let rest = |report: &Contents| {
            let slot = desk::slot(&opened.desk, report.node);
            slot[4 * (1 + report.records.len())..].iter().any(|&word| word != 0)
        };
        opened.reports.iter().any(rest)
    })
);

wrong!(
    /// Never places a node twice, in any subgroup.
    ApartEverywhere,
    a_node_in_two_subgroups,
    |asked, outcome| {
        let state = left(asked, &outcome).filter(|_| outcome.answer == PLAN);
        let plan = state.and_then(|state| state.plan);
        let twice = |plan: Plan| {
            let placed = plan.masks.iter().map(|&own| mask::count(own)).sum::<u32>();
            placed > mask::count(plan.masks.iter().fold(0, |all, &own| all | own))
        };
        if plan.is_some_and(twice) {
            return Outcome::unchanged(asked, wait_word(5, None));
        }
        outcome
    }
);

wrong!(
    /// Wants a held reporter of the kept view.
    ReporterHeld,
    a_kept_view_without_its_reporter,
    |asked, outcome| refused_if(asked, outcome, 3, |opened| {
        let kept = opened.state.kept.as_ref();
        kept.is_some_and(|kept| opened.reports.iter().all(|r| r.view != kept.number))
    })
);

wrong!(
    /// Looks at the state's length first.
    StateFirst,
    the_states_length_first,
    |asked, mut outcome| {
        if asked.table.state.len() != STATE_BYTES {
            outcome.answer = 3;
        }
        outcome
    }
);

wrong!(
    /// Drops a part word at the message's end.
    PartWord,
    a_part_word,
    |asked, outcome| {
        let mut whole = asked.clone();
        if outcome.answer == 5 {
            whole.message.truncate(asked.message.len() / 4 * 4);
            return calls::expected(&whole);
        }
        outcome
    }
);

wrong!(
    /// Names no shard in a wait.
    NoShardNamed,
    a_wait_without_its_shard,
    |_, mut outcome| {
        if let Answer::Wait(reason, _) = outcome.answer() {
            outcome.answer = wait_word(reason, None);
        }
        outcome
    }
);

wrong!(
    /// Waits rather than give the greatest number.
    NoLastNumber,
    the_greatest_number,
    |asked, outcome| match left(asked, &outcome).and_then(|state| state.plan) {
        Some(plan) if outcome.answer == PLAN && plan.number == u32::MAX => {
            Outcome::unchanged(asked, wait_word(1, None))
        }
        _ => outcome,
    }
);

wrong!(
    /// Writes the slot before row 13 is asked.
    WritesFirst,
    a_refusal_that_writes_the_desk,
    |_, mut outcome| {
        if outcome.answer == 13 {
            outcome.desk[0] ^= 1;
        }
        outcome
    }
);

wrong!(
    /// Changes the desk in an event that only reads it.
    ChangesDesk,
    a_decision_that_writes_the_desk,
    |asked, mut outcome| {
        if asked.kind == Kind::Decide && outcome.answer == PLAN {
            outcome.desk[65_535] ^= 1;
        }
        outcome
    }
);

wrong!(
    /// Writes a byte behind the state.
    BehindTheState,
    a_byte_behind_the_state,
    |asked, mut outcome| {
        if asked.kind == Kind::Fetched && outcome.answer == 0 {
            outcome.state.push(0);
        }
        outcome
    }
);

wrong!(
    /// Checks a state while gathering only.
    CheckedByPhase,
    a_check_that_asks_for_the_phase,
    |asked, outcome| refused_if(asked, outcome, 4, |opened| {
        asked.kind == Kind::CheckState && opened.state.phase != Phase::Gathering
    })
);

wrong!(
    /// Takes words that are a state as sound with any desk.
    CheckedWithoutDesk,
    a_check_that_does_not_look_at_the_desk,
    |asked, outcome| {
        let is_state = left(asked, &outcome).is_some();
        if asked.kind == Kind::CheckState && outcome.answer == 3 && is_state {
            return Outcome::unchanged(asked, 0);
        }
        outcome
    }
);

/// What a difference prints is a case that shows it again.
#[test]
fn a_difference_is_written_down_as_a_case() {
    let planner = mock::planner::<CutAtTarget>();
    let (index, _, what) = found(&planner).expect("a difference");
    let mut pages = Pages::new(false);
    let text = events::case(&planner, &mut pages, SEED, index);
    let cases = regressions::cases(&text).expect("a case");
    let played = regressions::play(&planner, &mut pages, &cases[0]);
    assert!(played.is_err_and(|said| said.ends_with(&what)), "{text}");
    let faithful = mock::planner::<Faithful>();
    assert_eq!(regressions::play(&faithful, &mut pages, &cases[0]), Ok(()));
}

/// Every written case of some sequences is taken, faults and lengths included.
#[test]
fn cases_of_damaged_calls() {
    let mut pages = Pages::new(true);
    let faithful = mock::planner::<Faithful>();
    for index in 0..15 {
        let mut recorder = Recorder::new("a sequence");
        let sequence = events::sequence(SEED, index);
        let seen = |step: &events::Step, _: &Outcome| recorder.call(&step.asked);
        assert!(events::play(&faithful, &mut pages, sequence, seen).is_ok());
        for case in regressions::cases(&recorder.text).expect("a case") {
            assert_eq!(regressions::play(&faithful, &mut pages, &case), Ok(()));
        }
    }
}
