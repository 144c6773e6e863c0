//! The events (restart(3), Events).
//!
//! Each event takes the caller's role, and settings, state and desk as words; it
//! gives what follows, or the number of the first row that holds. Rows that concern an event are
//! asked in the order of restart(7)'s table.

use crate::desk::{self, DESK_WORDS};
use crate::log::{self, Log, Position};
use crate::mask;
use crate::message::{self, Contents, Form, Triple, CUT, HOLDER, MEMBERS, TERMINATION};
use crate::number::{self, refuse_if, Number, Refusal};
use crate::order::{self, Choice, Layout};
use crate::placement::Placement;
use crate::quorum::{Reports, Wait};
use crate::roles::Role;
use crate::settings::{self, Settings};
use crate::soundness::{self, gathered, row_12, row_13};
use crate::state::{self, Phase, Plan, State, STATE_WORDS};

/// What decide says.
#[derive(Clone, Copy, Debug, PartialEq, Eq)]
pub enum Decision {
    /// The plan is in the state.
    Plan,
    Wait(Wait),
}

/// Settings, state and the held reports, after rows 1 to 3.
pub struct Opened {
    pub settings: Settings,
    pub state: State,
    pub reports: Reports,
}

/// Rows 1 to 3: the desk's length, the settings, whether the role is allowed
/// what it asks for (number 15), the state's soundness.
pub fn open(
    allowed: bool,
    settings: &[u32],
    state: &[u32],
    desk: &[u32],
) -> Result<Opened, Number> {
    refuse_if(desk.len() != DESK_WORDS, number::LENT_LENGTH)?;
    let settings = settings::parse(settings)?;
    refuse_if(!allowed, number::ROLE)?;
    let state = state::decode(&settings, state).ok_or(number::STATE)?;
    let reports = soundness::sound(&settings, &state, desk).ok_or(number::STATE)?;
    Ok(Opened {
        settings,
        state,
        reports,
    })
}

/// The fresh state, in the place of so many words.
pub fn fresh(role: Role, state_words: usize) -> Result<Vec<u32>, Number> {
    refuse_if(!role.may_plan(), number::ROLE)?;
    refuse_if(state_words != STATE_WORDS, number::STATE)?;
    Ok(state::encode(&state::fresh()))
}

/// Whether the state is sound with this desk, in whatever phase it is.
pub fn check(role: Role, settings: &[u32], state: &[u32], desk: &[u32]) -> Result<(), Number> {
    open(role.may_plan(), settings, state, desk).map(|_| ())
}

/// A report: the next state and the next desk.
pub fn report(
    role: Role,
    settings: &[u32],
    state: &[u32],
    desk: &[u32],
    message: &[u32],
) -> Result<(Vec<u32>, Vec<u32>), Refusal> {
    let Opened {
        settings, state, ..
    } = open(role.may_plan(), settings, state, desk)?;
    refuse_if(state.phase != Phase::Gathering, number::PHASE)?;
    let report = message::read_with(Form::Report, &settings, message)?;
    refuse_if(row_18(&state, &report), number::WENT_BACK)?;
    refuse_if(row_12(&settings, &state, &report), number::OTHER_MASKS)?;
    refuse_if(row_13(&state, &report), number::OTHER_TERMINATION)?;
    let next = after_report(&settings, &state, &report);
    let desk = desk::with_message(desk, report.node, message);
    Ok((state::encode(&next), desk))
}

/// Number 18: a smaller view than the node's own earlier one.
fn row_18(state: &State, report: &Contents) -> bool {
    report.view < state.remembered[report.node as usize]
}

/// A greater view becomes the kept view, with its termination or none. An equal
/// view adds its termination if none is kept. A smaller view changes neither.
/// The node's greatest view is remembered.
fn after_report(settings: &Settings, state: &State, report: &Contents) -> State {
    let mut next = state.clone();
    let kept = state.kept.as_ref().map_or(0, |view| view.number);
    next.held |= mask::only(report.node);
    let remembered = &mut next.remembered[report.node as usize];
    *remembered = report.view.max(*remembered);
    if report.view > kept {
        next.kept = Some(soundness::view(settings, report));
        next.termination = soundness::termination(report);
    }
    if report.view == kept && state.termination.is_none() {
        next.termination = soundness::termination(report);
    }
    next
}

/// Rows 6 and 14 of a node that is an argument.
fn check_held(settings: &Settings, state: &State, node: u32) -> Result<(), Number> {
    refuse_if(message::row_6(settings, node), number::NODE)?;
    refuse_if(!mask::has(state.held, node), number::NOT_HELD)
}

/// Drop: in gathering the node is no longer held; while ordered or preparing,
/// gathering starts again with nothing held. What is remembered remains.
pub fn drop_node(
    role: Role,
    settings: &[u32],
    state: &[u32],
    desk: &[u32],
    node: u32,
) -> Result<Vec<u32>, Number> {
    let Opened {
        settings, state, ..
    } = open(role.may_plan(), settings, state, desk)?;
    refuse_if(state.phase == Phase::Committed, number::PHASE)?;
    check_held(&settings, &state, node)?;
    let held = match state.phase {
        Phase::Gathering => state.held & !mask::only(node),
        _ => 0,
    };
    let next = State {
        held,
        kept: state.kept,
        termination: state.termination,
        remembered: state.remembered,
        ..state::fresh()
    };
    Ok(state::encode(&next))
}

/// Decide: what it says, and the next state.
pub fn decide(
    role: Role,
    settings: &[u32],
    state: &[u32],
    desk: &[u32],
) -> Result<(Decision, Vec<u32>), Number> {
    decide_by(order::greedy, role, settings, state, desk)
}

/// Decide, where `choice` finds each subgroup's placement.
pub fn decide_by(
    choice: Choice,
    role: Role,
    settings: &[u32],
    state: &[u32],
    desk: &[u32],
) -> Result<(Decision, Vec<u32>), Number> {
    let place = |layout: &Layout| layout.each(choice);
    decide_with(place, role, settings, state, desk)
}

/// Decide, where `place` finds the placement of all subgroups, or names the
/// lowest that has none.
pub fn decide_with(
    place: impl Fn(&Layout) -> Result<Placement, u32>,
    role: Role,
    settings: &[u32],
    state: &[u32],
    desk: &[u32],
) -> Result<(Decision, Vec<u32>), Number> {
    let opened = open(role.may_plan(), settings, state, desk)?;
    refuse_if(opened.state.phase != Phase::Gathering, number::PHASE)?;
    match plan(&opened, place) {
        Err(wait) => Ok((Decision::Wait(wait), state.to_vec())),
        Ok(plan) => {
            let next = State {
                phase: Phase::Ordered,
                plan: Some(plan),
                ..opened.state
            };
            Ok((Decision::Plan, state::encode(&next)))
        }
    }
}

/// The plan, or the first reason to wait. Of the placements of least moves and
/// then most stays the first in the order is taken, if `place` does so.
fn plan(opened: &Opened, place: impl Fn(&Layout) -> Result<Placement, u32>) -> Result<Plan, Wait> {
    let Opened {
        settings,
        state,
        reports,
    } = opened;
    let gathered = gathered(settings, state, reports);
    let (view, holdings) = gathered.quorum()?;
    let layout = gathered.layout(view);
    let masks = place(&layout).map_err(Wait::NoPlacement)?;
    Ok(Plan {
        number: view.number + 1,
        members: state.held,
        total: layout.moves(&masks),
        masks,
        holders: holdings.iter().map(|h| h.holder).collect(),
        targets: holdings.iter().map(|h| h.target).collect(),
    })
}

/// Order: the words of one held node's order. `buffer_words` is the length of
/// the buffer to be written.
pub fn order(
    role: Role,
    settings: &[u32],
    state: &[u32],
    desk: &[u32],
    node: u32,
    buffer_words: usize,
) -> Result<Vec<u32>, Refusal> {
    refuse_if(buffer_words != message::MOST_WORDS, number::LENT_LENGTH)?;
    let opened = open(role.may_plan(), settings, state, desk)?;
    refuse_if(opened.state.phase != Phase::Ordered, number::PHASE)?;
    check_held(&opened.settings, &opened.state, node)?;
    let plan = opened.state.plan.as_ref().ok_or(number::STATE)?;
    let contents = order_contents(&opened.settings, plan, &opened.reports, node);
    message::write_with(Form::Order, &opened.settings, &contents)
}

/// That node, the new view, the plan's members and shard masks, the targets,
/// and the node's holders and cuts.
fn order_contents(settings: &Settings, plan: &Plan, reports: &Reports, node: u32) -> Contents {
    let mut records = Vec::new();
    for shard in 0..settings.shards {
        let mask = plan.masks[shard as usize];
        records.push(Triple::new(MEMBERS, shard, mask, 0));
    }
    for shard in 0..settings.shards {
        let target = plan.targets[shard as usize];
        records.push(Triple::new(TERMINATION, shard, target.view, target.k));
    }
    let carries = |&shard: &u32| mask::has(plan.masks[shard as usize], node);
    let carried: Vec<u32> = (0..settings.shards).filter(carries).collect();
    for &shard in &carried {
        let holder = plan.holders[shard as usize];
        records.push(Triple::new(HOLDER, shard, holder, 0));
    }
    for &shard in &carried {
        let cut = cut(plan, reports, node, shard);
        records.push(Triple::new(CUT, shard, cut.view, cut.k));
    }
    Contents {
        node,
        view: plan.number,
        members: plan.members,
        records,
    }
}

/// The cut of a node in a shard it carries.
fn cut(plan: &Plan, reports: &Reports, node: u32, shard: u32) -> Position {
    let log_of = |wanted: u32| {
        let report = reports.iter().find(|report| report.node == wanted);
        report.map_or(Log::default(), |report| Log::of(report, shard))
    };
    let holder = plan.holders[shard as usize];
    let target = plan.targets[shard as usize];
    log::cut(&log_of(node), &log_of(holder), target)
}

/// Fetched: marks the node; when all held nodes are marked, preparing follows.
pub fn fetched(
    role: Role,
    settings: &[u32],
    state: &[u32],
    desk: &[u32],
    node: u32,
) -> Result<Vec<u32>, Number> {
    let Opened {
        settings,
        mut state,
        ..
    } = open(role.may_plan(), settings, state, desk)?;
    refuse_if(state.phase != Phase::Ordered, number::PHASE)?;
    check_held(&settings, &state, node)?;
    refuse_if(mask::has(state.fetched, node), number::NOT_HELD)?;
    state.fetched |= mask::only(node);
    if state.fetched == state.held {
        state.phase = Phase::Preparing;
    }
    Ok(state::encode(&state))
}

/// Prepared: marks the node; when all held nodes are marked, committed follows.
pub fn prepared(
    role: Role,
    settings: &[u32],
    state: &[u32],
    desk: &[u32],
    node: u32,
) -> Result<Vec<u32>, Number> {
    let Opened {
        settings,
        mut state,
        ..
    } = open(role.may_plan(), settings, state, desk)?;
    refuse_if(state.phase != Phase::Preparing, number::PHASE)?;
    check_held(&settings, &state, node)?;
    refuse_if(mask::has(state.prepared, node), number::NOT_HELD)?;
    state.prepared |= mask::only(node);
    if state.prepared == state.held {
        state.phase = Phase::Committed;
    }
    Ok(state::encode(&state))
}

#[cfg(test)]
mod tests;
