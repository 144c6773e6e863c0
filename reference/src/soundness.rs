//! When a state is sound (restart-model(7), SOUND STATES).

use crate::desk;
use crate::log::Position;
use crate::mask;
use crate::message::{self, Contents, Form, TERMINATION};
use crate::quorum::{Gathered, Holding, Reports};
use crate::settings::{Settings, SUBGROUPS};
use crate::state::{Phase, Plan, State, View};

/// The termination that a report carries.
pub fn termination(report: &Contents) -> Option<Vec<Position>> {
    let records = report.of_kind(TERMINATION);
    let position = |record: &message::Triple| Position::new(record.word1, record.word2);
    (!records.is_empty()).then(|| records.iter().map(position).collect())
}

/// The view that a report tells of.
pub fn view(settings: &Settings, report: &Contents) -> View {
    View {
        number: report.view,
        members: report.members,
        masks: report.shard_masks(settings),
    }
}

/// Row 12: the kept number with other masks.
pub fn row_12(settings: &Settings, state: &State, report: &Contents) -> bool {
    state
        .kept
        .as_ref()
        .is_some_and(|kept| kept.number == report.view && *kept != view(settings, report))
}

/// Row 13: the kept view's termination differs.
pub fn row_13(state: &State, report: &Contents) -> bool {
    let of_kept_view = state.kept.as_ref().is_some_and(|k| k.number == report.view);
    match (&state.termination, termination(report)) {
        (Some(kept), Some(own)) => of_kept_view && *kept != own,
        _ => false,
    }
}

/// Whether the state is sound with this desk. If so, the held nodes' reports.
pub fn sound(settings: &Settings, state: &State, desk: &[u32]) -> Option<Reports> {
    let masks_ok = sound_masks(settings, state);
    let kept_ok = sound_kept(settings, state);
    if !masks_ok || !kept_ok || !sound_phase(state) {
        return None;
    }
    let reports = held_reports(settings, state, desk)?;
    let memory_ok = sound_memory(state, &reports);
    (memory_ok && sound_plan(settings, state, &reports)).then_some(reports)
}

/// For each held node a view from its report's up to the kept one is
/// remembered. Of other nodes nothing is asked.
fn sound_memory(state: &State, reports: &Reports) -> bool {
    let kept = state.kept.as_ref().map_or(0, |view| view.number);
    reports.iter().all(|report| {
        let remembered = state.remembered[report.node as usize];
        report.view <= remembered && remembered <= kept
    })
}

/// Masks lie within N; marks lie within held.
fn sound_masks(settings: &Settings, state: &State) -> bool {
    !settings.too_wide(state.held)
        && mask::within(state.fetched, state.held)
        && mask::within(state.prepared, state.held)
}

/// A kept view obeys rows 7 and 10 as in a report, its termination row 11;
/// while no view is kept, nothing is held and no termination kept.
fn sound_kept(settings: &Settings, state: &State) -> bool {
    let Some(view) = &state.kept else {
        return state.held == 0 && state.termination.is_none();
    };
    let bad_position = |p: &Position| message::bad_position(view.number, p.view, p.k);
    let bad_termination = state.termination.iter().flatten().any(bad_position);
    !message::row_7_view(Form::Report, view.number)
        && !settings.too_wide(view.members)
        && view.masks.len() == settings.shards as usize
        && !message::row_10(settings, view.members, &view.masks)
        && !bad_termination
}

/// The marks and the plan's presence are those of the phase.
fn sound_phase(state: &State) -> bool {
    let (held, fetched, prepared) = (state.held, state.fetched, state.prepared);
    let marks_ok = match state.phase {
        Phase::Gathering => fetched == 0 && prepared == 0,
        Phase::Ordered => fetched != held && prepared == 0,
        Phase::Preparing => fetched == held && prepared != held,
        Phase::Committed => fetched == held && prepared == held,
    };
    marks_ok && state.plan.is_some() == (state.phase != Phase::Gathering)
}

/// The held nodes' reports, if every held slot is sound.
fn held_reports(settings: &Settings, state: &State, desk: &[u32]) -> Option<Reports> {
    let nodes = mask::nodes(state.held).into_iter();
    nodes
        .map(|node| slot_report(settings, state, desk, node))
        .collect()
}

/// The report in a slot, if it is that node's valid report under rows 5 to 9, 16, 17 and 10 to 13
/// with no view above the kept one, and a termination in one of the kept view
/// is kept. The node need not be held.
pub fn slot_report(
    settings: &Settings,
    state: &State,
    desk: &[u32],
    node: u32,
) -> Option<Contents> {
    let report = desk::report(settings, desk, node)?;
    let kept = state.kept.as_ref()?;
    let lost_termination =
        report.view == kept.number && termination(&report).is_some() && state.termination.is_none();
    let bad = report.view > kept.number
        || row_12(settings, state, &report)
        || row_13(state, &report)
        || lost_termination;
    (!bad).then_some(report)
}

/// What decide and soundness look at.
pub fn gathered<'a>(
    settings: &'a Settings,
    state: &'a State,
    reports: &'a Reports,
) -> Gathered<'a> {
    Gathered {
        settings,
        kept: state.kept.as_ref(),
        termination: state.termination.as_ref(),
        held: state.held,
        reports,
    }
}

/// Outside gathering, no wait applies and the plan's number, members, holders,
/// targets, total and validity are right. Least moves, stays and order are not
/// checked. Wait 5 does not apply because the plan's own placement is valid.
fn sound_plan(settings: &Settings, state: &State, reports: &Reports) -> bool {
    let Some(plan) = &state.plan else {
        return true;
    };
    let gathered = gathered(settings, state, reports);
    let Ok((view, holdings)) = gathered.quorum() else {
        return false;
    };
    let mut total = 0;
    for number in 0..SUBGROUPS {
        let subgroup = gathered.subgroup(view, number);
        if !subgroup.valid(&plan.masks) {
            return false;
        }
        total += subgroup.moves(&plan.masks);
    }
    Some(plan.number) == view.number.checked_add(1)
        && plan.members == state.held
        && plan.total == total
        && same_holdings(plan, &holdings)
}

fn same_holdings(plan: &Plan, holdings: &[Holding]) -> bool {
    let holders: Vec<u32> = holdings.iter().map(|h| h.holder).collect();
    let targets: Vec<Position> = holdings.iter().map(|h| h.target).collect();
    plan.holders == holders && plan.targets == targets
}
