//! The readiness sheet (restart-model(7), Readiness): what decide would say with
//! each set of nodes held.

use crate::events::{self, open, Decision, Opened};
use crate::mask;
use crate::number::{self, refuse_if, Number};
use crate::roles::Role;
use crate::settings::Settings;
use crate::soundness::slot_report;
use crate::state::{self, Phase, State};

/// Sheet and game are for at most so many nodes.
pub const MOST_NODES: u32 = 10;
/// A plan, and waits 2 to 5.
pub const COUNTS: usize = 5;

/// Settings and desk in which every node may be held.
pub struct Ready {
    /// N.
    pub nodes: u32,
    settings: Vec<u32>,
    /// The state, with each node remembered at its report's view.
    state: State,
    desk: Vec<u32>,
}

/// Rows 1 to 4, then 22 where there are more nodes or `fits` does not hold, then
/// 23.
pub fn ready(
    role: Role,
    settings: &[u32],
    state: &[u32],
    desk: &[u32],
    fits: impl Fn(&Settings) -> bool,
) -> Result<Ready, Number> {
    let opened = open(role.may_plan(), settings, state, desk)?;
    refuse_if(opened.state.phase != Phase::Gathering, number::PHASE)?;
    let nodes = opened.settings.nodes;
    let too_large = nodes > MOST_NODES || !fits(&opened.settings);
    refuse_if(too_large, number::TOO_LARGE)?;
    let views = reported_views(&opened, desk).ok_or(number::NOT_READY)?;
    let mut remembered = state::fresh().remembered;
    remembered[..views.len()].copy_from_slice(&views);
    Ok(Ready {
        nodes,
        settings: settings.to_vec(),
        state: State {
            remembered,
            ..opened.state
        },
        desk: desk.to_vec(),
    })
}

/// The view that each node's slot reports. There are none if no view is kept or
/// some slot would not be sound if its node were held.
fn reported_views(opened: &Opened, desk: &[u32]) -> Option<Vec<u32>> {
    let Opened {
        settings, state, ..
    } = opened;
    state.kept.as_ref()?;
    (0..settings.nodes)
        .map(|node| slot_report(settings, state, desk, node).map(|report| report.view))
        .collect()
}

impl Ready {
    /// What decide would say with these nodes held in place of the state's.
    pub fn decide(&self, held: u32) -> Decision {
        let state = state::encode(&State {
            held,
            ..self.state.clone()
        });
        let decided = events::decide(Role::Planner, &self.settings, &state, &self.desk);
        decided.expect("a sound state while gathering").0
    }

    /// All sets of nodes, ascending.
    pub fn masks(&self) -> impl Iterator<Item = u32> {
        0..=mask::below(self.nodes)
    }
}

/// A line of the sheet.
#[derive(Clone, Copy, Debug, PartialEq, Eq)]
pub struct Line {
    /// The held nodes.
    pub mask: u32,
    /// 0 for a plan, else the wait's number.
    pub number: u32,
}

/// The sheet: a line for every set of held nodes, in ascending mask order.
#[derive(Clone, Debug, PartialEq, Eq)]
pub struct Sheet {
    pub lines: Vec<Line>,
}

impl Sheet {
    /// How many lines have this number.
    fn count(&self, number: u32) -> u32 {
        let with = |line: &&Line| line.number == number;
        self.lines.iter().filter(with).count() as u32
    }

    /// How many gave a plan and each of waits 2 to 5.
    pub fn counts(&self) -> [u32; COUNTS] {
        [0, 2, 3, 4, 5].map(|number| self.count(number))
    }
}

/// The number of a decision in the sheet.
pub fn number_of(decision: Decision) -> u32 {
    match decision {
        Decision::Plan => 0,
        Decision::Wait(wait) => wait.reason(),
    }
}

/// The sheet of settings, state and desk.
pub fn sheet(role: Role, settings: &[u32], state: &[u32], desk: &[u32]) -> Result<Sheet, Number> {
    let ready = ready(role, settings, state, desk, |_| true)?;
    let line = |mask| Line {
        mask,
        number: number_of(ready.decide(mask)),
    };
    Ok(Sheet {
        lines: ready.masks().map(line).collect(),
    })
}

#[cfg(test)]
mod tests;
