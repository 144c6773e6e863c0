//! Candidates, targets, holders and waits (restart-model(7), DECISION).

use crate::log::{Log, Position};
use crate::mask;
use crate::message::Contents;
use crate::order::Layout;
use crate::placement::Subgroup;
use crate::settings::Settings;
use crate::state::View;

/// The reports of the held nodes, ascending by node.
pub type Reports = Vec<Contents>;

/// Why decide waits.
#[derive(Clone, Copy, Debug, PartialEq, Eq)]
pub enum Wait {
    NoView,
    NoMajority,
    TooFew,
    /// The lowest shard without a holder.
    NoHolder(u32),
    /// The lowest subgroup without a valid placement.
    NoPlacement(u32),
}

impl Wait {
    /// The reason's number.
    pub fn reason(self) -> u32 {
        match self {
            Wait::NoView => 1,
            Wait::NoMajority => 2,
            Wait::TooFew => 3,
            Wait::NoHolder(_) => 4,
            Wait::NoPlacement(_) => 5,
        }
    }

    /// The reason's shard or subgroup.
    pub fn value(self) -> Option<u32> {
        match self {
            Wait::NoHolder(shard) => Some(shard),
            Wait::NoPlacement(subgroup) => Some(subgroup),
            _ => None,
        }
    }
}

/// All that a decision is made from.
pub struct Gathered<'a> {
    pub settings: &'a Settings,
    pub kept: Option<&'a View>,
    pub termination: Option<&'a Vec<Position>>,
    pub held: u32,
    pub reports: &'a Reports,
}

/// A shard's holder and target.
#[derive(Clone, Copy, Debug, PartialEq, Eq)]
pub struct Holding {
    pub holder: u32,
    pub target: Position,
}

impl Gathered<'_> {
    /// The candidates of a shard with their logs, ascending by node: held nodes
    /// that reported the kept view and are members of the shard in it.
    fn candidates(&self, view: &View, shard: u32) -> Vec<(u32, Log)> {
        let members = view.masks[shard as usize];
        let is_candidate =
            |report: &&Contents| report.view == view.number && mask::has(members, report.node);
        let candidates = self.reports.iter().filter(is_candidate);
        candidates
            .map(|report| (report.node, Log::of(report, shard)))
            .collect()
    }

    /// The target: the kept termination's position, or the greatest end among
    /// the candidates, of which there may be none.
    fn target(&self, shard: u32, candidates: &[(u32, Log)]) -> Option<Position> {
        match self.termination {
            Some(positions) => Some(positions[shard as usize]),
            None => candidates.iter().map(|(_, log)| log.end()).max(),
        }
    }

    /// The holder: of the candidates that have the target, the one with the
    /// greatest end, lowest node first.
    pub fn holding(&self, view: &View, shard: u32) -> Option<Holding> {
        let candidates = self.candidates(view, shard);
        let target = self.target(shard, &candidates)?;
        let able = candidates.iter().filter(|(_, log)| log.has(target));
        let mut best: Option<&(u32, Log)> = None;
        for candidate in able {
            if best.is_none_or(|(_, log)| log.end() < candidate.1.end()) {
                best = Some(candidate);
            }
        }
        best.map(|&(holder, _)| Holding { holder, target })
    }

    /// All subgroups to be placed.
    pub fn layout<'b>(&'b self, view: &'b View) -> Layout<'b> {
        Layout {
            settings: self.settings,
            held: self.held,
            old: &view.masks,
        }
    }

    /// The subgroup to be placed.
    pub fn subgroup<'b>(&'b self, view: &'b View, number: u32) -> Subgroup<'b> {
        self.layout(view).subgroup(number)
    }

    /// The first of waits 1 to 4 that applies; else the kept view and each
    /// shard's holder and target.
    pub fn quorum(&self) -> Result<(&View, Vec<Holding>), Wait> {
        let view = self.kept.ok_or(Wait::NoView)?;
        if 2 * mask::count(self.held & view.members) <= mask::count(view.members) {
            return Err(Wait::NoMajority);
        }
        if mask::count(self.held) < self.settings.least_group_size {
            return Err(Wait::TooFew);
        }
        let mut holdings = Vec::new();
        for shard in 0..self.settings.shards {
            let holding = self.holding(view, shard);
            holdings.push(holding.ok_or(Wait::NoHolder(shard))?);
        }
        Ok((view, holdings))
    }
}
