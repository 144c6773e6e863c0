//! A plan now, a better one later (restart-model(7)): improving
//! rounds, and how far from the least moves they may have ended.

use crate::events::{self, Decision};
use crate::mask;
use crate::number::Number;
use crate::order::{self, Choice, Layout};
use crate::placement::{Placement, Subgroup};
use crate::roles::Role;
use crate::settings::{self, Settings};
use crate::state;

/// More rounds count as this many.
pub const MOST_ROUNDS: u32 = 128;

/// What is left after so many rounds.
#[derive(Clone, Debug, PartialEq, Eq)]
pub struct Improved {
    pub state: Vec<u32>,
    pub decision: Decision,
    /// 0 beside a wait.
    pub gap: u32,
}

/// A way to find a subgroup's placements.
#[derive(Clone, Copy)]
pub struct Way {
    /// The valid placement that the order puts first, whatever its
    /// moves.
    pub first: Choice,
    /// The first of those with fewer moves than this.
    pub fewer: fn(&Subgroup, u32) -> Option<Placement>,
}

/// The definition: of all valid placements. For small cases only.
pub const EXHAUSTIVE: Way = Way {
    first: |subgroup| order::first_of(subgroup.all()),
    fewer: |subgroup, moves| {
        let mut all = subgroup.all();
        all.retain(|masks| subgroup.moves(masks) < moves);
        order::first_of(all)
    },
};

/// The same by the greedy method over the flow of least cost.
pub const GREEDY: Way = Way {
    first: |subgroup| subgroup.first(),
    fewer: |subgroup, moves| subgroup.first_within(moves.checked_sub(1)?),
};

/// Decides by so many improving rounds.
pub fn rounds(
    role: Role,
    settings: &[u32],
    state: &[u32],
    desk: &[u32],
    count: u32,
) -> Result<Improved, Number> {
    rounds_by(GREEDY, role, settings, state, desk, count)
}

/// The same, where `way` finds the placements.
pub fn rounds_by(
    way: Way,
    role: Role,
    settings: &[u32],
    state: &[u32],
    desk: &[u32],
    count: u32,
) -> Result<Improved, Number> {
    let place = |layout: &Layout| reached(layout, way, count);
    let (decision, state) = events::decide_with(place, role, settings, state, desk)?;
    let settings = settings::parse(settings)?;
    Ok(Improved {
        gap: gap_of(&settings, &state),
        state,
        decision,
    })
}

/// The placement that so many rounds reach, or the lowest subgroup that has
/// none.
pub fn reached(layout: &Layout, way: Way, count: u32) -> Result<Placement, u32> {
    let mut masks = layout.each(way.first)?;
    for _ in 0..count.min(MOST_ROUNDS) {
        match round(layout, way, &masks) {
            Some(better) => masks = better,
            None => break,
        }
    }
    Ok(masks)
}

/// A round: in the lowest subgroup that has a valid placement of fewer moves
/// than the one reached there, the first such replaces it. Nothing if no
/// subgroup has one.
pub fn round(layout: &Layout, way: Way, masks: &[u32]) -> Option<Placement> {
    layout.subgroups().find_map(|subgroup| {
        let better = (way.fewer)(&subgroup, subgroup.moves(masks))?;
        let mut masks = masks.to_vec();
        for shard in layout.settings.shards_of(subgroup.number) {
            masks[shard as usize] = better[shard as usize];
        }
        Some(masks)
    })
}

/// The moves that no placement can be without: over the shards, m minus the
/// lesser of m and the number of sets among the shard's held old members.
pub fn floor(layout: &Layout) -> u32 {
    let of_shard = |shard: u32| {
        let need = layout.settings.need(shard);
        let staying = layout.held & layout.old[shard as usize];
        need - need.min(sets_among(layout.settings, staying))
    };
    (0..layout.settings.shards).map(of_shard).sum()
}

/// The number of different sets that nodes are from.
fn sets_among(settings: &Settings, nodes: u32) -> u32 {
    let has_one = |&set: &u32| {
        let nodes = mask::nodes(nodes);
        nodes.iter().any(|&node| settings.set(node) == set)
    };
    (0..settings.sets).filter(has_one).count() as u32
}

/// How many moves above the floor a valid placement is. It is never below.
pub fn gap(layout: &Layout, masks: &[u32]) -> u32 {
    layout.moves(masks) - floor(layout)
}

/// The gap of a state's plan; 0 if it has none.
fn gap_of(settings: &Settings, state: &[u32]) -> u32 {
    let state = state::decode(settings, state);
    let parts = state
        .as_ref()
        .and_then(|s| s.kept.as_ref().zip(s.plan.as_ref()));
    parts.map_or(0, |(kept, plan)| {
        let layout = Layout {
            settings,
            held: plan.members,
            old: &kept.masks,
        };
        gap(&layout, &plan.masks)
    })
}

#[cfg(test)]
mod tests;
