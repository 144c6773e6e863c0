//! Outage against crew (restart-model(7)).
//!
//! A round is a turn of the outage, which takes a held node down, and then a turn
//! of the crew, which brings back an absent node other than that one. A side that
//! can move must; one that cannot passes. The crew wins if decide would give a
//! plan after each of its turns.

use crate::events::Decision;
use crate::mask;
use crate::number::Number;
use crate::roles::Role;
use crate::sheet::{ready, Ready};

/// A game has at most so many rounds.
pub const MOST_ROUNDS: u32 = 3;

/// Who can force the win.
#[derive(Clone, Copy, Debug, PartialEq, Eq)]
pub enum Winner {
    Crew,
    /// The outage, with the lowest first node that does it, or none where it
    /// wins by passing.
    Outage(Option<u32>),
}

/// What the game is played on.
#[derive(Clone, Debug, PartialEq, Eq)]
pub struct Board {
    /// N.
    pub nodes: u32,
    /// For each mask of held nodes, whether decide would give a plan.
    pub plans: Vec<bool>,
}

/// The game's answer, with these nodes held in place of the state's.
pub fn game(
    role: Role,
    settings: &[u32],
    state: &[u32],
    desk: &[u32],
    held: u32,
    rounds: u32,
) -> Result<Winner, Number> {
    let ready = ready(role, settings, state, desk, |settings| {
        rounds <= MOST_ROUNDS && !settings.too_wide(held)
    })?;
    Ok(Board::of(&ready).winner(held, rounds))
}

impl Board {
    pub fn of(ready: &Ready) -> Board {
        let plan = |held| ready.decide(held) == Decision::Plan;
        Board {
            nodes: ready.nodes,
            plans: ready.masks().map(plan).collect(),
        }
    }

    /// Whether decide would give a plan with these nodes held.
    pub fn plan(&self, held: u32) -> bool {
        self.plans[held as usize]
    }

    /// The nodes that the outage can take down; if there is none, it passes.
    pub fn outage_turns(&self, held: u32) -> Vec<Option<u32>> {
        or_pass(mask::nodes(held))
    }

    /// The nodes that the crew can bring back, after the outage took `taken`
    /// down and left these held; if there is none, it passes.
    pub fn crew_turns(&self, held: u32, taken: Option<u32>) -> Vec<Option<u32>> {
        let absent = mask::nodes(mask::below(self.nodes) & !held);
        let may_return = |node: &u32| Some(*node) != taken;
        or_pass(absent.into_iter().filter(may_return).collect())
    }

    /// Who can force the win in so many rounds.
    pub fn winner(&self, held: u32, rounds: u32) -> Winner {
        if rounds == 0 {
            return Winner::Crew;
        }
        let turns = self.outage_turns(held).into_iter();
        let mut wins = turns.filter(|&taken| self.outage_wins_after(held, taken, rounds));
        wins.next().map_or(Winner::Crew, Winner::Outage)
    }

    /// Whether the outage can force the win from its turn.
    fn outage_wins(&self, held: u32, rounds: u32) -> bool {
        let turns = self.outage_turns(held);
        rounds > 0
            && turns
                .iter()
                .any(|&taken| self.outage_wins_after(held, taken, rounds))
    }

    /// The same once it took `taken` down: whatever the crew does, there is no
    /// plan after it, or the outage wins in the rounds that remain.
    fn outage_wins_after(&self, held: u32, taken: Option<u32>, rounds: u32) -> bool {
        let held = without(held, taken);
        let crew = self.crew_turns(held, taken);
        crew.into_iter()
            .map(|back| with(held, back))
            .all(|held| !self.plan(held) || self.outage_wins(held, rounds - 1))
    }
}

/// Each of these nodes, or a pass if there is none.
fn or_pass(nodes: Vec<u32>) -> Vec<Option<u32>> {
    if nodes.is_empty() {
        return vec![None];
    }
    nodes.into_iter().map(Some).collect()
}

/// The mask without the node taken down; a pass leaves it.
pub fn without(held: u32, taken: Option<u32>) -> u32 {
    taken.map_or(held, |node| held & !mask::only(node))
}

/// The mask with the node brought back; a pass leaves it.
pub fn with(held: u32, back: Option<u32>) -> u32 {
    back.map_or(held, |node| held | mask::only(node))
}

#[cfg(test)]
mod tests;
