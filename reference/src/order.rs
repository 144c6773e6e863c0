//! The order of placements (restart-model(7), Placement and moves), and the
//! placement that it puts first of those of least moves, then most stays.
//!
//! This is the definition: it goes through all placements, asks no flow, and
//! does not rest on the order in which placements are found. It is for small
//! cases; `greedy` is for the large ones.

use crate::mask;
use crate::placement::{Placement, Subgroup};
use crate::settings::{Settings, SUBGROUPS};
use std::cmp::Ordering;

/// Which of two placements comes first: shards ascending, each shard's nodes
/// listed ascending, the smaller list in dictionary order wins at the first
/// shard that differs. A list is smaller than one that goes on after it.
pub fn compare(one: &[u32], other: &[u32]) -> Ordering {
    let mut shards = one.iter().zip(other);
    match shards.find(|(one, other)| one != other) {
        Some((&one, &other)) => mask::nodes(one).cmp(&mask::nodes(other)),
        None => Ordering::Equal,
    }
}

/// The first of some placements.
pub fn first_of(placements: Vec<Placement>) -> Option<Placement> {
    let placements = placements.into_iter();
    placements.min_by(|one, other| compare(one, other))
}

/// A subgroup's valid placements of least moves, and of these those in which
/// most old members stay, all of them.
pub fn all_best(subgroup: &Subgroup) -> Vec<Placement> {
    let moves = |masks: &Placement| subgroup.moves(masks);
    most(least(subgroup.all(), moves), |masks| subgroup.stays(masks))
}

/// The first of these, of all that there are.
pub fn exhaustive(subgroup: &Subgroup) -> Option<Placement> {
    first_of(all_best(subgroup))
}

/// The same by the greedy method over the flow of least cost.
pub fn greedy(subgroup: &Subgroup) -> Option<Placement> {
    subgroup.first_best()
}

/// Those with the least moves.
fn least(mut all: Vec<Placement>, moves: impl Fn(&Placement) -> u32) -> Vec<Placement> {
    let least = all.iter().map(&moves).min();
    all.retain(|masks| Some(moves(masks)) == least);
    all
}

/// Those with the most stays.
fn most(mut all: Vec<Placement>, stays: impl Fn(&Placement) -> u32) -> Vec<Placement> {
    let most = all.iter().map(&stays).max();
    all.retain(|masks| Some(stays(masks)) == most);
    all
}

/// All subgroups to be placed: what a plan places.
#[derive(Clone, Debug)]
pub struct Layout<'a> {
    pub settings: &'a Settings,
    /// The held nodes.
    pub held: u32,
    /// For each shard its members in the kept view.
    pub old: &'a [u32],
}

impl<'a> Layout<'a> {
    pub fn subgroup(&self, number: u32) -> Subgroup<'a> {
        Subgroup {
            settings: self.settings,
            number,
            held: self.held,
            old: self.old,
        }
    }

    pub fn subgroups(&self) -> impl Iterator<Item = Subgroup<'a>> + '_ {
        (0..SUBGROUPS).map(|number| self.subgroup(number))
    }

    /// Whether `masks` are a valid placement of every subgroup.
    pub fn valid(&self, masks: &[u32]) -> bool {
        self.subgroups().all(|subgroup| subgroup.valid(masks))
    }

    /// The moves in all subgroups.
    pub fn moves(&self, masks: &[u32]) -> u32 {
        self.subgroups().map(|subgroup| subgroup.moves(masks)).sum()
    }

    /// The old members that stay in all subgroups.
    pub fn stays(&self, masks: &[u32]) -> u32 {
        self.subgroups().map(|subgroup| subgroup.stays(masks)).sum()
    }

    /// All placements that are valid in every subgroup.
    pub fn all(&self) -> Vec<Placement> {
        let mut all = vec![vec![0; self.settings.shards as usize]];
        for subgroup in self.subgroups() {
            let mut longer = Vec::new();
            for own in subgroup.all() {
                longer.extend(all.iter().map(|masks| joined(masks, &own)));
            }
            all = longer;
        }
        all
    }

    /// The first placement of least moves, then most stays, over all shards at
    /// once.
    pub fn first_best(&self) -> Option<Placement> {
        let least = least(self.all(), |masks| self.moves(masks));
        first_of(most(least, |masks| self.stays(masks)))
    }

    /// The placement that has in every subgroup the one that is chosen there,
    /// or the lowest subgroup in which there is none.
    pub fn each(&self, choice: Choice) -> Result<Placement, u32> {
        let mut masks = vec![0; self.settings.shards as usize];
        for subgroup in self.subgroups() {
            let own = choice(&subgroup).ok_or(subgroup.number)?;
            masks = joined(&masks, &own);
        }
        Ok(masks)
    }
}

/// A way to find a subgroup's placement, if there is one.
pub type Choice = fn(&Subgroup) -> Option<Placement>;

/// Two placements of different subgroups as one.
fn joined(one: &[u32], other: &[u32]) -> Placement {
    let both = one.iter().zip(other);
    both.map(|(one, other)| one | other).collect()
}

#[cfg(test)]
mod tests;
