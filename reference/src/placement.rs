//! Placement of the held nodes in the shards of one subgroup (restart-model(7),
//! Placement and moves).

use crate::mask;
use crate::settings::{Settings, MOST_NODES};
use crate::weights::Weights;

/// One subgroup to be placed.
#[derive(Clone, Debug)]
pub struct Subgroup<'a> {
    pub settings: &'a Settings,
    pub number: u32,
    /// The held nodes.
    pub held: u32,
    /// For each shard its members in the kept view.
    pub old: &'a [u32],
}

/// For each shard of all subgroups a mask; 0 in the other subgroups' shards.
pub type Placement = Vec<u32>;

impl Subgroup<'_> {
    fn shards(&self) -> Vec<u32> {
        self.settings.shards_of(self.number)
    }

    /// Whether this subgroup's part of `masks` is a valid placement: each shard
    /// has at most cap held nodes from at least m sets, no node is in two shards.
    pub fn valid(&self, masks: &[u32]) -> bool {
        let shards = self.shards();
        let alone = |&shard: &u32| {
            let own = masks[shard as usize];
            mask::within(own, self.held) && self.good_members(shard, own)
        };
        let apart = |&shard: &u32| {
            shards
                .iter()
                .all(|&other| other == shard || masks[shard as usize] & masks[other as usize] == 0)
        };
        shards.iter().all(alone) && shards.iter().all(apart)
    }

    /// At most cap nodes from at least m sets.
    fn good_members(&self, shard: u32, nodes: u32) -> bool {
        mask::count(nodes) <= self.settings.cap(shard)
            && self.sets_of(nodes) >= self.settings.need(shard)
    }

    /// The number of different sets that nodes are from.
    fn sets_of(&self, nodes: u32) -> u32 {
        let all = self.settings.set_of.iter().zip(0..);
        let own = all.filter(|&(_, node)| mask::has(nodes, node));
        mask::count(own.fold(0, |sets, (&set, _)| sets | mask::only(set)))
    }

    /// The moves of this subgroup's part of `masks`: nodes in a shard of which
    /// they were no members in the kept view.
    pub fn moves(&self, masks: &[u32]) -> u32 {
        let of_shard = |shard: u32| mask::count(masks[shard as usize] & !self.old[shard as usize]);
        self.shards().into_iter().map(of_shard).sum()
    }

    /// How many old members stay: nodes in a shard of which they were members.
    pub fn stays(&self, masks: &[u32]) -> u32 {
        let of_shard = |shard: u32| mask::count(masks[shard as usize] & self.old[shard as usize]);
        self.shards().into_iter().map(of_shard).sum()
    }

    /// All valid placements. For small cases only.
    pub fn all(&self) -> Vec<Placement> {
        let mut found = Vec::new();
        let none = vec![0; self.settings.shards as usize];
        self.extend(&self.shards(), none, self.held, &mut found);
        found
    }

    /// Places the shards of `left` with the nodes of `free` in every way.
    fn extend(&self, left: &[u32], masks: Placement, free: u32, found: &mut Vec<Placement>) {
        let Some((&shard, others)) = left.split_first() else {
            found.push(masks);
            return;
        };
        for own in parts(free, self.settings.cap(shard)) {
            if self.good_members(shard, own) {
                let mut longer = masks.clone();
                longer[shard as usize] = own;
                self.extend(others, longer, free & !own, found);
            }
        }
    }

    /// The least moves of a valid placement, if there is one.
    pub fn least_moves(&self) -> Option<u32> {
        self.moves_weigh(1, 0).least()
    }

    /// Some valid placement of least moves, and of these of most stays.
    pub fn any_best(&self) -> Option<Placement> {
        self.moves_then_stays().any_least()
    }

    /// Of the placements of least moves, and of these of most stays, the first
    /// in the order, which `order::exhaustive` defines.
    pub fn first_best(&self) -> Option<Placement> {
        self.moves_then_stays().first_least()
    }

    /// The first valid placement in the order, whatever its moves.
    pub fn first(&self) -> Option<Placement> {
        self.first_within(u32::MAX)
    }

    /// The first valid placement of at most `most` moves in the order.
    pub fn first_within(&self, most: u32) -> Option<Placement> {
        self.moves_weigh(1, 0).first_within(most)
    }

    /// Weights by which fewer moves are less, and then more stays: a node placed
    /// nowhere weighs 1, which are at most 32 together, and one that stays
    /// nothing.
    fn moves_then_stays(&self) -> Weights {
        self.moves_weigh(2 * MOST_NODES, 1)
    }

    /// The subgroup's shards and held nodes, where a move weighs `weight`, a
    /// node placed nowhere `nowhere`, and one that stays nothing.
    fn moves_weigh(&self, weight: u32, nowhere: u32) -> Weights {
        let settings = self.settings;
        let (shards, nodes) = (settings.shards as usize, settings.nodes as usize);
        let mut weights = Weights {
            set_of: settings.set_of.iter().copied().map(Some).collect(),
            need_of: vec![0; shards],
            cap_of: vec![0; shards],
            pairs: vec![vec![None; nodes]; shards],
            nowhere,
        };
        for shard in self.shards() {
            let at = shard as usize;
            weights.need_of[at] = settings.need(shard);
            weights.cap_of[at] = settings.cap(shard);
            for node in mask::nodes(self.held) {
                let stays = mask::has(self.old[at], node);
                weights.pairs[at][node as usize] = Some(if stays { 0 } else { weight });
            }
        }
        weights
    }
}

/// All masks of up to `most` nodes within a mask.
fn parts(whole: u32, most: u32) -> Vec<u32> {
    let mut all = vec![0];
    for node in mask::nodes(whole) {
        let shorter = all.iter().filter(|&&part| mask::count(part) < most);
        let with: Vec<u32> = shorter.map(|part| part | mask::only(node)).collect();
        all.extend(with);
    }
    all
}

/// The placement sheet, by shard and failure set: 0 if a held old member of the
/// shard is in that set, 1 if only other held nodes are, 2 if none, and 2 from
/// S or F up.
pub fn sheet(settings: &Settings, held: u32, old: &[u32]) -> [[u32; 16]; 16] {
    let mut sheet = [[2; 16]; 16];
    for shard in 0..settings.shards as usize {
        for node in mask::nodes(held) {
            let cost = if mask::has(old[shard], node) { 0 } else { 1 };
            let entry = &mut sheet[shard][settings.set(node) as usize];
            *entry = cost.min(*entry);
        }
    }
    sheet
}

#[cfg(test)]
mod tests;
