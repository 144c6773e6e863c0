//! A placement to be found, and what it must be.

use reference::mask;
use reference::order;
use reference::placement::Placement;
use reference::weights::Weights;
use std::cmp::Ordering;

pub const NODES: usize = 32;
pub const SHARDS: usize = 16;
/// Nodes of a set from here up count for no set.
pub const SETS: u8 = 16;
/// What a pair costs that is not allowed.
pub const CLOSED: u8 = 255;
/// The owner of a node that is placed nowhere.
pub const NOWHERE: u8 = 16;
/// The answer where no placement is valid, or none weighs so little.
pub const NONE: u32 = 10_000;
/// The answer where a length is wrong.
pub const WRONG_LENGTH: u32 = 10_001;

/// What is lent to the library.
#[derive(Clone, Debug)]
pub struct Task {
    /// The failure set of each node.
    pub sets: [u8; NODES],
    /// For each shard from how many different sets its nodes are, at least.
    pub needs: [u8; SHARDS],
    /// For each shard how many nodes it has, at most.
    pub caps: [u8; SHARDS],
    /// What it costs to place a node: at shard * 32 + node.
    pub costs: [u8; SHARDS * NODES],
    /// What a node costs that is placed nowhere.
    pub idle: u8,
    /// The greatest weight asked for; none asks for the least.
    pub limit: Option<u32>,
}

/// The weight and each node's owner.
pub type Answer = (u32, [u8; NODES]);

pub const NO_PLACEMENT: Answer = (NONE, [NOWHERE; NODES]);

impl Task {
    fn cost(&self, shard: usize, node: usize) -> Option<u32> {
        let cost = self.costs[shard * NODES + node];
        (cost != CLOSED).then_some(cost.into())
    }

    /// How many ways there are to place every node somewhere or nowhere.
    pub fn ways(&self) -> u64 {
        let open = |node| (0..SHARDS).filter(move |&shard| self.cost(shard, node).is_some());
        (0..NODES).fold(1, |ways, node| {
            (1 + open(node).count() as u64).saturating_mul(ways)
        })
    }

    /// At most cap nodes from at least need sets in each shard.
    fn valid(&self, masks: &[u32]) -> bool {
        (0..SHARDS).all(|shard| {
            let nodes = mask::nodes(masks[shard]).into_iter();
            let sets = nodes.map(|node| self.sets[node as usize]);
            let different = sets
                .filter(|&set| set < SETS)
                .fold(0, |all, set| all | mask::only(set.into()));
            mask::count(masks[shard]) <= self.caps[shard].into()
                && mask::count(different) >= self.needs[shard].into()
        })
    }

    /// What must be answered, from all placements there are. For few ways only.
    pub fn by_search(&self) -> Answer {
        let mut best = None;
        self.search(0, &mut [0; SHARDS], 0, &mut best);
        best.map_or(NO_PLACEMENT, |(weight, masks)| (weight, owners(&masks)))
    }

    /// Places the nodes from `node` up in every way.
    fn search(
        &self,
        node: usize,
        masks: &mut [u32; SHARDS],
        weight: u32,
        best: &mut Option<(u32, [u32; SHARDS])>,
    ) {
        if node == NODES {
            let better = match best {
                None => self.limit.is_none_or(|limit| weight <= limit),
                Some(best) => self.compare((weight, masks), (best.0, &best.1)) == Ordering::Less,
            };
            if better && self.valid(masks) {
                *best = Some((weight, *masks));
            }
            return;
        }
        for shard in 0..SHARDS {
            if let Some(cost) = self.cost(shard, node) {
                masks[shard] |= mask::only(node as u32);
                self.search(node + 1, masks, weight + cost, best);
                masks[shard] &= !mask::only(node as u32);
            }
        }
        self.search(node + 1, masks, weight + u32::from(self.idle), best);
    }

    /// Which of two placements is wanted. Where there is a limit, one that
    /// weighs more than it is not.
    fn compare(&self, one: (u32, &[u32; SHARDS]), other: (u32, &[u32; SHARDS])) -> Ordering {
        let first = || order::compare(one.1, other.1);
        match self.limit {
            None => one.0.cmp(&other.0).then_with(first),
            Some(limit) if one.0 > limit => Ordering::Greater,
            Some(_) => first(),
        }
    }

    /// What must be answered, by the reference's flow.
    pub fn by_flow(&self) -> Answer {
        let weights = Weights {
            set_of: self
                .sets
                .iter()
                .map(|&set| (set < SETS).then_some(set.into()))
                .collect(),
            need_of: self.needs.iter().map(|&need| need.into()).collect(),
            cap_of: self.caps.iter().map(|&cap| cap.into()).collect(),
            pairs: (0..SHARDS)
                .map(|shard| (0..NODES).map(|node| self.cost(shard, node)).collect())
                .collect(),
            nowhere: self.idle.into(),
        };
        let first = match self.limit {
            None => weights.first_least(),
            Some(limit) => weights.first_within(limit),
        };
        first.map_or(NO_PLACEMENT, |masks| (self.weight(&masks), owners(&masks)))
    }

    fn weight(&self, masks: &Placement) -> u32 {
        let of_node = |node: usize| {
            let has = |&shard: &usize| mask::has(masks[shard], node as u32);
            let owner = (0..SHARDS).find(has);
            owner.and_then(|shard| self.cost(shard, node))
        };
        (0..NODES)
            .map(|node| of_node(node).unwrap_or(self.idle.into()))
            .sum()
    }
}

fn owners(masks: &[u32]) -> [u8; NODES] {
    let mut owners = [NOWHERE; NODES];
    for (shard, &own) in masks.iter().enumerate() {
        for node in mask::nodes(own) {
            owners[node as usize] = shard as u8;
        }
    }
    owners
}
