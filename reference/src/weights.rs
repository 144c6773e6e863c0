//! Placements by weight, where there are too many to go through: the least
//! weight, and the first placement in the order of those up to some
//! weight, by a flow of least cost.

use crate::flow::Network;
use crate::mask;
use crate::placement::Placement;

/// Shards to be given nodes, and what that weighs. A placement is valid if each
/// shard has at most its cap of nodes, from at least as many different sets as
/// it needs, and no node is in two shards. It weighs what its nodes weigh.
#[derive(Clone, Debug)]
pub struct Weights {
    /// For each node its failure set. A node without one counts for none.
    pub set_of: Vec<Option<u32>>,
    /// For each shard the number of different sets that it needs.
    pub need_of: Vec<u32>,
    /// For each shard the most nodes that it has.
    pub cap_of: Vec<u32>,
    /// For each shard and node what the node weighs there, if it may be there.
    pub pairs: Vec<Vec<Option<u32>>>,
    /// What a node weighs that is placed nowhere.
    pub nowhere: u32,
}

/// What it costs to leave a need unmet. All nodes together weigh less.
const UNMET: i64 = 1 << 20;

/// A flow of least cost: a valid placement of least weight, if there is one.
///
/// From the source goes one to each node; from a node one to nowhere, or one to
/// a shard, there either to the need for the node's set or to the room beside
/// the needs; from a shard's need for a set one to its needs; from its needs to
/// the sink as many as it needs; from its room to the sink as many as the cap
/// leaves.
struct Filled {
    network: Network,
    /// The weight, and what unmet needs cost in addition.
    weight: i64,
    /// For each node the arc to nowhere.
    nowhere: Vec<usize>,
    /// For each shard and node the arcs that place the node there.
    pairs: Vec<Vec<Vec<usize>>>,
}

impl Weights {
    /// The least weight of a valid placement, if there is one.
    pub fn least(&self) -> Option<u32> {
        self.filled().map(|filled| filled.weight as u32)
    }

    /// Some valid placement of least weight.
    pub fn any_least(&self) -> Option<Placement> {
        self.filled().map(|filled| filled.masks())
    }

    /// The first valid placement of least weight.
    pub fn first_least(&self) -> Option<Placement> {
        self.first_within(self.least()?)
    }

    /// The first valid placement that weighs at most `most`. Shard by shard, the
    /// list ends as soon as it can, which is asked when it has got longer; else
    /// the lowest node that can be next is next. Something can be if with it a
    /// placement remains that weighs at most `most`.
    pub fn first_within(&self, most: u32) -> Option<Placement> {
        let most = i64::from(most).min(UNMET - 1);
        let mut filled = self.filled().filter(|filled| filled.weight <= most)?;
        let mut masks = vec![0; self.need_of.len()];
        let mut placed = 0;
        for (shard, list) in masks.iter_mut().enumerate() {
            let mut longer = true;
            for node in 0..self.set_of.len() {
                if longer && filled.close(&filled.from(shard, node), most) {
                    break;
                }
                let only = mask::only(node as u32);
                longer = placed & only == 0 && filled.close(&filled.elsewhere(shard, node), most);
                if longer {
                    *list |= only;
                    placed |= only;
                } else {
                    filled.close(&filled.pairs[shard][node].clone(), most);
                }
            }
        }
        Some(masks)
    }

    /// A flow of least cost, if it meets all needs.
    fn filled(&self) -> Option<Filled> {
        let (nodes, shards) = (self.set_of.len(), self.need_of.len());
        let sets = self.set_of.iter().flatten().max().map_or(0, |&set| set + 1) as usize;
        let (source, sink, nowhere) = (0, 1, 2);
        let node_place = |node: usize| 3 + node;
        let needs_place = |shard: usize| 3 + nodes + shard;
        let room_place = |shard: usize| 3 + nodes + shards + shard;
        let set_place =
            |shard: usize, set: u32| 3 + nodes + 2 * shards + shard * sets + set as usize;
        let mut network = Network::new(set_place(shards, 0));

        for node in 0..nodes {
            network.add(source, node_place(node), 1, 0);
        }
        network.add(nowhere, sink, nodes as u32, 0);
        let nowhere: Vec<usize> = (0..nodes)
            .map(|node| network.add(node_place(node), nowhere, 1, self.nowhere.into()))
            .collect();
        let mut wanted = 0;
        let mut pairs = Vec::new();
        for shard in 0..shards {
            let need = self.need_of[shard];
            let room = self.cap_of[shard].checked_sub(need)?;
            wanted += i64::from(need);
            network.add(needs_place(shard), sink, need, -UNMET);
            network.add(room_place(shard), sink, room, 0);
            for set in 0..sets as u32 {
                network.add(set_place(shard, set), needs_place(shard), 1, 0);
            }
            let mut own = Vec::new();
            for (node, &weight) in self.pairs[shard].iter().enumerate() {
                let set = self.set_of[node].map(|set| set_place(shard, set));
                let places = set.into_iter().chain([room_place(shard)]);
                own.push(match weight {
                    None => Vec::new(),
                    Some(weight) => places
                        .map(|place| network.add(node_place(node), place, 1, weight.into()))
                        .collect(),
                });
            }
            pairs.push(own);
        }
        let flow = network.fill(source, sink);
        let weight = flow.cost + wanted * UNMET;
        (weight < UNMET).then_some(Filled {
            network,
            weight,
            nowhere,
            pairs,
        })
    }
}

impl Filled {
    /// Takes arcs out, if a placement remains that weighs at most `most`. Says
    /// whether one does.
    fn close(&mut self, arcs: &[usize], most: i64) -> bool {
        let used = |arc: &usize| self.network.through(*arc) > 0;
        let (used, unused): (Vec<usize>, Vec<usize>) = arcs.iter().copied().partition(used);
        let mark = self.network.mark();
        let mut weight = self.weight;
        for arc in unused.into_iter().chain(used) {
            weight += self.network.close(arc).unwrap_or(UNMET);
            if weight > most {
                self.network.go_back(mark);
                return false;
            }
        }
        self.weight = weight;
        true
    }

    /// The arcs that place a node from `first` up in the shard.
    fn from(&self, shard: usize, first: usize) -> Vec<usize> {
        self.pairs[shard][first..].concat()
    }

    /// The arcs of a node but for those that place it in the shard.
    fn elsewhere(&self, shard: usize, node: usize) -> Vec<usize> {
        let mut arcs = vec![self.nowhere[node]];
        for (other, own) in self.pairs.iter().enumerate() {
            if other != shard {
                arcs.extend(&own[node]);
            }
        }
        arcs
    }

    fn masks(&self) -> Placement {
        let in_shard = |own: &Vec<Vec<usize>>| {
            let placed = |&node: &usize| own[node].iter().any(|&a| self.network.through(a) > 0);
            let nodes = (0..own.len()).filter(placed);
            nodes.map(|node| mask::only(node as u32)).sum()
        };
        self.pairs.iter().map(in_shard).collect()
    }
}

#[cfg(test)]
mod tests;
