//! Flow of least cost through a network, by shortest augmenting paths.

use std::collections::VecDeque;

/// An arc or its way back. Arc i's way back is arc i ^ 1.
struct Arc {
    from: usize,
    to: usize,
    cost: i64,
}

/// A network with numbered places, and what flows through it.
pub struct Network {
    arcs: Vec<Arc>,
    /// For each arc how much more can flow through it.
    room: Vec<u32>,
    /// For each place the arcs that leave it.
    leaving: Vec<Vec<usize>>,
}

/// What flows, and its cost.
#[derive(Clone, Copy, Debug, PartialEq, Eq)]
pub struct Flow {
    pub amount: u32,
    pub cost: i64,
}

/// What flows in a network and can flow in addition, to go back to.
pub struct Mark(Vec<u32>);

impl Network {
    pub fn new(places: usize) -> Network {
        Network {
            arcs: Vec::new(),
            room: Vec::new(),
            leaving: vec![Vec::new(); places],
        }
    }

    /// Adds an arc and gives its number.
    pub fn add(&mut self, from: usize, to: usize, capacity: u32, cost: i64) -> usize {
        let number = self.arcs.len();
        self.arcs.push(Arc { from, to, cost });
        self.arcs.push(Arc {
            from: to,
            to: from,
            cost: -cost,
        });
        self.room.extend([capacity, 0]);
        self.leaving[from].push(number);
        self.leaving[to].push(number + 1);
        number
    }

    /// What flows through an arc: the room of its way back.
    pub fn through(&self, arc: usize) -> u32 {
        self.room[arc ^ 1]
    }

    /// Sends as much as can flow, at the least cost of that amount.
    pub fn fill(&mut self, source: usize, sink: usize) -> Flow {
        let mut flow = Flow { amount: 0, cost: 0 };
        while let Some(cost) = self.send(source, sink) {
            flow.amount += 1;
            flow.cost += cost;
        }
        flow
    }

    /// Takes an arc out of a flow of least cost. What flowed through it goes
    /// other ways, so that the flow is again of least cost. Gives the cost that
    /// this adds, or nothing if there is no other way.
    pub fn close(&mut self, arc: usize) -> Option<i64> {
        let Arc { from, to, cost } = self.arcs[arc];
        let flowed = self.through(arc);
        (self.room[arc], self.room[arc ^ 1]) = (0, 0);
        let mut added = 0;
        for _ in 0..flowed {
            added += self.send(from, to)? - cost;
        }
        Some(added)
    }

    pub fn mark(&self) -> Mark {
        Mark(self.room.clone())
    }

    pub fn go_back(&mut self, mark: Mark) {
        self.room = mark.0;
    }

    /// Sends one unit by a cheapest path with room, if there is one, and gives
    /// its cost.
    fn send(&mut self, from: usize, to: usize) -> Option<i64> {
        let path = self.cheapest_path(from, to)?;
        for &arc in &path {
            self.room[arc] -= 1;
            self.room[arc ^ 1] += 1;
        }
        Some(path.iter().map(|&arc| self.arcs[arc].cost).sum())
    }

    /// The arcs of a cheapest path with room, from its end backwards, found by
    /// relaxing arcs until nothing gets cheaper.
    fn cheapest_path(&self, from: usize, to: usize) -> Option<Vec<usize>> {
        let mut cost: Vec<Option<i64>> = vec![None; self.leaving.len()];
        let mut reached_by: Vec<Option<usize>> = vec![None; self.leaving.len()];
        let mut waits = vec![false; self.leaving.len()];
        let mut waiting = VecDeque::from([from]);
        cost[from] = Some(0);
        while let Some(place) = waiting.pop_front() {
            waits[place] = false;
            let so_far = cost[place]?;
            for &number in &self.leaving[place] {
                let arc = &self.arcs[number];
                let reached = so_far + arc.cost;
                if self.room[number] > 0 && cost[arc.to].is_none_or(|known| reached < known) {
                    cost[arc.to] = Some(reached);
                    reached_by[arc.to] = Some(number);
                    if !waits[arc.to] {
                        waits[arc.to] = true;
                        waiting.push_back(arc.to);
                    }
                }
            }
        }
        cost[to]?;
        let mut path = Vec::new();
        let mut place = to;
        while place != from {
            let number = reached_by[place]?;
            path.push(number);
            place = self.arcs[number].from;
        }
        Some(path)
    }
}

#[cfg(test)]
mod tests {
    use super::*;

    /// Two ways of different cost; the second unit has to undo a choice.
    #[test]
    fn a_small_network() {
        let mut network = Network::new(4);
        network.add(0, 1, 1, 0);
        network.add(0, 2, 1, 2);
        network.add(1, 2, 1, 0);
        network.add(1, 3, 1, 3);
        let last = network.add(2, 3, 1, 0);
        let flow = network.fill(0, 3);
        assert_eq!(flow, Flow { amount: 2, cost: 5 });
        assert_eq!(network.through(last), 1);
    }

    /// What flowed through a closed arc goes another way, which moves what was
    /// there; where there is none, going back undoes all.
    #[test]
    fn closed_arcs() {
        let mut network = Network::new(6);
        for node in [1, 2] {
            network.add(0, node, 1, 0);
        }
        let first = network.add(1, 3, 1, 1);
        let second = network.add(1, 4, 1, 3);
        network.add(2, 4, 1, 1);
        let last = network.add(2, 3, 1, 4);
        for place in [3, 4] {
            network.add(place, 5, 1, 0);
        }
        let flow = network.fill(0, 5);
        assert_eq!(flow, Flow { amount: 2, cost: 2 });
        let mark = network.mark();
        assert_eq!(network.close(first), Some(5));
        assert_eq!((network.through(first), network.through(second)), (0, 1));
        assert_eq!(network.through(last), 1);
        assert_eq!(network.close(second), None);
        network.go_back(mark);
        assert_eq!(network.close(second), Some(0));
        assert_eq!((network.through(first), network.through(last)), (1, 0));
    }
}
