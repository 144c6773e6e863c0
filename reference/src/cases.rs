//! For tests: case A, the run that restart(1) shows, settings and the reports of nodes 0 to
//! 5; worlds, which are settings, state and desk; random layouts and worlds;
//! inputs of the programs.

use crate::desk::DESK_WORDS;
use crate::events::{self, Decision};
use crate::mask;
use crate::message::{encode, Contents, Triple, MEMBERS, RUN, TERMINATION};
use crate::number::Number;
use crate::program::{self, Reported};
use crate::roles::Role;
use crate::settings::{self, SUBGROUPS};
use crate::state::{self, State};
use crate::words;

pub const SETTINGS: [u32; 14] = [7, 3, 4, 3, 0, 0, 1, 1, 1, 2, 2, 2, 3, 1];
pub const MEMBERS_MASK: u32 = 127;
pub const MASKS: [u32; 3] = [5, 82, 32];

/// A report of `view` with the printed masks, and these runs of shard 1.
pub fn report(node: u32, view: u32, runs: &[(u32, u32)]) -> Contents {
    let mut records = Vec::new();
    for (shard, mask) in (0..).zip(MASKS) {
        records.push(Triple::new(MEMBERS, shard, mask, 0));
    }
    for &(view, count) in runs {
        records.push(Triple::new(RUN, 1, view, count));
    }
    Contents {
        node,
        view,
        members: MEMBERS_MASK,
        records,
    }
}

/// The report with a termination.
pub fn terminated(report: &Contents, positions: [(u32, u32); 3]) -> Contents {
    let mut report = report.clone();
    for (shard, (view, k)) in (0..).zip(positions) {
        let record = Triple::new(TERMINATION, shard, view, k);
        report.records.insert(3 + shard as usize, record);
    }
    report
}

/// The words of the printed run's report of a node.
pub fn printed_report(node: u32) -> Vec<u32> {
    encode(&match node {
        1 => report(1, 7, &[(7, 5)]),
        4 => report(4, 7, &[(7, 4)]),
        _ => report(node, 7, &[]),
    })
}

/// Settings, state and desk.
#[derive(Clone, Debug, PartialEq)]
pub struct World {
    pub settings: Vec<u32>,
    pub state: Vec<u32>,
    pub desk: Vec<u32>,
}

/// Drop, fetched or prepared.
type NodeEvent = fn(Role, &[u32], &[u32], &[u32], u32) -> Result<Vec<u32>, Number>;

impl World {
    /// After these messages.
    pub fn of(settings: &[u32], messages: &[Vec<u32>]) -> World {
        let mut world = World {
            settings: settings.to_vec(),
            state: state::encode(&state::fresh()),
            desk: vec![0; DESK_WORDS],
        };
        for message in messages {
            world.add(message);
        }
        world
    }

    /// After one more message.
    pub fn add(&mut self, message: &[u32]) {
        let World {
            settings,
            state,
            desk,
        } = &self;
        let taken = events::report(Role::Planner, settings, state, desk, message);
        (self.state, self.desk) = taken.expect("a good report");
    }

    /// The printed run with some of its nodes.
    pub fn printed(settings: &[u32], nodes: &[u32]) -> World {
        let messages: Vec<Vec<u32>> = nodes.iter().map(|&node| printed_report(node)).collect();
        World::of(settings, &messages)
    }

    /// These nodes report view 7 with these members and masks, and empty logs.
    pub fn plain(settings: &[u32], nodes: u32, members: u32, masks: &[u32]) -> World {
        let of = |node: u32| with_masks(node, 7, members, masks, Vec::new());
        let messages: Vec<Vec<u32>> = mask::nodes(nodes).into_iter().map(of).collect();
        World::of(settings, &messages)
    }

    pub fn decide(&mut self) -> Decision {
        let (decision, state) =
            events::decide(Role::Planner, &self.settings, &self.state, &self.desk).unwrap();
        self.state = state;
        decision
    }

    /// After an event of one node.
    pub fn mark(&mut self, event: NodeEvent, node: u32) {
        let next = event(Role::Planner, &self.settings, &self.state, &self.desk, node);
        self.state = next.unwrap();
    }

    /// The number that this state has.
    pub fn check(&self) -> u32 {
        let checked = events::check(Role::Planner, &self.settings, &self.state, &self.desk);
        checked.err().map_or(0, |number| number.0)
    }

    pub fn state(&self) -> State {
        let settings = settings::parse(&self.settings).unwrap();
        state::decode(&settings, &self.state).unwrap()
    }
}

/// A report with these masks, and then these records.
fn with_masks(node: u32, view: u32, members: u32, masks: &[u32], records: Vec<Triple>) -> Vec<u32> {
    let mask = |(shard, &mask): (u32, &u32)| Triple::new(MEMBERS, shard, mask, 0);
    encode(&Contents {
        node,
        view,
        members,
        records: (0..).zip(masks).map(mask).chain(records).collect(),
    })
}

/// A small xorshift generator.
pub struct Random(pub u64);

impl Random {
    pub fn below(&mut self, limit: u32) -> u32 {
        self.0 ^= self.0 << 13;
        self.0 ^= self.0 >> 7;
        self.0 ^= self.0 << 17;
        ((self.0 >> 33) % u64::from(limit)) as u32
    }
}

/// The words of settings of up to `most` nodes with up to four subgroups whose
/// shards lie between one another, held nodes, and old masks that are disjoint in
/// each subgroup.
pub fn random_layout(random: &mut Random, most: u32) -> (Vec<u32>, u32, Vec<u32>) {
    let nodes = 1 + random.below(most);
    let sets = 1 + random.below(nodes.min(5));
    let shards = 1 + random.below(5);
    let subgroups = 1 + random.below(SUBGROUPS);
    let mut words = vec![nodes, sets, 1, shards];
    words.extend((0..nodes).map(|_| random.below(sets)));
    for _ in 0..shards {
        let (subgroup, need) = (random.below(subgroups), 1 + random.below(sets.min(3)));
        let cap = match random.below(4) {
            0 => 0,
            1 => need,
            2 => need + 1,
            _ => need + random.below(17 - need),
        };
        words.push(cap * 65536 + subgroup * 256 + need);
    }
    let settings = settings::parse(&words).unwrap();
    let mut old = vec![0; shards as usize];
    for number in 0..SUBGROUPS {
        let own = settings.shards_of(number);
        for node in 0..nodes {
            if !own.is_empty() && random.below(3) > 0 {
                let shard = own[random.below(own.len() as u32) as usize];
                old[shard as usize] |= mask::only(node);
            }
        }
    }
    let held = random.below(1 << nodes) | random.below(1 << nodes);
    (words, held, old)
}

/// A world in gathering: members report view 7 or, like the others, view 6, with
/// runs, some with the termination, and then some nodes are dropped.
pub fn random_world(random: &mut Random, most: u32) -> World {
    let (mut settings, held, old) = loop {
        let (settings, held, old) = random_layout(random, most);
        if !old.contains(&0) {
            break (settings, held, old);
        }
    };
    let all = mask::below(settings[0]);
    let part = 1 + random.below(3);
    settings[2] = 1 + random.below(settings[0].div_ceil(part));
    let placed = old.iter().fold(0, |nodes, mask| nodes | mask);
    let members = placed | (all & !(random.below(all + 1) & random.below(all + 1)));
    let position = |random: &mut Random| match random.below(3) {
        0 => (5 + random.below(3), 1 + random.below(3)),
        _ => (0, 0),
    };
    let positions: Option<Vec<(u32, u32)>> =
        (random.below(3) == 0).then(|| old.iter().map(|_| position(random)).collect());
    let mut messages = Vec::new();
    for node in mask::nodes(held) {
        let current = mask::has(members, node) && random.below(8) > 0;
        let view = if current { 7 } else { 6 };
        let mut records = Vec::new();
        if let Some(positions) = positions.iter().find(|_| current && random.below(3) == 0) {
            let record = |(shard, &(view, k))| Triple::new(TERMINATION, shard, view, k);
            records.extend((0..).zip(positions).map(record));
        }
        for shard in 0..settings[3] {
            for of in 5..=view {
                if random.below(3) == 0 {
                    records.push(Triple::new(RUN, shard, of, 1 + random.below(4)));
                }
            }
        }
        let members = if current { members } else { all };
        messages.push(with_masks(node, view, members, &old, records));
    }
    let mut world = World::of(&settings, &messages);
    for node in mask::nodes(held) {
        if random.below(12) == 0 {
            world.mark(events::drop_node, node);
        }
    }
    world
}

/// The input of settings and messages.
pub fn input(settings: &[u32], messages: &[Vec<u32>]) -> Vec<u8> {
    let mut all = vec![settings.len() as u32];
    all.extend(settings);
    for message in messages {
        all.push(message.len() as u32);
        all.extend(message);
    }
    words::to_bytes(&all)
}

/// The printed run's reports of these nodes.
pub fn reports(nodes: &[u32]) -> Vec<Vec<u32>> {
    nodes.iter().map(|&node| printed_report(node)).collect()
}

/// Settings, state and desk after these messages.
pub fn reported(settings: &[u32], messages: &[Vec<u32>]) -> Reported {
    program::reported(&input(settings, messages)).expect("good messages")
}

/// All nodes of the printed run.
pub const SEVEN: [u32; 7] = [0, 1, 2, 3, 4, 5, 6];

/// Four nodes of two sets, and a shard that needs two of them.
pub const FOUR: [u32; 9] = [4, 2, 1, 1, 0, 0, 1, 1, 2];

/// A report of a world with one shard.
pub fn one_shard(node: u32, view: u32, members: u32, shard: u32) -> Vec<u32> {
    encode(&Contents {
        node,
        view,
        members,
        records: vec![Triple::new(MEMBERS, 0, shard, 0)],
    })
}

/// Their reports: node 3 has missed the last view.
pub fn four_reports() -> Vec<Vec<u32>> {
    let mut messages: Vec<Vec<u32>> = (0..3).map(|node| one_shard(node, 7, 7, 3)).collect();
    messages.push(one_shard(3, 6, 15, 8));
    messages
}
