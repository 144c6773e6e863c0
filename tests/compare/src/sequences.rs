//! Sequences of events on a table of settings, state and desk.

use crate::random::Random;
use crate::world::World;
use reference::events::{self, Decision};
use reference::mask;
use reference::number::Refusal;
use reference::roles::Role;
use reference::state::{self, Phase, State};

#[derive(Clone, Debug)]
pub enum Event {
    Report(Vec<u32>),
    Drop(u32),
    Decide,
    Order(u32),
    Fetched(u32),
    Prepared(u32),
}

/// Settings, state and desk as words.
#[derive(Clone, Debug, PartialEq, Eq)]
pub struct Table {
    pub settings: Vec<u32>,
    pub state: Vec<u32>,
    pub desk: Vec<u32>,
}

/// What an accepted event gives beside the next table.
#[derive(Clone, Debug, PartialEq, Eq)]
pub enum Given {
    Nothing,
    Decision(Decision),
    /// The words of an order.
    Order(Vec<u32>),
}

impl Table {
    /// The fresh state with a desk that holds anything.
    pub fn fresh(random: &mut Random, settings: &[u32]) -> Table {
        let word = random.pick(&[0, 1, u32::MAX]);
        Table {
            settings: settings.to_vec(),
            state: state::encode(&state::fresh()),
            desk: vec![word; reference::desk::DESK_WORDS],
        }
    }

    /// The reference's next table and what is given, or its number.
    pub fn after(&self, event: &Event) -> Result<(Table, Given), Refusal> {
        let (settings, state, desk) = (&self.settings, &self.state, &self.desk);
        let mut next = self.clone();
        let mut given = Given::Nothing;
        match event {
            Event::Report(message) => {
                (next.state, next.desk) =
                    events::report(Role::Planner, settings, state, desk, message)?;
            }
            Event::Drop(node) => {
                next.state = events::drop_node(Role::Planner, settings, state, desk, *node)?
            }
            Event::Decide => {
                let (decision, state) = events::decide(Role::Planner, settings, state, desk)?;
                next.state = state;
                given = Given::Decision(decision);
            }
            Event::Order(node) => {
                given = Given::Order(events::order(
                    Role::Planner,
                    settings,
                    state,
                    desk,
                    *node,
                    512,
                )?);
            }
            Event::Fetched(node) => {
                next.state = events::fetched(Role::Planner, settings, state, desk, *node)?
            }
            Event::Prepared(node) => {
                next.state = events::prepared(Role::Planner, settings, state, desk, *node)?
            }
        }
        Ok((next, given))
    }
}

/// An event that the state's phase takes, mostly.
pub fn event(random: &mut Random, world: &World, state: &State) -> Event {
    let phase = if random.chance(93) {
        state.phase
    } else {
        random.pick(&[
            Phase::Gathering,
            Phase::Gathering,
            Phase::Ordered,
            Phase::Preparing,
        ])
    };
    let held = state.held;
    let reports = if held == mask::below(world.settings.nodes) {
        45
    } else {
        80
    };
    match (phase, random.between(0, 99)) {
        (Phase::Gathering, chosen) if chosen < reports => report(random, world, held),
        (Phase::Gathering, ..=93) => Event::Decide,
        (Phase::Ordered, 0..=27) => Event::Order(node(random, world, held, held)),
        (Phase::Ordered, 28..=96) => {
            Event::Fetched(node(random, world, held, held & !state.fetched))
        }
        (Phase::Preparing, 0..=97) => {
            Event::Prepared(node(random, world, held, held & !state.prepared))
        }
        (Phase::Committed, 0..=19) => Event::Decide,
        (Phase::Committed, 20..=39) => report(random, world, held),
        (Phase::Committed, 40..=59) => Event::Order(node(random, world, held, held)),
        (Phase::Committed, 60..=79) => Event::Prepared(node(random, world, held, held)),
        _ => Event::Drop(node(random, world, held, held)),
    }
}

/// A report, mostly of a node that is not held yet.
fn report(random: &mut Random, world: &World, held: u32) -> Event {
    let absent = mask::below(world.settings.nodes) & !held;
    let from = if random.chance(85) && absent != 0 {
        absent
    } else {
        mask::below(world.settings.nodes)
    };
    let node = random.pick(&mask::nodes(from));
    Event::Report(world.message(random, node))
}

/// A node of `wanted`, mostly; else one that is held, absent or none at all.
fn node(random: &mut Random, world: &World, held: u32, wanted: u32) -> u32 {
    let nodes = world.settings.nodes;
    let absent = mask::below(nodes) & !held;
    let from = match random.between(0, 99) {
        0..=83 => wanted,
        84..=88 => held,
        89..=94 => absent,
        _ => 0,
    };
    if from != 0 {
        return random.pick(&mask::nodes(from));
    }
    let below = random.between(0, nodes - 1);
    random.pick(&[below, nodes, 32, 33, u32::MAX])
}
