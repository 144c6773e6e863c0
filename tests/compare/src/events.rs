//! The inputs of the `events` program: random restarts, played through the
//! planner and the reference side by side.
//!
//! A sequence of calls depends on the seed and its index alone. It goes on from
//! what the planner left, which is what the reference says. Some calls get a
//! damaged copy of what is lent; if such a call is refused, the sequence goes on
//! from the undamaged.

use crate::calls::{self, Asked, Kind, Outcome, Pages, Table, DESK_BYTES, STATE_BYTES};
use crate::lent::Place;
use crate::library::Planner;
use crate::random::Random;
use crate::recorder::Recorder;
use crate::sequences::{self, Event};
use crate::world::{self, World};
use crate::{damage, unsound};
use reference::roles::PLANNER;
use reference::state::{self, Phase, State, STATE_WORDS};
use reference::words;

/// A call of a sequence.
pub struct Step {
    pub asked: Asked,
    pub places: [Place; 5],
    /// The names of the faults in what is lent.
    pub faults: Vec<&'static str>,
}

impl Step {
    /// The check of the state that this call is lent.
    fn check(&self) -> Step {
        Step {
            asked: Asked {
                kind: Kind::CheckState,
                ..self.asked.clone()
            },
            places: self.places,
            faults: Vec::new(),
        }
    }
}

/// A sequence of calls under way.
pub struct Sequence {
    random: Random,
    world: World,
    table: Table,
    /// Calls left to make.
    left: u32,
    begun: bool,
}

/// Sequence `index` of a seed.
pub fn sequence(seed: u64, index: u64) -> Sequence {
    let mut random = Random::of_input(seed, index);
    let world = world::world(&mut random);
    let word = random.pick(&[0, 1, u32::MAX]);
    let table = Table {
        settings: words::to_bytes(&world.words),
        state: vec![word as u8; STATE_BYTES],
        desk: words::to_bytes(&vec![word; DESK_BYTES / 4]),
    };
    let left = random.between(20, 60) + 3 * world.settings.nodes;
    Sequence {
        random,
        world,
        table,
        left,
        begun: false,
    }
}

impl Sequence {
    /// The next call, if there is one.
    pub fn step(&mut self) -> Option<Step> {
        if self.left == 0 {
            return None;
        }
        self.left -= 1;
        let mut asked = if self.begun {
            self.event()
        } else {
            self.asked(Kind::Fresh)
        };
        let mut faults = Vec::new();
        for _ in 0..self.random.pick(&[0, 0, 0, 0, 0, 0, 0, 1, 1, 1, 2]) {
            faults.push(self.fault(&mut asked));
        }
        let places = [(); 5].map(|()| place(&mut self.random));
        Some(Step {
            asked,
            places,
            faults,
        })
    }

    /// Goes on from what a call left. What was refused changes nothing; what
    /// was accepted under other settings is put aside.
    pub fn go_on(&mut self, asked: &Asked, outcome: &Outcome) {
        if asked.kind == Kind::CheckState {
            return;
        }
        let same_settings = asked.table.settings == self.table.settings;
        if outcome.answer().refused() || !same_settings && asked.kind != Kind::Fresh {
            return;
        }
        self.begun = true;
        self.table.state.clone_from(&outcome.state);
        if outcome.desk.len() == DESK_BYTES {
            self.table.desk.clone_from(&outcome.desk);
        }
    }

    /// Settings, state and desk as they are now, without faults.
    pub fn table(&self) -> &Table {
        &self.table
    }

    fn asked(&mut self, kind: Kind) -> Asked {
        let filling = self.random.word() as u8;
        Asked {
            role: PLANNER,
            kind,
            table: self.table.clone(),
            message: Vec::new(),
            node: 0,
            buffer: vec![filling; calls::BUFFER_BYTES],
        }
    }

    fn state(&self) -> State {
        let words = words::whole_words(&self.table.state);
        state::decode(&self.world.settings, &words).unwrap_or_else(state::fresh)
    }

    /// An event, mostly one that the phase takes.
    fn event(&mut self) -> Asked {
        let state = self.state();
        let rarely = if state.phase == Phase::Committed {
            10
        } else {
            1
        };
        if self.random.chance(rarely) {
            return self.asked(Kind::Fresh);
        }
        let event = sequences::event(&mut self.random, &self.world, &state);
        let (kind, node, message) = match event {
            Event::Report(message) => (Kind::Report, 0, message),
            Event::Drop(node) => (Kind::Drop, node, Vec::new()),
            Event::Decide => (Kind::Decide, 0, Vec::new()),
            Event::Order(node) => (Kind::Order, node, Vec::new()),
            Event::Fetched(node) => (Kind::Fetched, node, Vec::new()),
            Event::Prepared(node) => (Kind::Prepared, node, Vec::new()),
        };
        Asked {
            node,
            message: words::to_bytes(&message),
            ..self.asked(kind)
        }
    }

    /// Puts a fault into what is lent and names it.
    fn fault(&mut self, asked: &mut Asked) -> &'static str {
        let random = &mut self.random;
        let table = &mut asked.table;
        match random.between(0, 99) {
            0..=9 => length(random, &mut table.desk, "desk's length"),
            10..=14 if asked.kind == Kind::Order => {
                length(random, &mut asked.buffer, "buffer's length")
            }
            10..=14 if asked.kind == Kind::Report => {
                length(random, &mut asked.message, "message's length")
            }
            15..=24 => length(random, &mut table.state, "state's length"),
            25..=29 => length(random, &mut table.settings, "settings' length"),
            41..=50 if asked.kind == Kind::Report => {
                let node = words::whole_words(&asked.message).first().copied();
                let node = node.unwrap_or(0) % self.world.settings.nodes;
                in_words(&mut table.state, |words| match words.len() {
                    STATE_WORDS => unsound::beyond(random, words, node),
                    _ => "state's length",
                })
            }
            30..=40 => in_words(&mut table.settings, |words| {
                if words == &self.world.words {
                    damage::settings(random, words);
                }
                "settings"
            }),
            10..=14 | 41..=74 => in_words(&mut table.state, |words| {
                if words.len() == STATE_BYTES / 4 {
                    return unsound::state(random, &self.world.settings, words);
                }
                "state's length"
            }),
            _ => in_words(&mut table.desk, |words| {
                if words.len() == DESK_BYTES / 4 {
                    let held = words::whole_words(&self.table.state)[52];
                    return unsound::desk(random, &self.world, held, words);
                }
                "desk's length"
            }),
        }
    }
}

/// Changes the words of bytes, if they are whole words.
pub fn in_words(
    bytes: &mut Vec<u8>,
    change: impl FnOnce(&mut Vec<u32>) -> &'static str,
) -> &'static str {
    let Some(mut words) = words::from_bytes(bytes) else {
        return "a part word";
    };
    let name = change(&mut words);
    *bytes = words::to_bytes(&words);
    name
}

/// Makes a piece shorter or longer, by bytes or words.
pub fn length(random: &mut Random, bytes: &mut Vec<u8>, name: &'static str) -> &'static str {
    let whole = bytes.len();
    let less = |by: usize| whole.saturating_sub(by);
    let choices = [
        0,
        1,
        4,
        whole / 2,
        less(1),
        less(2),
        less(3),
        less(4),
        whole + 1,
        whole + 2,
        whole + 3,
        whole + 4,
        whole + 512,
    ];
    bytes.resize(random.pick(&choices), 0);
    name
}

pub fn place(random: &mut Random) -> Place {
    match random.between(0, 2) {
        0 => Place::First,
        1 => Place::Last,
        _ => Place::After(random.below(64)),
    }
}

/// A call at which planner and reference differ.
pub struct Difference {
    /// The call's place in its sequence.
    pub step: usize,
    pub what: String,
    pub asked: Asked,
}

/// Plays a sequence to its end or to the first difference. Before each call the
/// state that it is lent is checked.
pub fn play(
    planner: &Planner,
    pages: &mut Pages,
    mut sequence: Sequence,
    mut seen: impl FnMut(&Step, &Outcome),
) -> Result<(), Box<Difference>> {
    let mut made = 0;
    while let Some(event) = sequence.step() {
        for next in [event.check(), event] {
            match calls::compare(planner, pages, &next.asked, next.places) {
                Ok(outcome) => {
                    seen(&next, &outcome);
                    sequence.go_on(&next.asked, &outcome);
                }
                Err(what) => {
                    let asked = next.asked;
                    let step = made;
                    return Err(Box::new(Difference { step, what, asked }));
                }
            }
        }
        made += 1;
    }
    Ok(())
}

/// The text of the case that leads to a sequence's first difference: the calls
/// that were accepted, and the last.
pub fn case(planner: &Planner, pages: &mut Pages, seed: u64, index: u64) -> String {
    let mut recorder = Recorder::new(&format!("sequence {index} of seed {seed}"));
    let seen = |step: &Step, outcome: &Outcome| {
        if step.asked.kind != Kind::CheckState && !outcome.answer().refused() {
            recorder.call(&step.asked);
        }
    };
    if let Err(difference) = play(planner, pages, sequence(seed, index), seen) {
        recorder.call(&difference.asked);
    }
    recorder.text
}
