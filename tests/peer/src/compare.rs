//! Compares library, peer and reference, call by call, on restarts with
//! damaged inputs: answers and all bytes left. Only in a plan the peer may take
//! another placement, if it is valid and has as few moves and as many stays; its
//! other form of decide, which chooses the first, may not.

use crate::inputs::{self, Input, Size};
use crate::{functions, kinds, layouts};
use differential::calls::{self, Asked, Kind, Outcome, Pages, Table};
use differential::events::{self, Step};
use differential::lent::{self, Place};
use differential::library::{self, Planner, PLAN};
use differential::random::Random;
use reference::placement::Subgroup;
use reference::roles::PLANNER;
use reference::settings::{self, Settings, SUBGROUPS};
use reference::state::{self, Phase, State};
use reference::words;
use std::collections::BTreeMap;
use std::process::ExitCode;

/// Inputs of each kind of layout, and of each size, whose plans are compared.
const OF_KIND: u64 = 1;
const OF_SIZE: u64 = 8;
/// Each event comes at least so often to a state of each phase, and each answer
/// is given at least so often.
const LEAST: u64 = 5;
/// One in so many calls is a decide that is hard to place; one in so many is also
/// made with faults.
const CHOICES: u64 = 8;
const LAYOUTS: u64 = 40;
const PHASES: [Phase; 4] = [
    Phase::Gathering,
    Phase::Ordered,
    Phase::Preparing,
    Phase::Committed,
];
const NUMBERS: [u32; 17] = [1, 2, 3, 4, 5, 6, 7, 8, 9, 10, 11, 12, 13, 14, 16, 17, 18];
const WAITS: [u32; 5] = [1, 2, 3, 4, 5];

/// The library, the peer and the peer that chooses, each with pages of its own.
struct Three {
    library: (Planner, Pages),
    peer: (Planner, Pages),
    choosing: (Planner, Pages),
}

impl Three {
    fn new(choosing: Planner) -> Three {
        let with_pages = |planner| (planner, Pages::new(true));
        Three {
            library: with_pages(library::tested_planner()),
            peer: with_pages(functions::planner()),
            choosing: with_pages(choosing),
        }
    }

    /// Makes a call by all; the two peers differ in decide alone. Gives what the
    /// library left, or what differs.
    fn compare(&mut self, step: &Step) -> Result<Outcome, String> {
        let asked = &step.asked;
        let expected = calls::expected(asked);
        let made = |of: &mut (Planner, Pages), name: &str| {
            let outcome = calls::call(&of.0, &mut of.1, asked, step.places);
            outcome.map_err(|what| format!("{name}: {what}"))
        };
        let own = made(&mut self.library, "the library")?;
        let other = made(&mut self.peer, "the peer")?;
        if own != expected {
            return Err(different("the library", &own, &expected));
        }
        if other != own && !(own.answer == PLAN && as_good(asked, &own, &other)) {
            return Err(different("the peer", &other, &own));
        }
        if asked.kind == Kind::Decide {
            let first = made(&mut self.choosing, "the peer that chooses")?;
            if first != own {
                return Err(different("the peer that chooses", &first, &own));
            }
        }
        Ok(own)
    }
}

fn different(name: &str, is: &Outcome, wanted: &Outcome) -> String {
    let (answer, other) = (is.answer(), wanted.answer());
    let parts = [
        ("state", is.state == wanted.state),
        ("desk", is.desk == wanted.desk),
        ("buffer", is.buffer == wanted.buffer),
    ];
    let parts: Vec<&str> = parts
        .iter()
        .filter(|(_, same)| !same)
        .map(|part| part.0)
        .collect();
    format!("{name} answers {answer} where {other} is expected; what differs beside: {parts:?}")
}

fn decoded(settings: &Settings, outcome: &Outcome) -> Option<State> {
    state::decode(settings, &words::whole_words(&outcome.state))
}

/// Whether a plan is the wanted one but for the choice among placements of
/// equal moves and stays.
fn as_good(asked: &Asked, wanted: &Outcome, is: &Outcome) -> bool {
    let Ok(settings) = settings::parse(&words::whole_words(&asked.table.settings)) else {
        return false;
    };
    let states = (decoded(&settings, wanted), decoded(&settings, is));
    let (Some(wanted_state), Some(mut state)) = states else {
        return false;
    };
    let good = placed_as_good(&settings, &wanted_state, &state);
    if let (Some(plan), Some(wanted)) = (&mut state.plan, &wanted_state.plan) {
        plan.masks.clone_from(&wanted.masks);
    }
    let rest = is.answer == wanted.answer && is.desk == wanted.desk && is.buffer == wanted.buffer;
    good && rest && state == wanted_state
}

fn placed_as_good(settings: &Settings, wanted: &State, is: &State) -> bool {
    let (Some(kept), Some(best), Some(plan)) = (&wanted.kept, &wanted.plan, &is.plan) else {
        return false;
    };
    (0..SUBGROUPS).all(|number| {
        let subgroup = Subgroup {
            settings,
            number,
            held: wanted.held,
            old: &kept.masks,
        };
        let rank = |masks: &[u32]| (subgroup.moves(masks), subgroup.stays(masks));
        subgroup.valid(&plan.masks) && rank(&plan.masks) == rank(&best.masks)
    })
}

/// How often each event came to each phase, and each answer.
#[derive(Default)]
struct Seen {
    calls: u64,
    events: BTreeMap<(Kind, usize), u64>,
    numbers: BTreeMap<u32, u64>,
    waits: BTreeMap<u32, u64>,
    plans: u64,
}

impl Seen {
    fn count(&mut self, asked: &Asked, outcome: &Outcome) {
        self.calls += 1;
        if let Some(&phase) = asked.table.state.first() {
            *self.events.entry((asked.kind, phase.into())).or_default() += 1;
        }
        match outcome.answer {
            0 => {}
            PLAN => self.plans += 1,
            word if word < library::ACCEPTED => {
                *self.numbers.entry(word % 256).or_default() += 1;
            }
            word if word >= library::WAIT => {
                *self.waits.entry(word % library::WAIT / 256).or_default() += 1;
            }
            _ => {}
        }
    }

    /// How often each event came to each phase, and each answer.
    fn times(&self) -> Vec<(u64, String)> {
        let mut all = vec![(self.plans, "a plan".into())];
        for kind in Kind::EVENTS {
            for phase in PHASES.into_iter().filter(|_| kind != Kind::Fresh) {
                let times = self.events.get(&(kind, phase as usize));
                let name = format!("{} while {phase:?}", kind.name());
                all.push((times.copied().unwrap_or(0), name));
            }
        }
        for number in NUMBERS {
            let times = self.numbers.get(&number).copied();
            all.push((times.unwrap_or(0), format!("number {number}")));
        }
        for reason in WAITS {
            let times = self.waits.get(&reason).copied();
            all.push((times.unwrap_or(0), format!("wait {reason}")));
        }
        all.sort();
        all
    }
}

/// The same with an event of another kind, whatever the phase.
fn with_kind(step: &Step, kind: Kind) -> Step {
    Step {
        asked: Asked {
            kind,
            ..step.asked.clone()
        },
        places: step.places,
        faults: step.faults.clone(),
    }
}

/// Plays sequences until `count` calls were compared, or to the first that
/// differs. Each call of a sequence is also made as another event, from which
/// the sequence does not go on.
fn play(three: &mut Three, seed: u64, count: u64, seen: &mut Seen) -> Result<(), String> {
    let mut kinds = Kind::EVENTS.into_iter().cycle();
    for index in 0.. {
        lent::at_input(index);
        let mut sequence = events::sequence(seed, index);
        while let Some(step) = sequence.step() {
            let other = kinds.next().unwrap_or(Kind::CheckState);
            for (made, goes_on) in [(&with_kind(&step, other), false), (&step, true)] {
                let outcome = three.compare(made).map_err(|what| {
                    let (name, node) = (made.asked.kind.name(), made.asked.node);
                    format!("seed {seed}, sequence {index}, {name} (node {node}): {what}")
                })?;
                seen.count(&made.asked, &outcome);
                if goes_on {
                    sequence.go_on(&made.asked, &outcome);
                }
                if seen.calls >= count {
                    return Ok(());
                }
            }
        }
    }
    Ok(())
}

/// Compares decide on layouts that are hard to place, and for some of them calls
/// with faults in them.
fn place(three: &mut Three, seed: u64, count: u64, seen: &mut Seen) -> Result<(), String> {
    for index in 0..count / CHOICES {
        lent::at_input(index);
        let random = &mut Random::of_input(seed, index);
        let (planner, pages) = &mut three.library;
        let asked = layouts::decide(planner, pages, random);
        let mut made = |asked: &Asked| {
            let step = Step {
                asked: asked.clone(),
                places: [Place::Last; 5],
                faults: Vec::new(),
            };
            let outcome = three.compare(&step);
            let outcome = outcome.map_err(|what| format!("seed {seed}, layout {index}: {what}"))?;
            seen.count(asked, &outcome);
            Ok::<Outcome, String>(outcome)
        };
        let decided = made(&asked)?;
        if index >= count / LAYOUTS {
            continue;
        }
        made(&layouts::report_too_short(&asked))?;
        made(&layouts::with_stranger(&asked))?;
        if decided.answer == PLAN {
            made(&layouts::with_other_member(random, &asked, &decided.state))?;
        }
    }
    Ok(())
}

/// Compares decide on the inputs that are measured: each kind of layout, and
/// restarts of three sizes.
fn measured(three: &mut Three, seen: &mut Seen) -> Result<(), String> {
    let kinds = 0..kinds::names().len();
    let of_kinds = kinds.flat_map(|kind| (0..OF_KIND).map(move |at| kinds::input(kind, at)));
    let of_size = |size: Size| (0..OF_SIZE).map(move |at| inputs::input(size, at));
    let of_sizes = [inputs::FULL, inputs::SMALL, inputs::SHORT].into_iter();
    for (index, input) in (0..).zip(of_kinds.chain(of_sizes.flat_map(of_size))) {
        lent::at_input(index);
        let step = decide_of(&input);
        let outcome = three.compare(&step);
        let outcome = outcome.map_err(|what| format!("measured input {index}: {what}"))?;
        seen.count(&step.asked, &outcome);
    }
    Ok(())
}

fn decide_of(input: &Input) -> Step {
    Step {
        asked: Asked {
            role: PLANNER,
            kind: Kind::Decide,
            table: Table {
                settings: words::to_bytes(&input.settings),
                state: words::to_bytes(&input.gathered),
                desk: words::to_bytes(&input.desk),
            },
            message: Vec::new(),
            node: 0,
            buffer: Vec::new(),
        },
        places: [Place::Last; 5],
        faults: Vec::new(),
    }
}

/// Forms of decide that do not make the choice stand where the peer that chooses
/// does. Gives those that the comparison does not tell from it.
fn planted(seed: u64, count: u64) -> Vec<String> {
    let passes = |(_, wrong): &(&str, Planner)| {
        let mut three = Three::new(*wrong);
        place(&mut three, seed, count, &mut Seen::default()).is_ok()
    };
    let missed = functions::wrong_choices().into_iter().filter(passes);
    missed
        .map(|(name, _)| format!("{name} is taken for the choice"))
        .collect()
}

/// Compares so many calls and prints how many passed.
pub fn run(count: u64, seed: u64) -> ExitCode {
    println!(
        "compare: seed {seed}, {} and the peer",
        library::tested_name()
    );
    lent::watch_ends();
    let mut three = Three::new(functions::choosing());
    let mut seen = Seen::default();
    let mut failed = planted(seed, count);
    let done = measured(&mut three, &mut seen)
        .and_then(|()| place(&mut three, seed, count, &mut seen))
        .and_then(|()| play(&mut three, seed, count, &mut seen));
    failed.extend(done.err());
    if failed.is_empty() {
        let times = seen.times();
        println!(
            "compare: the rarest is {}, {} times",
            times[0].1, times[0].0
        );
        let rare = times.into_iter().filter(|(times, _)| *times < LEAST);
        failed.extend(rare.map(|(_, what)| format!("{what} is rare: the inputs are no good")));
    }
    for what in &failed {
        println!("compare: {what}");
    }
    println!("{} passed, {} failed", seen.calls, failed.len());
    match failed.is_empty() {
        true => ExitCode::SUCCESS,
        false => ExitCode::FAILURE,
    }
}
