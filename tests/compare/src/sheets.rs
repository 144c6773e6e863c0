//! Inputs of the program `sheet`, the comparison of what it prints with the
//! reference, and counts of what the compared inputs showed.

use crate::feeding::{Feeding, Program};
use crate::lent::hex;
use crate::random::Random;
use crate::world::{self, World};
use crate::{damage, generate, runs};
use reference::desk;
use reference::mask;
use reference::message::{Contents, MOST_RECORDS, MOST_WORDS};
use reference::number::{self, Refusal};
use reference::program::{self, sheet, Reported};
use reference::settings::{self, Settings};
use reference::sheet::{Sheet, COUNTS, MOST_NODES};
use reference::state;
use std::collections::BTreeMap;

/// From this many inputs on, every ending and every trap must have occurred.
pub const JUDGED: u64 = 2000;
/// Each so often.
const LEAST: u64 = 5;
/// Inputs up to this length are cut at every byte.
const SHORT: usize = 300;
/// Each number of nodes as often as it is to come. The sheet of ten has 1,024
/// lines, of which the reference decides each by itself.
const NODES: [u32; 24] = [
    1, 2, 3, 3, 4, 4, 4, 5, 5, 5, 6, 6, 6, 7, 7, 7, 8, 8, 9, 10, 11, 11, 12, 32,
];
/// The numbers that the program gives.
const NUMBERS: [u32; 15] = [2, 5, 6, 7, 8, 9, 16, 17, 10, 11, 18, 12, 13, 22, 23];

/// The standard input of an index: settings and reports as blocks, in one of
/// three with a fault.
pub fn input(seed: u64, index: u64) -> Vec<u8> {
    let random = &mut Random::of_input(seed, index);
    let nodes = random.pick(&NODES);
    let world = world::of_size(random, nodes);
    match random.between(0, 9) {
        0..=5 => blocks(random, &world, Reporting::All),
        6 => blocks(random, &world, Reporting::Some),
        7 | 8 => blocks(random, &world, Reporting::Faulty),
        _ => {
            let bytes = blocks(random, &world, Reporting::All);
            runs::mangled(random, bytes)
        }
    }
}

/// A good input that is short enough to be cut at every byte.
pub fn short_input(seed: u64, index: u64) -> Vec<u8> {
    let random = &mut Random::of_input(!seed, index);
    loop {
        let nodes = random.between(2, 4);
        let world = world::of_size(random, nodes);
        let bytes = blocks(random, &world, Reporting::All);
        if bytes.len() <= SHORT && sheet::sheet_of(&bytes).is_ok() {
            return bytes;
        }
    }
}

/// Which nodes report, and how.
#[derive(Clone, Copy, PartialEq)]
enum Reporting {
    All,
    Some,
    Faulty,
}

/// The blocks of an input.
fn blocks(random: &mut Random, world: &World, reporting: Reporting) -> Vec<u8> {
    let mut nodes: Vec<u32> = (0..world.settings.nodes).collect();
    random.shuffle(&mut nodes);
    if reporting == Reporting::Some {
        let missing = random.between(1, nodes.len() as u32) as usize;
        let missing = random.pick(&[1, missing, nodes.len()]);
        nodes.truncate(nodes.len() - missing);
    }
    if let (Some(&again), true) = (nodes.first(), random.chance(25)) {
        let place = random.below(nodes.len() + 1);
        nodes.insert(place, again);
    }
    let mut words = world.words.clone();
    if reporting == Reporting::Faulty && random.chance(10) {
        damage::settings(random, &mut words);
    }
    let mut bytes = runs::block(random, &words);
    for node in nodes {
        let mut message = match reporting {
            Reporting::Faulty if random.chance(92) => world.message(random, node),
            _ => {
                let mut report = world.report(random, node).expect("a view has every node");
                if reporting == Reporting::Faulty && random.chance(50) {
                    other_members(random, &world.settings, &mut report);
                } else if reporting == Reporting::Faulty {
                    world::other_termination(&mut report);
                }
                generate::message(random, &report)
            }
        };
        if random.chance(5) {
            let off_the_chain = random.word();
            message.resize(message.len().max(MOST_WORDS), off_the_chain);
        }
        bytes.extend(runs::block(random, &message));
    }
    bytes
}

/// Makes a report one of another view with the same number, if a node is left
/// that carries no shard.
fn other_members(random: &mut Random, settings: &Settings, report: &mut Contents) {
    let shards = report.shard_masks(settings).into_iter();
    let carrying = shards.fold(mask::only(report.node), |all, shard| all | shard);
    let others = mask::nodes(mask::below(settings.nodes) & !carrying);
    if !others.is_empty() {
        report.members ^= mask::only(random.pick(&others));
    }
}

/// What the compared inputs had, and how often.
#[derive(Default)]
pub struct Tally {
    pub inputs: u64,
    pub lines: u64,
    seen: BTreeMap<String, u64>,
}

impl Tally {
    fn count(&mut self, input: &[u8], sheet: &Result<Sheet, Refusal>) {
        self.inputs += 1;
        self.lines += sheet.as_ref().map_or(0, |sheet| sheet.lines.len() as u64);
        let mut seen = layout_traps(input);
        match sheet {
            Err(refusal) => seen.extend(refusal_traps(input, refusal)),
            Ok(sheet) => seen.extend(sheet_traps(input, sheet)),
        }
        for name in seen {
            *self.seen.entry(name).or_default() += 1;
        }
    }

    pub fn print(&self) {
        for (name, times) in &self.seen {
            println!("  {name}: {times}");
        }
    }

    /// What is too rare for the inputs to show much.
    pub fn rare(&self) -> Vec<String> {
        let times = |name: &String| self.seen.get(name).copied().unwrap_or(0);
        all_traps()
            .into_iter()
            .filter(|name| times(name) < LEAST)
            .collect()
    }
}

/// All that must occur.
fn all_traps() -> Vec<String> {
    let numbers = NUMBERS.map(|number| format!("number {number}"));
    let sizes = (1..=MOST_NODES).map(|nodes| format!("a sheet of {nodes} nodes"));
    let others = [
        NO_SETTINGS,
        CUT_COUNT,
        CUT_BLOCK,
        EARLY_LARGE,
        EARLY_MISSING,
        LARGE_READY,
        LARGE_MISSING,
        LARGE_NOBODY,
        NOBODY,
        ONE_MISSING,
        WITH_PLAN,
        WITHOUT_PLAN,
        WITH_WAIT_3,
        WITH_WAIT_4,
        WITH_WAIT_5,
        WITH_ALL,
        OLDER,
        TERMINATED,
        CAPPED,
        TWICE,
        NO_MEMBER,
        SUBGROUPS,
        FULL,
    ];
    let others = others.map(String::from);
    numbers.into_iter().chain(sizes).chain(others).collect()
}

const NO_SETTINGS: &str = "there is no settings block";
const CUT_COUNT: &str = "the input ends inside a count";
const CUT_BLOCK: &str = "the input ends inside a block";
const EARLY_LARGE: &str = "a bad block of more than ten nodes";
const EARLY_MISSING: &str = "a bad block, and a report missing";
const LARGE_READY: &str = "number 22, everyone has reported";
const LARGE_MISSING: &str = "number 22, and a report missing";
const LARGE_NOBODY: &str = "number 22, nobody has reported";
const NOBODY: &str = "number 23, nobody has reported";
const ONE_MISSING: &str = "number 23, one report missing";
const WITH_PLAN: &str = "a sheet with a plan";
const WITHOUT_PLAN: &str = "a sheet without a plan";
const WITH_WAIT_3: &str = "a sheet with wait 3";
const WITH_WAIT_4: &str = "a sheet with wait 4";
const WITH_WAIT_5: &str = "a sheet with wait 5";
const WITH_ALL: &str = "a sheet with a plan and all waits";
const OLDER: &str = "a sheet with an older view";
const TERMINATED: &str = "a sheet with a termination";
const CAPPED: &str = "a sheet with a cap above m";
const TWICE: &str = "a sheet with a second report of a node";
const NO_MEMBER: &str = "a sheet with a node outside the kept view";
const SUBGROUPS: &str = "a sheet with several subgroups";
const FULL: &str = "a sheet with a report of 128 records";

/// Where the blocks of an input begin, and where the last would end.
fn starts(input: &[u8]) -> Vec<usize> {
    let mut starts = vec![0];
    let mut at = 0;
    while let Some(count) = input.get(at..).and_then(|rest| rest.first_chunk::<4>()) {
        at = at.saturating_add(4 + 4 * u32::from_le_bytes(*count) as usize);
        starts.push(at);
    }
    starts
}

/// What is to be said of the blocks of an input.
fn layout_traps(input: &[u8]) -> Vec<String> {
    let starts = starts(input);
    let end = starts[starts.len() - 1];
    let mut found = Vec::new();
    if starts.len() == 1 {
        found.push(NO_SETTINGS.into());
    }
    if end < input.len() {
        found.push(CUT_COUNT.into());
    }
    if end > input.len() {
        found.push(CUT_BLOCK.into());
    }
    found
}

/// The settings of an input, if they are good.
fn settings_of(input: &[u8]) -> Option<Settings> {
    let end = *starts(input).get(1)?;
    let words = reference::words::whole_words(input.get(4..end)?);
    settings::parse(&words).ok()
}

/// What is to be said of a refusal.
fn refusal_traps(input: &[u8], refusal: &Refusal) -> Vec<String> {
    let mut found = vec![format!("number {}", refusal.number.0)];
    let Some(settings) = settings_of(input) else {
        return found;
    };
    let all = settings.nodes as usize;
    let large = settings.nodes > MOST_NODES;
    let reports = starts(input).len() - 2;
    let held = held(input);
    match refusal.number {
        number::TOO_LARGE if held == all => found.push(LARGE_READY.into()),
        number::TOO_LARGE if held == 0 => found.push(LARGE_NOBODY.into()),
        number::TOO_LARGE => found.push(LARGE_MISSING.into()),
        number::NOT_READY if held == 0 => found.push(NOBODY.into()),
        number::NOT_READY if held + 1 == all => found.push(ONE_MISSING.into()),
        number::NOT_READY => {}
        _ if large => found.push(EARLY_LARGE.into()),
        _ if reports < all => found.push(EARLY_MISSING.into()),
        _ => {}
    }
    found
}

/// How many nodes are held after the last block; 0 after a refusal.
fn held(input: &[u8]) -> usize {
    program::reported(input).map_or(0, |reported| mask::count(reported.state[52]) as usize)
}

/// What is to be said of a sheet.
fn sheet_traps(input: &[u8], sheet: &Sheet) -> Vec<String> {
    let Ok(Reported {
        settings,
        state,
        desk,
    }) = program::reported(input)
    else {
        return vec![];
    };
    let settings = settings::parse(&settings).expect("good settings");
    let state = state::decode(&settings, &state).expect("a state");
    let kept = state.kept.as_ref().expect("a kept view");
    let report = |node| desk::report(&settings, &desk, node).expect("a report");
    let counts = sheet.counts();
    let records = |node: &u32| {
        let slot = desk::slot(&desk, *node);
        let last = slot.iter().rposition(|&word| word != 0);
        last.is_some_and(|last| last / 4 + 1 == MOST_RECORDS)
    };
    let subgroups = (0..settings::SUBGROUPS).filter(|&g| !settings.shards_of(g).is_empty());
    let nodes = 0..settings.nodes;
    let is_capped = |shard: u32| settings.cap(shard) > settings.need(shard);
    let named = [
        (WITH_PLAN, counts[0] > 0),
        (WITHOUT_PLAN, counts[0] == 0),
        (WITH_WAIT_3, counts[2] > 0),
        (WITH_WAIT_4, counts[3] > 0),
        (WITH_WAIT_5, counts[4] > 0),
        (
            WITH_ALL,
            counts.iter().filter(|&&c| c > 0).count() == COUNTS,
        ),
        (
            OLDER,
            nodes.clone().any(|node| report(node).view < kept.number),
        ),
        (TERMINATED, state.termination.is_some()),
        (CAPPED, (0..settings.shards).any(is_capped)),
        (TWICE, starts(input).len() - 2 > settings.nodes as usize),
        (NO_MEMBER, kept.members != mask::below(settings.nodes)),
        (SUBGROUPS, subgroups.count() > 1),
        (FULL, nodes.clone().any(|node| records(&node))),
    ];
    let named = named.into_iter().filter(|(_, holds)| *holds);
    let size = format!("a sheet of {} nodes", settings.nodes);
    named.map(|(name, _)| name.into()).chain([size]).collect()
}

/// The way that the input of this index reaches the program.
fn feeding(index: u64) -> Feeding {
    Feeding::ALL[(index % Feeding::ALL.len() as u64) as usize]
}

/// Runs the program on the input of an index.
pub fn compare(program: &Program, seed: u64, index: u64, tally: &mut Tally) -> Result<(), String> {
    let input = input(seed, index);
    same(program, &input, feeding(index), tally)
}

/// Runs the program on a short input, cut at every byte; gives how often.
pub fn compare_cuts(
    program: &Program,
    seed: u64,
    index: u64,
    tally: &mut Tally,
) -> Result<usize, String> {
    let input = short_input(seed, index);
    for end in 0..=input.len() {
        let fed = same(program, &input[..end], Feeding::Pieces(4096), tally);
        fed.map_err(|what| format!("cut at {end}: {what}"))?;
    }
    Ok(input.len() + 1)
}

/// The program prints what the reference prints.
fn same(
    program: &Program,
    input: &[u8],
    feeding: Feeding,
    tally: &mut Tally,
) -> Result<(), String> {
    let sheet = sheet::sheet_of(input);
    let expected = sheet::printed(&sheet);
    let printed = program.must_print(input, feeding, &expected);
    printed.map_err(|what| format!("{what}\ninput {}", hex(input)))?;
    tally.count(input, &sheet);
    Ok(())
}
