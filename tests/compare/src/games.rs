//! The inputs of the `games` program: outage against crew over groups whose
//! nodes have reported, mostly up to ten of them. Settings, state and desk are
//! read-only memory between pages that nobody may touch.

use crate::calls::{Table, DESK_BYTES, STATE_BYTES};
use crate::events::{self, place};
use crate::lent::{Lent, Place};
use crate::library::{Answer, Game, GAME, PASSING};
use crate::pages::ROLES;
use crate::random::Random;
use crate::sequences::{self, Event};
use crate::world::{self, World};
use crate::{damage, generate, unsound};
use reference::game::{self, Board, Winner, MOST_ROUNDS};
use reference::roles::{Role, PLANNER};
use reference::sheet::{self, MOST_NODES};
use reference::{mask, settings, state, words};
use std::collections::BTreeMap;

/// A call.
#[derive(Clone, Debug)]
pub struct Asked {
    /// The word of the caller's role.
    pub role: u32,
    pub table: Table,
    /// The nodes held in place of the state's.
    pub held: u32,
    pub rounds: u32,
}

/// The answer word of a winner.
pub fn word(winner: Winner) -> u32 {
    match winner {
        Winner::Crew => GAME,
        Winner::Outage(first) => GAME + 256 + first.unwrap_or(PASSING),
    }
}

/// A part word makes a length wrong, and so do no words: the reference gets
/// none instead.
fn whole(bytes: &[u8]) -> Vec<u32> {
    words::from_bytes(bytes).unwrap_or_default()
}

/// What the reference says of a call.
pub fn expected(asked: &Asked) -> u32 {
    let [settings, state, desk] =
        [&asked.table.settings, &asked.table.state, &asked.table.desk].map(|bytes| whole(bytes));
    let role = Role::of(asked.role);
    match game::game(role, &settings, &state, &desk, asked.held, asked.rounds) {
        Ok(winner) => word(winner),
        Err(number) => number.0,
    }
}

/// What the game is played on, if the reference plays it.
fn board(table: &Table) -> Option<Board> {
    let [settings, state, desk] = [&table.settings, &table.state, &table.desk].map(|b| whole(b));
    let ready = sheet::ready(Role::Planner, &settings, &state, &desk, |_| true).ok()?;
    Some(Board::of(&ready))
}

/// The memory that a call is lent.
pub struct Lends {
    settings: Lent,
    state: Lent,
    desk: Lent,
}

impl Default for Lends {
    fn default() -> Lends {
        Lends {
            settings: Lent::new(4096),
            state: Lent::new(4096),
            desk: Lent::new(DESK_BYTES + 4096),
        }
    }
}

impl Lends {
    fn all(&mut self) -> [&mut Lent; 3] {
        [&mut self.settings, &mut self.state, &mut self.desk]
    }
}

/// Calls the game, or says what it changed.
pub fn call(
    game: Game,
    lends: &mut Lends,
    asked: &Asked,
    places: [Place; 3],
) -> Result<u32, String> {
    let Table {
        settings,
        state,
        desk,
    } = &asked.table;
    let given = [settings, state, desk];
    for ((lent, bytes), place) in lends.all().into_iter().zip(given).zip(places) {
        lent.put(bytes, place);
        lent.seal();
    }
    let [(settings, s), (state, t), (desk, d)] = lends
        .all()
        .map(|lent| (lent.pointer().cast_const(), lent.length()));
    // SAFETY: the pointers are to lent memory of those lengths.
    let answer = unsafe {
        game(
            asked.role,
            settings,
            s,
            state,
            t,
            desk,
            d,
            asked.held,
            asked.rounds,
        )
    };
    for (lent, bytes) in lends.all().into_iter().zip(given) {
        lent.unseal();
        if !lent.guards_whole() || lent.bytes() != bytes {
            lent.mend();
            return Err("lent bytes were changed".into());
        }
    }
    Ok(answer)
}

/// A call at which game and reference differ.
pub struct Difference {
    pub what: String,
    pub asked: Asked,
}

/// A group whose nodes have reported.
struct Group {
    world: World,
    table: Table,
}

/// Settings of a few nodes.
fn few(random: &mut Random) -> Vec<u32> {
    let nodes = match random.between(0, 199) {
        0..=2 => 10,
        3..=7 => random.between(8, 9),
        8..=17 => random.pick(&[11, 12, 32]),
        _ => random.pick(&[1, 2, 2, 3, 3, 3, 4, 4, 4, 4, 5, 5, 6, 6, 7]),
    };
    let sets = random.between(1, nodes.min(5));
    let shards = random.between(1, nodes.min(4));
    let mut words = vec![nodes, sets, random.between(1, nodes / 2 + 1), shards];
    words.extend((0..nodes).map(|node| match random.chance(70) {
        true => node % sets,
        false => random.between(0, sets - 1),
    }));
    let most = (2 * nodes / shards).clamp(1, sets.min(3));
    for shard in 0..shards {
        let any = random.between(0, 3);
        let subgroup = random.pick(&[shard % 4, any, 2]);
        words.push(subgroup * 256 + random.between(1, most));
    }
    let wide = random.chance(generate::WIDE);
    generate::put_caps(random, wide, &mut words);
    words
}

/// The group of input `index` of a seed.
fn group(random: &mut Random) -> Group {
    let words = few(random);
    let world = world::whole_group(random, words.clone());
    let mut table = sequences::Table::fresh(random, &words);
    let mut nodes: Vec<u32> = (0..world.settings.nodes).collect();
    random.shuffle(&mut nodes);
    let missing = match random.between(0, 99) {
        0..=2 => nodes.len(),
        3..=9 => 1,
        _ => 0,
    };
    for &node in &nodes[missing..] {
        for _ in 0..3 {
            let Some(report) = world.report(random, node) else {
                break;
            };
            let message = generate::message(random, &report);
            if let Ok((next, _)) = table.after(&Event::Report(message)) {
                table = next;
                break;
            }
        }
    }
    for node in 0..world.settings.nodes {
        if random.chance(40) {
            if let Ok((next, _)) = table.after(&Event::Drop(node)) {
                table = next;
            }
        }
    }
    if random.chance(15) {
        if let Ok((next, _)) = table.after(&Event::Decide) {
            table = next;
        }
    }
    Group {
        world,
        table: Table {
            settings: words::to_bytes(&table.settings),
            state: words::to_bytes(&table.state),
            desk: words::to_bytes(&table.desk),
        },
    }
}

/// A mask of held nodes: often all, or all but one.
fn any_mask(random: &mut Random, nodes: u32) -> u32 {
    let all = mask::below(nodes);
    match random.between(0, 9) {
        0 | 1 => all,
        2 | 3 => all & !mask::only(random.between(0, nodes - 1)),
        4 => 0,
        5 => {
            all & !mask::only(random.between(0, nodes - 1))
                & !mask::only(random.between(0, nodes - 1))
        }
        _ => random.word() & all,
    }
}

/// Puts a fault into a call and names it.
fn fault(random: &mut Random, world: &World, asked: &mut Asked) -> &'static str {
    let nodes = world.settings.nodes;
    let table = &mut asked.table;
    match random.between(0, 99) {
        0..=9 => {
            asked.rounds = random.pick(&[4, 5, 6, 255, 256, 1 << 31, u32::MAX]);
            "rounds"
        }
        10..=21 if nodes < 32 => {
            let above = random.between(nodes, 31);
            let first = nodes.min(MOST_NODES);
            asked.held |= mask::only(random.pick(&[nodes, nodes, above, first, 31]));
            "held mask"
        }
        22..=31 => {
            asked.role = random.pick(&ROLES);
            "role"
        }
        32..=37 => events::length(random, &mut table.desk, "desk's length"),
        38..=43 => events::length(random, &mut table.state, "state's length"),
        44..=49 => events::length(random, &mut table.settings, "settings' length"),
        50..=55 => events::in_words(&mut table.settings, |words| {
            if settings::parse(words).is_ok() {
                damage::settings(random, words);
            }
            "settings"
        }),
        56..=65 => events::in_words(&mut table.state, |words| match words.len() {
            words_here if words_here == STATE_BYTES / 4 => {
                unsound::state(random, &world.settings, words)
            }
            _ => "state's length",
        }),
        66..=70 if table.state.len() == STATE_BYTES => {
            // The kept view goes, and with it all that rests on it.
            table.state = words::to_bytes(&state::encode(&state::fresh()));
            "fresh state"
        }
        _ => events::in_words(&mut table.desk, |words| match words.len() {
            words_here if words_here == DESK_BYTES / 4 => {
                let all = mask::below(nodes);
                unsound::desk(random, world, all, words)
            }
            _ => "desk's length",
        }),
    }
}

/// Compares a call with what is expected of it, and counts it.
fn compare(
    game: Game,
    lends: &mut Lends,
    random: &mut Random,
    asked: &Asked,
    wanted: u32,
    tally: &mut Tally,
) -> Result<Answer, Box<Difference>> {
    let different = |what: String| {
        let asked = asked.clone();
        Box::new(Difference { what, asked })
    };
    let places = [(); 3].map(|()| place(random));
    let answer = call(game, lends, asked, places).map_err(different)?;
    if answer != wanted {
        return Err(different(format!(
            "the answer is {}, the reference says {}",
            Answer::of(answer),
            Answer::of(wanted)
        )));
    }
    let answer = Answer::of(answer);
    tally.count(asked, answer);
    Ok(answer)
}

/// Plays the games of group `index` of a seed to the first difference.
pub fn play(
    game: Game,
    lends: &mut Lends,
    seed: u64,
    index: u64,
    tally: &mut Tally,
) -> Result<(), Box<Difference>> {
    let random = &mut Random::of_input(seed, index);
    let Group { world, table } = group(random);
    let nodes = world.settings.nodes;
    let asked = |held: u32, rounds: u32| Asked {
        role: PLANNER,
        table: table.clone(),
        held,
        rounds,
    };
    tally.groups += 1;
    let board = board(&table);
    if let Some(board) = &board {
        tally.board(board, &table);
        let every = nodes <= 4 || nodes <= 6 && index.is_multiple_of(16);
        let masks: Vec<u32> = match every {
            true => (0..=mask::below(nodes)).collect(),
            false => (0..4).map(|_| any_mask(random, nodes)).collect(),
        };
        for held in masks {
            let mut answers = Vec::new();
            for rounds in 0..=MOST_ROUNDS {
                let wanted = word(board.winner(held, rounds));
                let asked = asked(held, rounds);
                answers.push(compare(game, lends, random, &asked, wanted, tally)?);
            }
            tally.rounds(board, held, &answers);
        }
    }
    for round in 0..4 {
        let mut asked = asked(any_mask(random, nodes), random.between(0, MOST_ROUNDS));
        let mut faults = Vec::new();
        for _ in 0..random.pick(&[0, 1, 1, 1, 2]) {
            faults.push(fault(random, &world, &mut asked));
        }
        // Where there are many masks the reference takes its time.
        if nodes > 7 && nodes <= MOST_NODES && board.is_some() && (faults.is_empty() || round > 1) {
            continue;
        }
        let answer = compare(game, lends, random, &asked, expected(&asked), tally)?;
        tally.faults(&faults, answer);
    }
    Ok(())
}

/// Counts of what the games came to.
#[derive(Default)]
pub struct Tally {
    pub groups: u64,
    pub calls: u64,
    counts: BTreeMap<String, u64>,
}

/// From this many groups on, rare situations are a failure.
pub const JUDGED: u64 = 2000;
/// What must be found among a thousand groups at least, and how often.
const WANTED: [(&str, u64); 33] = [
    ("number 1", 20),
    ("number 2", 20),
    ("number 15", 20),
    ("number 3", 50),
    ("number 4", 20),
    ("number 22", 100),
    ("number 23", 100),
    ("a group of 10 nodes", 3),
    ("a group with a termination", 100),
    ("a group with a stale node", 50),
    ("a group with masks for both sides", 200),
    ("no rounds", 1000),
    ("the crew in 1 round", 500),
    ("the crew in 2 rounds", 200),
    ("the crew in 3 rounds", 200),
    ("the outage in 1 round", 500),
    ("the outage in 2 rounds", 500),
    ("the outage in 3 rounds", 500),
    ("the outage by passing", 100),
    ("the outage by node 0", 300),
    ("the outage by another node", 300),
    ("a first node that changes with the rounds", 20),
    ("the crew for 1 round and no longer", 50),
    ("the crew though the start has no plan", 50),
    ("the outage though the start has a plan", 100),
    ("a move that wins, and a lower one that does not", 50),
    ("desk's fault: number 23", 20),
    ("desk's fault: number 3", 20),
    ("desk's fault: played", 20),
    ("rounds: number 22", 20),
    ("held mask: number 22", 20),
    ("role: number 15", 20),
    ("fresh state: number 23", 10),
];

impl Tally {
    fn put(&mut self, holds: bool, name: &str) {
        if holds {
            *self.counts.entry(name.into()).or_default() += 1;
        }
    }

    fn count(&mut self, asked: &Asked, answer: Answer) {
        self.calls += 1;
        let many = match asked.rounds {
            1 => "1 round".to_string(),
            rounds => format!("{rounds} rounds"),
        };
        match answer {
            Answer::Crew if asked.rounds == 0 => self.put(true, "no rounds"),
            Answer::Crew => self.put(true, &format!("the crew in {many}")),
            Answer::Outage(first) => {
                self.put(true, &format!("the outage in {many}"));
                self.put(first == PASSING, "the outage by passing");
                self.put(first == 0, "the outage by node 0");
                let other = first != 0 && first != PASSING;
                self.put(other, "the outage by another node");
            }
            _ => self.put(true, &answer.to_string()),
        }
    }

    /// What a board has.
    fn board(&mut self, board: &Board, table: &Table) {
        self.put(board.nodes == MOST_NODES, "a group of 10 nodes");
        let state = words::whole_words(&table.state);
        self.put(state[3] == 1, "a group with a termination");
        let desk = words::whole_words(&table.desk);
        let stale = (0..board.nodes as usize).any(|node| desk[512 * node + 1] < state[1]);
        self.put(stale, "a group with a stale node");
        let plans = board.plans.iter().filter(|&&plan| plan).count();
        let both = plans > 0 && plans + 1 < board.plans.len();
        self.put(both, "a group with masks for both sides");
    }

    /// What the games of 0 to 3 rounds with one mask have.
    fn rounds(&mut self, board: &Board, held: u32, answers: &[Answer]) {
        let crew = |rounds: usize| answers[rounds] == Answer::Crew;
        self.put(crew(1) && !crew(2), "the crew for 1 round and no longer");
        self.put(
            !crew(1) && !crew(3) && answers[1] != answers[3],
            "a first node that changes with the rounds",
        );
        let start = board.plan(held);
        self.put(!start && crew(1), "the crew though the start has no plan");
        self.put(start && !crew(1), "the outage though the start has a plan");
        if let Answer::Outage(first) = answers[1] {
            let lower = first != PASSING && held & (mask::only(first) - 1) != 0;
            self.put(lower, "a move that wins, and a lower one that does not");
        }
    }

    fn faults(&mut self, faults: &[&'static str], answer: Answer) {
        if let [fault] = faults {
            let fault = match fault.starts_with("slot") {
                true => "desk's fault",
                false => fault,
            };
            let came = match answer {
                Answer::Crew | Answer::Outage(_) => "played".to_string(),
                _ => answer.to_string(),
            };
            self.put(true, &format!("{fault}: {came}"));
        }
    }

    /// Prints all counts.
    pub fn print(&self) {
        for (name, times) in &self.counts {
            println!("  {name}: {times}");
        }
    }

    /// What is too rare for the games to show much.
    pub fn rare(&self) -> Vec<&'static str> {
        let times = |name: &str| self.counts.get(name).copied().unwrap_or(0);
        let rare = WANTED
            .iter()
            .filter(|(name, least)| times(name) * 1000 < self.groups * least);
        rare.map(|&(name, _)| name).collect()
    }
}
