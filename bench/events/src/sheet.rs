//! The program `sheet` after reading, beside as many decisions of the library:
//! ten nodes, and reports of 128 records.
//!
//! - `sheet times PROGRAM [COUNT [RUNS]]`: a table with a row for each kind of
//!   layout, each time the least of so many runs
//! - `sheet kinds`: their names
//! - `sheet blocks KIND INDEX`: an input of a kind
//! - `sheet once KIND INDEX`: makes the decisions once, inside the function
//!   `measured_decides`, for a program that counts instructions

use crate::times::{microseconds, Times};
use differential::library::{self, Planner};
use differential::random::Random;
use reference::desk::DESK_WORDS;
use reference::message::{encode, Contents, Triple, MEMBERS, MOST_RECORDS, RUN, TERMINATION};
use reference::roles::{Role, PLANNER};
use reference::{events, mask, state, words};
use std::fs::File;
use std::io::Write;
use std::path::Path;
use std::process::{Command, ExitCode, Stdio};

const NODES: u32 = 10;
const SETS: usize = 1 << NODES;
const SEED: u64 = 11;
const VIEW: u32 = 1000;
/// The word of a state with the held nodes.
const HELD: usize = 52;
/// A time is the least of so many runs, unless told otherwise.
const RUNS: u64 = 60;

/// A kind of layout: as many members in the kept view, the other nodes report
/// the view before; in each subgroup so many shards, each with this need and cap.
struct Kind {
    name: &'static str,
    members: u32,
    sets: u32,
    subgroups: u32,
    shards: u32,
    need: u32,
    cap: u32,
}

const KINDS: [Kind; 12] = [
    kind("one shard of 3", 10, 5, [1, 1, 3, 0]),
    kind("one shard of 10", 10, 10, [1, 1, 10, 0]),
    kind("4 subgroups, 4 shards of 2", 10, 5, [4, 4, 2, 0]),
    kind("4 subgroups, 3 shards of 3", 10, 5, [4, 3, 3, 0]),
    kind("4 subgroups, 2 shards of 4", 10, 4, [4, 2, 4, 0]),
    kind("4 subgroups, 3 shards of 2 to 16", 10, 10, [4, 3, 2, 16]),
    kind(
        "9 members, 4 subgroups, 3 shards of 2 to 16",
        9,
        3,
        [4, 3, 2, 16],
    ),
    kind("10 shards of 1", 10, 10, [1, 10, 1, 0]),
    kind("3 members, 4 subgroups, 1 shard of 3", 3, 10, [4, 1, 3, 0]),
    kind("3 members, 4 subgroups, 3 shards of 2", 3, 5, [4, 3, 2, 0]),
    kind("1 member, 4 subgroups, 1 shard of 4", 1, 10, [4, 1, 4, 0]),
    kind(
        "1 member, 4 subgroups, 1 shard of 2 to 16",
        1,
        10,
        [4, 1, 2, 16],
    ),
];

const fn kind(name: &'static str, members: u32, sets: u32, rest: [u32; 4]) -> Kind {
    let [subgroups, shards, need, cap] = rest;
    Kind {
        name,
        members,
        sets,
        subgroups,
        shards,
        need,
        cap,
    }
}

/// An input of a kind: every second one has a termination.
struct Layout {
    settings: Vec<u32>,
    messages: Vec<Vec<u32>>,
    state: Vec<u32>,
    desk: Vec<u32>,
}

fn layout(kind: &Kind, index: u64) -> Layout {
    let random = &mut Random::of_input(SEED, index);
    let shards = kind.subgroups * kind.shards;
    let mut settings = vec![NODES, kind.sets, 1, shards];
    let mut of_node: Vec<u32> = (0..NODES).map(|node| node % kind.sets).collect();
    random.shuffle(&mut of_node);
    settings.extend(of_node);
    let word = |shard: u32| kind.cap * 65536 + shard % kind.subgroups * 256 + kind.need;
    settings.extend((0..shards).map(word));
    let masks = old_members(random, kind);
    let messages: Vec<Vec<u32>> = (0..NODES)
        .map(|node| report(random, kind, node, &masks, index % 2 == 1))
        .collect();
    let mut state = state::encode(&state::fresh());
    let mut desk = vec![0; DESK_WORDS];
    for message in &messages {
        let next = events::report(Role::Planner, &settings, &state, &desk, message);
        (state, desk) = next.expect("a good report");
    }
    Layout {
        settings,
        messages,
        state,
        desk,
    }
}

/// In each subgroup the members of the kept view, dealt to its shards.
fn old_members(random: &mut Random, kind: &Kind) -> Vec<u32> {
    let mut masks = vec![0; (kind.subgroups * kind.shards) as usize];
    for subgroup in 0..kind.subgroups {
        let mut nodes: Vec<u32> = (0..kind.members).collect();
        random.shuffle(&mut nodes);
        for (place, node) in (0..).zip(nodes) {
            let shard = subgroup + kind.subgroups * (place % kind.shards);
            masks[shard as usize] |= mask::only(node);
        }
    }
    masks
}

/// A report of 128 records: members of the kept view report it, the others the
/// one before, which had all nodes.
fn report(random: &mut Random, kind: &Kind, node: u32, masks: &[u32], ended: bool) -> Vec<u32> {
    let kept = node < kind.members;
    let (view, members) = match kept {
        true => (VIEW, mask::below(kind.members)),
        false => (VIEW - 1, mask::below(NODES)),
    };
    let shards = masks.len() as u32;
    let mut records = Vec::new();
    for (shard, &own) in (0..).zip(masks) {
        records.push(Triple::new(MEMBERS, shard, own, 0));
    }
    if ended && kept {
        records.extend((0..shards).map(|shard| Triple::new(TERMINATION, shard, view, 1)));
    }
    let room = (MOST_RECORDS - 1 - records.len()) as u32;
    for shard in 0..shards {
        let own = room / shards + u32::from(shard < room % shards);
        for run in 0..own {
            let count = random.between(1, 1000);
            records.push(Triple::new(RUN, shard, view - (own - 1 - run), count));
        }
    }
    encode(&Contents {
        node,
        view,
        members,
        records,
    })
}

/// What the program reads, and at the end a block that is refused, if wanted.
fn blocks(layout: &Layout, refused: bool) -> Vec<u8> {
    let end = vec![0; 6];
    let mut all = vec![&layout.settings];
    all.extend(&layout.messages);
    all.extend(refused.then_some(&end));
    let with_count = |block: &&Vec<u32>| [&[block.len() as u32], block.as_slice()].concat();
    words::to_bytes(&all.iter().flat_map(with_count).collect::<Vec<u32>>())
}

/// A state for each set of held nodes, and what a decision takes beside it.
struct Decides {
    planner: Planner,
    settings: Vec<u8>,
    before: Vec<u8>,
    states: Vec<u8>,
    desk: Vec<u8>,
}

impl Decides {
    fn of(layout: &Layout) -> Decides {
        let state = |held: u32| {
            let mut state = layout.state.clone();
            state[HELD] = held;
            words::to_bytes(&state)
        };
        let before: Vec<u8> = (0..SETS as u32).flat_map(state).collect();
        Decides {
            planner: library::tested_planner(),
            settings: words::to_bytes(&layout.settings),
            states: before.clone(),
            before,
            desk: words::to_bytes(&layout.desk),
        }
    }

    fn restore(&mut self) {
        self.states.copy_from_slice(&self.before);
    }
}

/// A decision with each set of nodes held; how many gave a plan.
#[no_mangle]
#[inline(never)]
fn measured_decides(decides: &mut Decides) -> u32 {
    let Decides {
        planner,
        settings,
        states,
        desk,
        ..
    } = decides;
    let mut plans = 0;
    for state in states.chunks_mut(4 * state::STATE_WORDS) {
        let (held, s, d) = (state.len(), settings.len(), desk.len());
        let (settings, desk) = (settings.as_ptr(), desk.as_mut_ptr());
        // SAFETY: the pointers are to this value's own memory of those lengths.
        let answer =
            unsafe { (planner.decide)(PLANNER, settings, s, state.as_mut_ptr(), held, desk, d) };
        assert!(answer >= library::ACCEPTED, "answer {answer}");
        plans += u32::from(answer < library::WAIT);
    }
    plans
}

/// The microseconds of a run of the program on a file.
fn run_time(program: &str, input: &Path) -> f64 {
    let open = || File::open(input).expect("the input");
    microseconds(|| {
        let mut command = Command::new(program);
        command.stdin(open()).stdout(Stdio::null());
        assert!(command.status().expect("the program runs").success());
    })
}

/// By how much a run with a sheet takes longer than one that is refused after
/// the last report: each the least of some runs, made in turn.
fn sheet_time(program: &str, layout: &Layout, runs: u64) -> f64 {
    let folder = std::env::temp_dir().join(format!("sheet-{}", std::process::id()));
    std::fs::create_dir_all(&folder).expect("a folder");
    let paths = ["whole", "refused"].map(|name| folder.join(name));
    for (path, refused) in paths.iter().zip([false, true]) {
        std::fs::write(path, blocks(layout, refused)).expect("written");
    }
    let mut least = [f64::INFINITY; 2];
    for _ in 0..runs {
        for (time, path) in least.iter_mut().zip(&paths) {
            *time = time.min(run_time(program, path));
        }
    }
    std::fs::remove_dir_all(&folder).expect("removed");
    least[0] - least[1]
}

/// The least time of all decisions, and how many gave a plan.
fn decides_time(layout: &Layout, runs: u64) -> (f64, u32) {
    let mut decides = Decides::of(layout);
    let (mut least, mut plans) = (f64::INFINITY, 0);
    for _ in 0..runs {
        decides.restore();
        least = least.min(microseconds(|| plans = measured_decides(&mut decides)));
    }
    (least, plans)
}

fn print_times(program: &str, count: u64, runs: u64) {
    println!("| layout | plans | sheet, median | worst | 1,024 decisions, median | worst | ratio of medians |");
    println!("|---|---|---|---|---|---|---|");
    for kind in &KINDS {
        let (mut own, mut calls) = (Times::default(), Times::default());
        let mut plans = Vec::new();
        for index in 0..count {
            let layout = layout(kind, index);
            own.add(sheet_time(program, &layout, runs) / 1000.0);
            let (time, found) = decides_time(&layout, runs);
            calls.add(time / 1000.0);
            plans.push(found);
        }
        plans.sort_unstable();
        let (a, b) = (own.median(), calls.median());
        let (worst, calls_worst) = (own.worst(), calls.worst());
        let plans = plans[plans.len() / 2];
        println!(
            "| {} | {plans} | {a:.2} | {worst:.2} | {b:.2} | {calls_worst:.2} | {:.2} |",
            kind.name,
            a / b
        );
    }
}

pub fn run(arguments: &[String]) -> ExitCode {
    let word = |place: usize| arguments.get(place).map(String::as_str).unwrap_or_default();
    let number = |place, default| word(place).parse().unwrap_or(default);
    let chosen = || layout(&KINDS[number(1, 0) as usize % KINDS.len()], number(2, 0));
    match word(0) {
        "times" => print_times(word(1), number(2, 6), number(3, RUNS)),
        "kinds" => KINDS.iter().for_each(|kind| println!("{}", kind.name)),
        "blocks" => {
            let blocks = blocks(&chosen(), false);
            std::io::stdout().write_all(&blocks).expect("written");
        }
        "once" => println!("plans {}", measured_decides(&mut Decides::of(&chosen()))),
        _ => {
            println!("sheet times, kinds, blocks or once");
            return ExitCode::FAILURE;
        }
    }
    ExitCode::SUCCESS
}
