//! Compares the library's settings check, readers and writers, and what it finds
//! of open views, with the reference: `messages [SEED [COUNT [FIRST]]]`.
//!
//! Every input and every question depends on the seed and its index alone, so
//! `messages SEED 1 INDEX` makes one of each again.

use differential::lent::{self, hex};
use differential::library::{self, Answer, Library};
use differential::messages::{self, Call, Desk, Input};
use differential::{open_views, random, stored};
use std::collections::BTreeMap;
use std::process::ExitCode;

const COUNT: u64 = 200_000;
/// From this many inputs on, every answer must be common.
const JUDGED: u64 = 10_000;
/// The numbers that readers, writers and the settings check give.
const NUMBERS: [u32; 11] = [1, 2, 5, 6, 7, 8, 9, 10, 11, 16, 17];
/// Each cause and place of a record comes once in so many inputs.
const RECORD_IN: u64 = 4000;
/// Stands for acceptance in the table of answers.
const TAKEN: u32 = 0;
/// What every reader's refusals with the index of a record come to.
const READ: [&str; 14] = [
    "8 at the head",
    "8 in line",
    "8 behind a gap",
    "9 in line",
    "9 behind a gap",
    "16 in line",
    "16 behind a gap",
    "17 sequence in line",
    "17 sequence behind a gap",
    "17 repeat in line",
    "17 repeat behind a gap",
    "17 missing at the head",
    "17 missing in line",
    "17 missing behind a gap",
];
/// What every writer's come to.
const WRITTEN: [&str; 6] = [
    "9 in line",
    "16 in line",
    "17 sequence in line",
    "17 repeat in line",
    "17 missing at the head",
    "17 missing in line",
];
/// What those of an order come to as well; only a reader has gaps.
const ORDERS: [&str; 4] = [
    "17 surplus in line",
    "17 early in line",
    "17 surplus behind a gap",
    "17 early behind a gap",
];

type Answers = BTreeMap<(Call, u32), u64>;
type Records = BTreeMap<(Call, String), u64>;

fn main() -> ExitCode {
    let argument = |index| std::env::args().nth(index).and_then(|a| a.parse().ok());
    let seed = argument(1).unwrap_or_else(random::clock_seed);
    let count = argument(2).unwrap_or(COUNT);
    let first = argument(3).unwrap_or(0);
    println!(
        "messages: seed {seed}, comparing {}",
        library::tested_name()
    );
    lent::watch_ends();

    let library = library::tested();
    match stored::play_all(&library, "messages") {
        Ok(calls) => println!("messages: {calls} stored calls, 0 differ"),
        Err(what) => {
            println!("messages: {what}");
            return ExitCode::FAILURE;
        }
    }
    let mut rare = match open_views_compared(&library, seed, first, count) {
        Ok(rare) => rare,
        Err(what) => {
            println!("messages: {what}");
            return ExitCode::FAILURE;
        }
    };
    let mut desk = Desk::default();
    let mut answers = Answers::new();
    let mut records = Records::new();
    for index in first..first + count {
        lent::at_input(index);
        let input = messages::input(seed, index);
        match messages::compare(&library, &mut desk, &input) {
            Ok(answer) => {
                *answers.entry((input.call, class(answer))).or_default() += 1;
                if let Some(name) = messages::looked_at(&input, answer) {
                    *records.entry((input.call, name)).or_default() += 1;
                }
            }
            Err(what) => {
                print_difference(seed, index, &input, &what);
                return ExitCode::FAILURE;
            }
        }
    }
    print_answers(&answers, count);
    for ((call, name), times) in &records {
        println!("  {call:?} {name}: {times}");
    }
    rare.extend(rare_answers(&answers, count));
    rare.extend(rare_records(&records, count));
    for what in &rare {
        println!("messages: {what} is rare: the inputs are no good");
    }
    println!("messages: {count} inputs compared, 0 differ");
    if count >= JUDGED && !rare.is_empty() {
        return ExitCode::FAILURE;
    }
    ExitCode::SUCCESS
}

/// Compares what is found of open views; what was rare, or a difference.
fn open_views_compared(
    library: &Library,
    seed: u64,
    first: u64,
    count: u64,
) -> Result<Vec<String>, String> {
    open_views::compare_small(library)?;
    let situations = open_views::compare_random(library, seed, first, count)?;
    for (name, times) in &situations {
        println!("  open view, {name}: {times}");
    }
    let small = open_views::SMALL;
    println!("messages: {small} small and {count} random questions on open views, 0 differ");
    let rare = open_views::rare(&situations, count);
    Ok(rare
        .iter()
        .map(|name| format!("open view, {name}"))
        .collect())
}

/// All acceptances are one class, and so is a number with every index.
fn class(answer: u32) -> u32 {
    Answer::of(answer).number().unwrap_or(TAKEN)
}

/// The causes and places of a record that a call hardly came to.
fn rare_records(records: &Records, count: u64) -> Vec<String> {
    let names = |call| match call {
        Call::CheckSettings | Call::FromFlat | Call::ToFlat => vec![],
        Call::ReadReport => READ.to_vec(),
        Call::ReadOrder => [&READ[..], &ORDERS].concat(),
        Call::WriteReport => WRITTEN.to_vec(),
        Call::WriteOrder => [&WRITTEN[..], &ORDERS[..2]].concat(),
    };
    let mut rare = Vec::new();
    for call in Call::MESSAGES {
        for name in names(call) {
            let times = records.get(&(call, name.to_string()));
            if times.copied().unwrap_or(0) * RECORD_IN < count {
                rare.push(format!("{call:?} {name}"));
            }
        }
    }
    rare
}

fn print_difference(seed: u64, index: u64, input: &Input, what: &str) {
    println!("messages: seed {seed}, input {index}: {what}");
    println!(
        "call {:?}, buffer of {} bytes",
        input.call,
        input.buffer.len()
    );
    println!("settings {}", hex(&input.settings));
    println!("given {}", hex(&input.given));
    println!("messages: {} inputs compared, 1 differs", index + 1);
}

fn print_answers(answers: &Answers, count: u64) {
    for ((call, class), times) in answers {
        let percent = 100.0 * *times as f64 / count as f64;
        let name = match class {
            0 => "accepted".to_string(),
            number => format!("number {number}"),
        };
        println!("  {call:?} {name}: {times} ({percent:.1} %)");
    }
}

/// The answers that fewer than one input in a hundred gave.
fn rare_answers(answers: &Answers, count: u64) -> Vec<String> {
    let times = |wanted: &dyn Fn(Call, u32) -> bool| -> u64 {
        let chosen = answers
            .iter()
            .filter(|((call, class), _)| wanted(*call, *class));
        chosen.map(|(_, times)| times).sum()
    };
    let mut rare = Vec::new();
    for number in NUMBERS {
        if times(&|_, class| class == number) * 100 < count {
            rare.push(format!("number {number}"));
        }
    }
    for call in Call::MESSAGES {
        if times(&|other, class| other == call && class == TAKEN) * 100 < count {
            rare.push(format!("{call:?} accepted"));
        }
    }
    rare
}
