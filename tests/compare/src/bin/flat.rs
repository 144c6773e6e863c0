//! Compares the library's conversions of flat reports with the reference:
//! `flat [SEED [COUNT [FIRST]]]`.
//!
//! Every input depends on the seed and its index alone, so `flat SEED 1 INDEX`
//! makes one input again.

use differential::flat::{self, CALLS, MOST_BYTES};
use differential::lent::{self, hex};
use differential::library::{self, Answer, Library};
use differential::messages::{self, Call, Desk, Input};
use differential::{flat_huge, flat_traps, random, stored};
use std::collections::BTreeMap;
use std::process::ExitCode;

const COUNT: u64 = 20_000;
/// From this many inputs on, every answer and every trap must be common.
const JUDGED: u64 = 10_000;
/// Every answer comes once in so many inputs, and every trap.
const ANSWER_IN: u64 = 1000;
const TRAP_IN: u64 = 4000;
/// Stands for acceptance in the table of answers.
const TAKEN: u32 = 0;
/// The answers of each call.
const TO_OURS: [u32; 12] = [TAKEN, 1, 2, 6, 7, 10, 11, 16, 17, 19, 20, 21];
const TO_FLAT: [u32; 12] = [TAKEN, 1, 2, 5, 6, 7, 8, 9, 10, 11, 16, 17];

#[derive(Default)]
struct Tally {
    answers: BTreeMap<(Call, u32), u64>,
    traps: BTreeMap<&'static str, u64>,
}

fn main() -> ExitCode {
    let argument = |index| std::env::args().nth(index).and_then(|a| a.parse().ok());
    let seed = argument(1).unwrap_or_else(random::clock_seed);
    let count = argument(2).unwrap_or(COUNT);
    let first = argument(3).unwrap_or(0);
    println!("flat: seed {seed}, comparing {}", library::tested_name());
    lent::watch_ends();

    let library = library::tested();
    if let Err(what) = fixed_calls(&library) {
        println!("flat: {what}");
        return ExitCode::FAILURE;
    }
    let mut desk = Desk::new(MOST_BYTES);
    let mut tally = Tally::default();
    for index in first..first + count {
        lent::at_input(index);
        let input = flat::input(seed, index);
        match messages::compare(&library, &mut desk, &input) {
            Ok(answer) => tally.add(&input, answer),
            Err(what) => {
                print_difference(seed, index, &input, &what);
                return ExitCode::FAILURE;
            }
        }
    }
    tally.print();
    let rare = tally.rare(count);
    for what in &rare {
        println!("flat: {what} is rare: the inputs are no good");
    }
    println!("flat: {count} inputs compared, 0 differ");
    if count >= JUDGED && !rare.is_empty() {
        return ExitCode::FAILURE;
    }
    ExitCode::SUCCESS
}

/// Compares the calls that do not depend on the seed.
fn fixed_calls(library: &Library) -> Result<(), String> {
    let stored = stored::play_all(library, "flat")?;
    println!("flat: {stored} stored calls, 0 differ");
    if cfg!(not(feature = "mock")) {
        let huge = flat_huge::play_all(library)?;
        println!("flat: {huge} calls with more than 4 GiB, 0 differ");
    }
    let mut desk = Desk::default();
    let mut small = 0;
    for input in flat::small_inputs() {
        let differs = |what| format!("{what}: given {}", hex(&input.given));
        messages::compare(library, &mut desk, &input).map_err(differs)?;
        small += 1;
    }
    println!("flat: {small} short flat reports, all there are, 0 differ");
    Ok(())
}

impl Tally {
    /// All acceptances are one answer, and so is a number with every index.
    fn add(&mut self, input: &Input, answer: u32) {
        let class = Answer::of(answer).number().unwrap_or(TAKEN);
        *self.answers.entry((input.call, class)).or_default() += 1;
        for name in flat_traps::of(input, answer) {
            *self.traps.entry(name).or_default() += 1;
        }
    }

    fn print(&self) {
        for (&(call, class), times) in &self.answers {
            println!("  {}: {times}", named(call, class));
        }
        for (name, times) in &self.traps {
            println!("  {name}: {times}");
        }
    }

    /// The answers and traps that hardly came.
    fn rare(&self, count: u64) -> Vec<String> {
        let mut rare = Vec::new();
        for call in CALLS {
            let classes = if call == Call::FromFlat {
                TO_OURS
            } else {
                TO_FLAT
            };
            for class in classes {
                let times = self.answers.get(&(call, class)).copied().unwrap_or(0);
                if times * ANSWER_IN < count {
                    rare.push(named(call, class));
                }
            }
        }
        for name in flat_traps::ALL {
            let times = self.traps.get(name).copied().unwrap_or(0);
            if times * TRAP_IN < count {
                rare.push(name.to_string());
            }
        }
        rare
    }
}

fn named(call: Call, class: u32) -> String {
    match class {
        TAKEN => format!("{call:?} accepted"),
        number => format!("{call:?} number {number}"),
    }
}

fn print_difference(seed: u64, index: u64, input: &Input, what: &str) {
    println!("flat: seed {seed}, input {index}: {what}");
    println!(
        "call {:?}, buffer of {} bytes",
        input.call,
        input.buffer.len()
    );
    println!("settings {}", hex(&input.settings));
    println!("given {}", hex(&input.given));
    println!("flat: {} inputs compared, 1 differs", index + 1);
}
