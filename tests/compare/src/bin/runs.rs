//! Compares what the program `restart` prints with what the reference prints:
//! `runs PROGRAM [SEED [COUNT [FIRST]]]`. For every thousand runs a short input
//! is also cut at every byte.

use differential::lent::hex;
use differential::random;
use differential::runs::{self, Ending};
use std::collections::BTreeMap;
use std::process::ExitCode;

const COUNT: u64 = 20_000;
/// How many runs go with one input that is cut at every byte.
const RUNS_FOR_CUTS: u64 = 1000;
/// From this many runs on, every ending must occur.
const JUDGED: u64 = 3000;

type Endings = BTreeMap<Ending, u64>;

fn main() -> ExitCode {
    let Some(program) = std::env::args().nth(1) else {
        println!("runs: name the program to compare");
        return ExitCode::FAILURE;
    };
    let argument = |index| std::env::args().nth(index).and_then(|a| a.parse().ok());
    let seed = argument(2).unwrap_or_else(random::clock_seed);
    let count = argument(3).unwrap_or(COUNT);
    let first = argument(4).unwrap_or(0);
    println!("runs: seed {seed}");

    let mut endings = Endings::new();
    for index in first..first + count {
        let input = runs::input(seed, index);
        if let Err(what) = compare(&program, &input, &mut endings) {
            println!("runs: seed {seed}, run {index}: {what}");
            return ExitCode::FAILURE;
        }
    }
    let mut cuts = 0;
    for index in 0..count / RUNS_FOR_CUTS {
        let input = runs::short_input(seed, index);
        for end in 0..=input.len() {
            if let Err(what) = compare(&program, &input[..end], &mut endings) {
                println!("runs: seed {seed}, short input {index} cut at {end}: {what}");
                return ExitCode::FAILURE;
            }
            cuts += 1;
        }
    }
    for (ending, times) in &endings {
        println!("  {ending:?}: {times}");
    }
    let missing = missing(&endings);
    for what in &missing {
        println!("runs: {what} never occurred: the inputs are no good");
    }
    println!("runs: {count} runs and {cuts} cuts compared, 0 differ");
    if count >= JUDGED && !missing.is_empty() {
        return ExitCode::FAILURE;
    }
    ExitCode::SUCCESS
}

/// Runs the program on an input, and counts how the run ended.
fn compare(program: &str, input: &[u8], endings: &mut Endings) -> Result<(), String> {
    let printed = runs::printed(program, input)?;
    let ending =
        runs::compare(input, &printed).map_err(|what| format!("{what}\ninput {}", hex(input)))?;
    *endings.entry(ending).or_default() += 1;
    Ok(())
}

/// The endings that must occur and did not.
fn missing(endings: &Endings) -> Vec<String> {
    let numbers = [2, 5, 6, 7, 8, 9, 10, 11, 12, 13, 16, 17, 18].map(Ending::Number);
    let waits = [1, 2, 3, 4, 5].map(Ending::Wait);
    let wanted = numbers.into_iter().chain(waits).chain([Ending::Plan]);
    let missing = wanted.filter(|ending| !endings.contains_key(ending));
    missing.map(|ending| format!("{ending:?}")).collect()
}
