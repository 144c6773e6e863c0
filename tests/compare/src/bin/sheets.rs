//! Compares what the program `sheet` prints with what the reference prints:
//! `sheets PROGRAM [SEED [COUNT [FIRST]]]`. For every thousand inputs a short one
//! is also cut at every byte.

use differential::feeding::Program;
use differential::random;
use differential::sheets::{self, Tally, JUDGED};
use std::process::ExitCode;

const COUNT: u64 = 2000;
/// How many inputs go with one that is cut at every byte.
const INPUTS_FOR_CUTS: u64 = 1000;

fn main() -> ExitCode {
    let Some(program) = std::env::args().nth(1) else {
        println!("sheets: name the program to compare");
        return ExitCode::FAILURE;
    };
    let program = Program(vec![program]);
    let argument = |index| std::env::args().nth(index).and_then(|a| a.parse().ok());
    let seed = argument(2).unwrap_or_else(random::clock_seed);
    let count = argument(3).unwrap_or(COUNT);
    let first = argument(4).unwrap_or(0);
    println!("sheets: seed {seed}");

    let mut tally = Tally::default();
    for index in first..first + count {
        if let Err(what) = sheets::compare(&program, seed, index, &mut tally) {
            println!("sheets: seed {seed}, input {index}: {what}");
            return ExitCode::FAILURE;
        }
    }
    let mut cuts = 0;
    for index in 0..count / INPUTS_FOR_CUTS {
        match sheets::compare_cuts(&program, seed, index, &mut tally) {
            Ok(compared) => cuts += compared,
            Err(what) => {
                println!("sheets: seed {seed}, short input {index}: {what}");
                return ExitCode::FAILURE;
            }
        }
    }
    tally.print();
    let rare = tally.rare();
    for what in &rare {
        println!("sheets: {what} is rare: the inputs are no good");
    }
    let lines = tally.lines;
    println!("sheets: {count} inputs and {cuts} cuts with {lines} lines compared, 0 differ");
    if count >= JUDGED && !rare.is_empty() {
        return ExitCode::FAILURE;
    }
    ExitCode::SUCCESS
}
