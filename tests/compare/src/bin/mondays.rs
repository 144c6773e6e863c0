//! Compares what the program `mondays` prints with what the reference prints:
//! `mondays PROGRAM [SEED [COUNT [FIRST]]]`. Before the files of the seed come
//! the example, reads and writes that fail, and a long file.

use differential::feeding::Program;
use differential::mondays::{self, Tally, JUDGED};
use differential::random;
use std::process::ExitCode;

const COUNT: u64 = 3000;

fn main() -> ExitCode {
    let Some(program) = std::env::args().nth(1) else {
        println!("mondays: name the program to compare");
        return ExitCode::FAILURE;
    };
    let program = Program(vec![program]);
    let argument = |index| std::env::args().nth(index).and_then(|a| a.parse().ok());
    let seed = argument(2).unwrap_or_else(random::clock_seed);
    let count = argument(3).unwrap_or(COUNT);
    let first = argument(4).unwrap_or(0);
    println!("mondays: seed {seed}");

    for (name, test) in mondays::others() {
        if let Err(what) = test(&program) {
            println!("mondays: {name}: {what}");
            return ExitCode::FAILURE;
        }
    }
    let mut tally = Tally::default();
    for index in first..first + count {
        if let Err(what) = mondays::compare(&program, seed, index, &mut tally) {
            println!("mondays: seed {seed}, file {index}: {what}");
            return ExitCode::FAILURE;
        }
    }
    tally.print();
    let rare = tally.rare();
    for what in &rare {
        println!("mondays: {what} is rare: the files are no good");
    }
    let Tally { files, windows, .. } = tally;
    println!("mondays: {files} files with {windows} windows compared, 0 differ");
    if count >= JUDGED && !rare.is_empty() {
        return ExitCode::FAILURE;
    }
    ExitCode::SUCCESS
}
