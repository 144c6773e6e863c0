//! The comparison of `mondays` finds programs that are wrong. Each stand-in has
//! one fault (`src/bin/mondays-standin.rs`), which the test that is named beside
//! it, or some file, must show.

use differential::feeding::Program;
use differential::mondays::{self, Tally};

const SEED: u64 = 20_261_116;
const COUNT: u64 = 600;

fn standin(fault: &str) -> Program {
    Program(vec![
        env!("CARGO_BIN_EXE_mondays-standin").into(),
        fault.into(),
    ])
}

/// What a file of the seed shows.
fn shown_by_files(program: &Program) -> Option<String> {
    let mut tally = Tally::default();
    (0..COUNT).find_map(|index| mondays::compare(program, SEED, index, &mut tally).err())
}

/// The first of the other tests that fails.
fn shown_by_others(program: &Program) -> Option<&'static str> {
    let failing = |(_, test): &(&str, mondays::Test)| test(program).is_err();
    mondays::others()
        .into_iter()
        .find(failing)
        .map(|test| test.0)
}

#[test]
fn a_right_program_passes() {
    let right = standin("");
    assert_eq!(shown_by_files(&right), None);
    assert_eq!(shown_by_others(&right), None);
}

#[test]
fn wrong_answers_are_found() {
    for fault in [
        "a window has 63 lines",
        "a window has 65 lines",
        "the greatest never leaves",
        "the greatest of all but the oldest",
        "the sum has 12 bits",
        "25 comes before 24",
        "a repeated number is good",
        "numbers have a sign",
        "128 moves are too many",
        "129 moves are good",
        "the moves are a byte",
        "0 is no number",
        "a part line is left out",
        "goes on after a bad line",
        "windows start anew in each block",
        "each block may start with any number",
        "a short read is taken as it is",
    ] {
        let found = shown_by_files(&standin(fault));
        println!("{fault}: {found:?}");
        assert!(found.is_some(), "{fault}: not found");
    }
}

#[test]
fn wrong_reads_and_writes_are_found() {
    let folder = Some("standard input is a folder");
    let bytes = Some("a read fails after some bytes");
    let signal = Some("a read is interrupted");
    for (fault, by) in [
        ("a failed read is the end", folder),
        ("a failed read is not told", folder),
        ("a failed read prints a number", folder),
        ("a failed read is the end, told", bytes),
        ("a failed read loses the windows before", bytes),
        ("an interrupted read is the end", signal),
        ("an interrupted read fails", signal),
        ("an interrupted read loses its block", signal),
        (
            "a failed write is not told",
            Some("standard output is full"),
        ),
        ("keeps what it has read", Some("memory over a long file")),
    ] {
        assert_eq!(shown_by_others(&standin(fault)), by, "{fault}");
    }
}
