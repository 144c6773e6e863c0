//! Compares the library's events with the reference, call by call:
//! `events [SEED [COUNT [FIRST]]]`.
//!
//! First the stored regressions are played, then COUNT random sequences of
//! calls. A sequence depends on the seed and its index alone, so `events SEED 1
//! INDEX` makes one again.

use differential::calls::Pages;
use differential::events::{self, Difference};
use differential::library::{self, Planner};
use differential::tally::{Tally, JUDGED};
use differential::{lent, random, regressions};
use std::ops::Range;
use std::process::ExitCode;

const COUNT: u64 = 2000;

fn main() -> ExitCode {
    let argument = |index| std::env::args().nth(index).and_then(|a| a.parse().ok());
    let seed = argument(1).unwrap_or_else(random::clock_seed);
    let count = argument(2).unwrap_or(COUNT);
    let first = argument(3).unwrap_or(0);
    println!("events: seed {seed}, comparing {}", library::tested_name());
    lent::watch_ends();

    let planner = library::tested_planner();
    let mut pages = Pages::new(true);
    match regressions::play_all(&planner, &mut pages) {
        Ok(played) => println!("events: {played} regressions, 0 differ"),
        Err(what) => {
            println!("events: {what}");
            return ExitCode::FAILURE;
        }
    }
    let Some(tally) = play(&planner, &mut pages, seed, first..first + count) else {
        return ExitCode::FAILURE;
    };
    tally.print();
    let rare = tally.rare();
    for what in &rare {
        println!("events: {what} is rare: the inputs are no good");
    }
    println!("events: {} calls compared, 0 differ", tally.calls);
    if tally.calls >= JUDGED && !rare.is_empty() {
        return ExitCode::FAILURE;
    }
    ExitCode::SUCCESS
}

/// Plays the sequences of these indexes. There is no tally if one differs.
fn play(planner: &Planner, pages: &mut Pages, seed: u64, indexes: Range<u64>) -> Option<Tally> {
    let mut tally = Tally::default();
    for index in indexes {
        lent::at_input(index);
        let sequence = events::sequence(seed, index);
        let seen = |step: &events::Step, outcome: &_| tally.count(step, outcome);
        if let Err(difference) = events::play(planner, pages, sequence, seen) {
            print_difference(seed, index, &difference);
            println!("{}", events::case(planner, pages, seed, index));
            println!("events: {} calls compared, 1 differs", tally.calls + 1);
            return None;
        }
    }
    Some(tally)
}

fn print_difference(seed: u64, index: u64, difference: &Difference) {
    let Difference { step, what, asked } = difference;
    println!("events: seed {seed}, sequence {index}, call {step}: {what}");
    println!("call {}, node {}", asked.kind.name(), asked.node);
    println!("the accepted calls before it, and it, as a text for tests/compare/regressions:");
}
