//! Looks whether the order in which machines come up is harmless, and whether
//! committed means what it should: `arrivals [SEED [GROUPS [SEQUENCES]]]`, or
//! `arrivals SEED SORT INDEX` for one input again, where SORT is shuffle or
//! sequence.
//!
//! Of GROUPS groups of nodes the reports are given to the planner in many orders;
//! SEQUENCES sequences of calls are made beside a log of what happened.

use differential::arrivals::{Broken, Sort, Tally, Tested, JUDGED};
use differential::calls::Pages;
use differential::{lent, library, random};
use std::process::ExitCode;

const GROUPS: u64 = 4000;
const SEQUENCES: u64 = 3000;

fn main() -> ExitCode {
    let arguments: Vec<String> = std::env::args().skip(1).collect();
    let argument = |index: usize| arguments.get(index).and_then(|text| text.parse().ok());
    let seed = argument(0).unwrap_or_else(random::clock_seed);
    let named = |sort: &Sort| arguments.get(1).is_some_and(|name| name == sort.name());
    let inputs: Vec<(Sort, u64)> = match Sort::ALL.into_iter().find(named) {
        Some(sort) => vec![(sort, argument(2).unwrap_or(0))],
        None => {
            let count = |sort| match sort {
                Sort::Shuffle => argument(1).unwrap_or(GROUPS),
                Sort::Sequence => argument(2).unwrap_or(SEQUENCES),
            };
            let of_sort = |sort| (0..count(sort)).map(move |index| (sort, index));
            Sort::ALL.into_iter().flat_map(of_sort).collect()
        }
    };
    let name = library::tested_name();
    println!("arrivals: seed {seed}, calling {name}");
    lent::watch_ends();

    let mut tally = Tally::default();
    let mut tested = Tested {
        planner: &library::tested_planner(),
        game: library::tested_game(),
        pages: &mut Pages::new(true),
        tally: &mut tally,
    };
    for (sort, index) in inputs {
        lent::at_input(index);
        if let Err(broken) = tested.input(seed, sort, index) {
            print_broken(seed, sort, index, &broken);
            println!("arrivals: {} calls made, 1 promise broken", tally.calls);
            return ExitCode::FAILURE;
        }
    }
    tally.print();
    let rare = tally.rare();
    for what in &rare {
        println!("arrivals: {what}: too rare, the inputs are no good");
    }
    let (calls, groups, sequences) = (tally.calls, tally.groups, tally.sequences);
    println!("arrivals: {calls} calls, {groups} groups in many orders and {sequences} sequences beside a log, 0 promises broken");
    let judged = groups >= JUDGED && sequences >= JUDGED;
    ExitCode::from(u8::from(judged && !rare.is_empty()))
}

fn print_broken(seed: u64, sort: Sort, index: u64, broken: &Broken) {
    let (name, what) = (sort.name(), &broken.what);
    println!("arrivals: seed {seed}, {name} {index}: {what}");
    for line in &broken.story {
        println!("  {line}");
    }
}
