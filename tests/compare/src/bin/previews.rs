//! Compares previews with the reference, and with drop and decide of the library
//! itself: `previews [SEED [RESTARTS [LAYOUTS]]]`, or `previews SEED SORT INDEX`
//! for one input again, where SORT is restart, small, large or tight.

use differential::calls::Pages;
use differential::lent::{self, hex};
use differential::previews::{Comparison, Difference, Sort, Tally, JUDGED};
use differential::{library, random};
use std::process::ExitCode;

/// Restarts, and layouts of each sort.
const RESTARTS: u64 = 200;
const LAYOUTS: u64 = 500;

fn main() -> ExitCode {
    let arguments: Vec<String> = std::env::args().skip(1).collect();
    let argument = |index: usize| arguments.get(index).and_then(|text| text.parse().ok());
    let seed = argument(0).unwrap_or_else(random::clock_seed);
    let named = |sort: &Sort| arguments.get(1).is_some_and(|name| name == sort.name());
    let inputs: Vec<(Sort, u64)> = match Sort::ALL.into_iter().find(named) {
        Some(sort) => vec![(sort, argument(2).unwrap_or(0))],
        None => {
            let count = |sort| match sort {
                Sort::Restart => argument(1).unwrap_or(RESTARTS),
                _ => argument(2).unwrap_or(LAYOUTS),
            };
            let of_sort = |sort| (0..count(sort)).map(move |index| (sort, index));
            Sort::ALL.into_iter().flat_map(of_sort).collect()
        }
    };
    println!(
        "previews: seed {seed}, comparing {}",
        library::tested_name()
    );
    lent::watch_ends();

    let mut tally = Tally::default();
    let mut comparison = Comparison {
        planner: &library::tested_planner(),
        pages: &mut Pages::new(true),
        with_reference: true,
        tally: &mut tally,
    };
    for (sort, index) in inputs {
        lent::at_input(index);
        if let Err(difference) = comparison.input(seed, sort, index) {
            print_difference(seed, sort, index, &difference);
            println!("previews: {} calls compared, 1 differs", tally.calls);
            return ExitCode::FAILURE;
        }
    }
    tally.print();
    let rare = tally.rare();
    for what in &rare {
        println!("previews: {what}: too rare, the inputs are no good");
    }
    println!(
        "previews: {} calls compared, {} with drop and decide, {} masks with previews, 0 differ",
        tally.calls, tally.by_events, tally.by_previews
    );
    ExitCode::from(u8::from(tally.calls >= JUDGED && !rare.is_empty()))
}

fn print_difference(seed: u64, sort: Sort, index: u64, difference: &Difference) {
    let Difference { what, asked } = difference;
    println!("previews: seed {seed}, {} {index}: {what}", sort.name());
    let (name, role, node) = (asked.kind.name(), asked.role, asked.node);
    println!("call {name}, role {role}, node {node}");
    println!("settings {}", hex(&asked.table.settings));
    println!("state {}", hex(&asked.table.state));
}
