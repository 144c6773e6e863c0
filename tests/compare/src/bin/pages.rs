//! Compares calls in every kind of role, and the pages of subgroups, with the
//! reference: `pages [SEED [COUNT [FIRST]]]`.
//!
//! COUNT restarts are played, and every call is made with more than a thousand
//! words as role on what the first ends with. A restart depends on the seed and its index alone,
//! so `pages SEED 1 INDEX` makes one again.

use differential::calls::{Asked, Pages};
use differential::lent::{self, hex};
use differential::pages::{self, Difference, Tally, JUDGED};
use differential::{library, random};
use std::process::ExitCode;

const COUNT: u64 = 200;

fn main() -> ExitCode {
    let argument = |index| std::env::args().nth(index).and_then(|a| a.parse().ok());
    let seed = argument(1).unwrap_or_else(random::clock_seed);
    let count = argument(2).unwrap_or(COUNT);
    let first = argument(3).unwrap_or(0);
    println!("pages: seed {seed}, comparing {}", library::tested_name());
    lent::watch_ends();

    let planner = library::tested_planner();
    let mut lent_pages = Pages::new(true);
    let mut tally = Tally::default();
    for index in first..first + count {
        lent::at_input(index);
        let mut played = pages::play(&planner, &mut lent_pages, seed, index, &mut tally);
        if index == first && played.is_ok() {
            played = pages::every_word(&planner, &mut lent_pages, seed, index, &mut tally);
        }
        if let Err(difference) = played {
            print_difference(seed, index, &difference);
            println!("pages: {} calls compared, 1 differs", tally.calls + 1);
            return ExitCode::FAILURE;
        }
    }
    tally.print();
    let rare = tally.rare();
    for what in &rare {
        println!("pages: {what}: too rare, the inputs are no good");
    }
    println!(
        "pages: {} calls compared, {} of them pages, and {} pairs of worlds, 0 differ",
        tally.calls, tally.pages, tally.pairs
    );
    ExitCode::from(u8::from(tally.pages >= JUDGED && !rare.is_empty()))
}

fn print_difference(seed: u64, index: u64, difference: &Difference) {
    let Difference { what, asked, other } = difference;
    println!("pages: seed {seed}, restart {index}: {what}");
    print_call(asked);
    if let Some(other) = other {
        println!("and in the other world:");
        print_call(other);
    }
}

fn print_call(asked: &Asked) {
    let (name, role, node) = (asked.kind.name(), asked.role, asked.node);
    println!("call {name}, role {role}, node or subgroup {node}");
    println!("settings {}", hex(&asked.table.settings));
    println!("state {}", hex(&asked.table.state));
}
