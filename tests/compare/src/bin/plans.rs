//! Compares the library's plans with the first of least moves and then most
//! stays, mask for mask: `plans [SEED [SMALL [LARGE]]]`.
//!
//! SMALL plans of up to 9 nodes are compared with the search through all
//! placements, LARGE ones of up to 32 nodes and 16 shards with the greedy
//! method over the flow; waits and refusals come in addition. A case depends on
//! the seed, its size and its index alone, so `plans SEED small INDEX` and
//! `plans SEED large INDEX` make one again.

use differential::calls::Pages;
use differential::lent::{self, hex};
use differential::library::{self, Planner};
use differential::plans::{self, Size, Tally};
use differential::random;
use std::process::ExitCode;

const SMALL: u64 = 20_000;
const LARGE: u64 = 5_000;
/// From this many plans on, rare situations are a failure.
const JUDGED: u64 = 1000;

fn main() -> ExitCode {
    let argument = |index| std::env::args().nth(index);
    let number = |index| argument(index).and_then(|a| a.parse::<u64>().ok());
    let seed = number(1).unwrap_or_else(random::clock_seed);
    println!("plans: seed {seed}, comparing {}", library::tested_name());
    lent::watch_ends();
    let planner = library::tested_planner();
    let mut pages = Pages::new(true);

    for size in [Size::Small, Size::Large] {
        if argument(2).is_some_and(|named| named == size.name()) {
            let (index, mut tally) = (number(3).unwrap_or(0), Tally::default());
            let same = compare(&planner, &mut pages, seed, size, index, &mut tally);
            tally.print(size);
            return ExitCode::from(u8::from(!same));
        }
    }
    let counts = [
        (Size::Small, number(2).unwrap_or(SMALL)),
        (Size::Large, number(3).unwrap_or(LARGE)),
    ];
    let mut good = true;
    for (size, count) in counts {
        let Some(tally) = compare_all(&planner, &mut pages, seed, size, count) else {
            return ExitCode::FAILURE;
        };
        tally.print(size);
        for what in tally.rare(size) {
            println!(
                "plans: {}: {what}: too rare, the cases are no good",
                size.name()
            );
            good &= count < JUDGED;
        }
        println!(
            "plans: {} {} plans compared, 0 differ",
            tally.plans,
            size.name()
        );
    }
    ExitCode::from(u8::from(!good))
}

/// Compares until there have been `count` plans. There is no tally if one
/// differs, or if plans are rare.
fn compare_all(
    planner: &Planner,
    pages: &mut Pages,
    seed: u64,
    size: Size,
    count: u64,
) -> Option<Tally> {
    let mut tally = Tally::default();
    for index in 0..2 * count {
        if tally.plans < count && !compare(planner, pages, seed, size, index, &mut tally) {
            return None;
        }
    }
    if tally.plans == count {
        return Some(tally);
    }
    println!(
        "plans: of {} {} cases only {} gave a plan",
        tally.cases,
        size.name(),
        tally.plans
    );
    None
}

fn compare(
    planner: &Planner,
    pages: &mut Pages,
    seed: u64,
    size: Size,
    index: u64,
    tally: &mut Tally,
) -> bool {
    lent::at_input(index);
    let case = plans::case(seed, size, index);
    match plans::compare(planner, pages, &case) {
        Ok(compared) => {
            tally.count(&case, &compared);
            true
        }
        Err(what) => {
            println!("plans: seed {seed}, {} case {index}: {what}", size.name());
            println!("settings {}", hex(&case.asked.table.settings));
            println!("state {}", hex(&case.asked.table.state));
            println!("fault in {:?}; 1 differs", case.fault);
            false
        }
    }
}
