//! Compares the game of outage and crew with the reference, which searches
//! through all plays: `games [SEED [COUNT [FIRST]]]`.
//!
//! COUNT groups of nodes are made, and games of 0 to 3 rounds played over each,
//! of small ones with every mask of held nodes; then calls with something amiss.
//! A group depends on the seed and its index alone, so `games SEED 1 INDEX` makes
//! one again.

use differential::games::{self, Difference, Lends, Tally, JUDGED};
use differential::lent::{self, hex};
use differential::{library, random};
use std::process::ExitCode;

const COUNT: u64 = 5000;

fn main() -> ExitCode {
    let argument = |index| std::env::args().nth(index).and_then(|a| a.parse().ok());
    let seed = argument(1).unwrap_or_else(random::clock_seed);
    let count = argument(2).unwrap_or(COUNT);
    let first = argument(3).unwrap_or(0);
    println!("games: seed {seed}, comparing {}", library::tested_name());
    lent::watch_ends();

    let game = library::tested_game();
    let mut lends = Lends::default();
    let mut tally = Tally::default();
    for index in first..first + count {
        lent::at_input(index);
        let played = games::play(game, &mut lends, seed, index, &mut tally);
        if let Err(difference) = played {
            print_difference(seed, index, &difference);
            println!("games: {} calls compared, 1 differs", tally.calls + 1);
            return ExitCode::FAILURE;
        }
    }
    tally.print();
    let rare = tally.rare();
    for what in &rare {
        println!("games: {what}: too rare, the inputs are no good");
    }
    let (calls, groups) = (tally.calls, tally.groups);
    println!("games: {calls} calls over {groups} groups compared, 0 differ");
    ExitCode::from(u8::from(groups >= JUDGED && !rare.is_empty()))
}

fn print_difference(seed: u64, index: u64, difference: &Difference) {
    let Difference { what, asked } = difference;
    println!("games: seed {seed}, group {index}: {what}");
    let (role, held, rounds) = (asked.role, asked.held, asked.rounds);
    println!("role {role}, held {held}, rounds {rounds}");
    println!("settings {}", hex(&asked.table.settings));
    println!("state {}", hex(&asked.table.state));
    println!("desk {}", hex(&asked.table.desk));
}
