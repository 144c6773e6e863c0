//! Decisions by improving rounds beside decide, for the kinds of layouts that
//! previews are measured on.

use crate::calls::{Call, Ready};
use crate::times::{library_time, Times};
use peer::kinds::{input, names};

/// The numbers of rounds that are measured.
const ROUNDS: [u32; 5] = [0, 1, 8, 32, 128];

/// A call on input `index` of a kind, with so many rounds.
pub fn ready(call: Call, kind: usize, index: u64, rounds: u32) -> Ready {
    Ready::new(call, &input(kind, index), rounds)
}

/// Prints a table of medians with a row for each kind, and the greatest ratios to
/// decide of no rounds and of all.
pub fn print(count: u64) {
    let each = ROUNDS.map(|rounds| format!("{rounds} rounds | "));
    println!(
        "| layout | decide | {}0, greatest ratio | 128, greatest ratio |",
        each.concat()
    );
    println!("|---|---|---|---|---|---|---|---|---|");
    for (kind, name) in names().iter().enumerate() {
        let mut decide = Times::default();
        let mut within = ROUNDS.map(|_| Times::default());
        let mut ratios = ROUNDS.map(|_| Times::default());
        for index in 0..count {
            let own = library_time(&mut ready(Call::Decide, kind, index, 0));
            decide.add(own);
            for (at, rounds) in ROUNDS.into_iter().enumerate() {
                let taken = library_time(&mut ready(Call::DecideWithin, kind, index, rounds));
                within[at].add(taken);
                ratios[at].add(taken / own);
            }
        }
        let medians: Vec<String> = within
            .iter_mut()
            .map(|own| format!("{:.1}", own.median()))
            .collect();
        println!(
            "| {name} | {:.1} | {} | {:.2} | {:.2} |",
            decide.median(),
            medians.join(" | "),
            ratios[0].worst(),
            ratios[ROUNDS.len() - 1].worst()
        );
    }
}
