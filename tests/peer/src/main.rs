//! Compares library, peer and reference: `peer [CALLS [SEED]]`.

use differential::random;
use peer::compare;
use std::process::ExitCode;

fn main() -> ExitCode {
    let number = |index| std::env::args().nth(index).and_then(|a| a.parse().ok());
    let seed = number(2).unwrap_or_else(random::clock_seed);
    compare::run(number(1).unwrap_or(20_000), seed)
}
