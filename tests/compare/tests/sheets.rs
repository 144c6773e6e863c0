//! The comparison of `sheet` finds programs that are wrong. Each stand-in has
//! one fault (`src/bin/sheets-standin.rs`), which some input must show.

use differential::feeding::Program;
use differential::sheets::{self, Tally};

const SEED: u64 = 20_261_117;
const COUNT: u64 = 700;

fn standin(fault: &str) -> Program {
    Program(vec![
        env!("CARGO_BIN_EXE_sheets-standin").into(),
        fault.into(),
    ])
}

/// What an input of the seed shows, or one that is cut.
fn shown(program: &Program) -> Option<String> {
    let tally = &mut Tally::default();
    let mut inputs = 0..COUNT;
    let shown = inputs.find_map(|index| sheets::compare(program, SEED, index, tally).err());
    shown.or_else(|| sheets::compare_cuts(program, SEED, 0, tally).err())
}

#[test]
fn a_right_program_passes() {
    assert_eq!(shown(&standin("")), None);
}

#[test]
fn wrong_answers_are_found() {
    for fault in [
        "masks descend",
        "node 0 is the last",
        "the empty set is left out",
        "the full set is left out",
        "by how many are up",
        "the last node is always up",
        "only members of the kept view are held",
        "everyone's log is there",
        "the kept view is that of the held",
        "a termination needs a holder",
        "a termination plays no part",
        "an older view counts as the kept one",
        "a majority of any nodes",
        "half of the members are enough",
        "least size plus one",
        "least size counts members",
        "subgroup 3 is not looked at",
        "wait 3 before 2",
        "wait 4 before 3",
        "wait 5 before 4",
        "the wait's shard or subgroup too",
        "a plan is 1",
        "number first",
        "the full set is not counted",
        "only some lines are counted",
        "wait 1 is counted",
        "plans are counted last",
        "no count of wait 5",
        "no count of 0",
        "counts are bytes",
        "no counts",
        "counts first",
        "says something beside",
    ] {
        let found = shown(&standin(fault));
        assert!(found.is_some(), "{fault}: not found");
    }
}

#[test]
fn wrong_refusals_are_found() {
    for fault in [
        "a block cut short is left out",
        "a block cut short is filled with zeros",
        "a cut count is a block",
        "a short read is the end",
        "missing settings are number 23",
        "22 before the reports are judged",
        "23 before 22",
        "eleven nodes are allowed",
        "ten nodes are too many",
        "nobody has reported: every set waits",
        "a node that has not reported is down",
        "the last node need not report",
        "a second report of a node is left out",
        "a refused report is left out",
        "no index after a number",
    ] {
        let found = shown(&standin(fault));
        assert!(found.is_some(), "{fault}: not found");
    }
}
