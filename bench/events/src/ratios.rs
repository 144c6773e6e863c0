//! The library beside the peer in C, and both beside what the memory itself
//! takes. All are run in turn, in one process, on the same bytes.

use crate::calls::{Call, Ready, CALLS};
use crate::times::{inputs, microseconds, nodes, Times};
use differential::library::{self, Planner};
use peer::functions;
use peer::inputs::{Input, SHORT, SMALL};
use std::hint::black_box;

/// A time is the least of so many runs, each of several calls.
const RUNS: u32 = 15;

/// The events that the peer does too, decide in both forms.
fn events() -> Vec<(&'static str, Call, Planner)> {
    let mut all = Vec::new();
    for call in Call::EVENTS {
        all.push((call.name(), call, functions::planner()));
        if call == Call::Decide {
            all.push(("decide, the first placement", call, functions::choosing()));
        }
    }
    all
}

/// Least times of one call by each, of one copy of the desk and of one pass
/// over its words.
struct Four([f64; 4]);

/// The times of an event on one input.
fn measured(call: Call, peer: Planner, input: &Input, node: u32) -> Four {
    let mut own = Ready::of(library::tested_planner(), call, input, node);
    let mut other = Ready::of(peer, call, input, node);
    let mut copy = own.desk().to_vec();
    let mut joined = 0;
    let mut least = [f64::INFINITY; 4];
    for _ in 0..RUNS {
        own.restore();
        other.restore();
        let (mut answer, mut peers) = (0, 0);
        let times = [
            microseconds(|| answer = own.make_all()),
            microseconds(|| peers = other.make_all()),
            microseconds(|| each_time(|| black_box(&mut copy).copy_from_slice(own.desk()))),
            microseconds(|| each_time(|| joined |= pass(black_box(own.desk())))),
        ];
        assert!(own.accepted(answer) && answer == peers, "{answer}, {peers}");
        for (least, time) in least.iter_mut().zip(times) {
            *least = least.min(time / CALLS as f64);
        }
    }
    black_box(joined);
    Four(least)
}

fn each_time(mut run: impl FnMut()) {
    (0..CALLS).for_each(|_| run());
}

/// All words joined.
fn pass(desk: &[u8]) -> u32 {
    let words = desk.chunks_exact(4);
    words.fold(0, |all, word| {
        all | u32::from_le_bytes(word.try_into().expect("a word"))
    })
}

/// Medians and ratios of an event over all inputs.
#[derive(Default)]
struct Row {
    /// Of the library, the peer, the copy and the pass.
    medians: [Times; 4],
    /// Library to peer.
    ratio: Times,
}

fn row(call: Call, peer: Planner, inputs: &[Input]) -> Row {
    let mut row = Row::default();
    for input in inputs {
        for node in nodes(call, input) {
            let Four(times) = measured(call, peer, input, node);
            for (median, time) in row.medians.iter_mut().zip(times) {
                median.add(time);
            }
            row.ratio.add(times[0] / times[1]);
        }
    }
    row
}

/// A table with a row for each event, and the rows.
fn table(inputs: &[Input]) -> Vec<(&'static str, Row)> {
    println!("| event | library | peer | library : peer, median | greatest |");
    println!("|---|---|---|---|---|");
    let mut rows = Vec::new();
    for (name, call, peer) in events() {
        let mut row = row(call, peer, inputs);
        let (own, other) = (row.medians[0].median(), row.medians[1].median());
        let (ratio, greatest) = (row.ratio.median(), row.ratio.worst());
        println!("| {name} | {own:.2} | {other:.2} | {ratio:.1} | {greatest:.1} |");
        rows.push((name, row));
    }
    println!();
    rows
}

/// A table of both beside a copy of the desk and a pass over its words.
fn memory_table(rows: &mut [(&str, Row)]) {
    let medians: Vec<_> = rows
        .iter_mut()
        .map(|(name, row)| (*name, row.medians.each_mut().map(Times::median)))
        .collect();
    let least = |index: usize| {
        let of = medians.iter().map(|(_, medians)| medians[index]);
        of.fold(f64::INFINITY, f64::min)
    };
    let (copy, pass) = (least(2), least(3));
    println!("One copy of the desk takes {copy:.2} microseconds, one pass over its words {pass:.2}. In those:\n");
    println!("| event | library : copy | peer : copy | library : pass | peer : pass |");
    println!("|---|---|---|---|---|");
    for (name, [own, other, _, _]) in medians {
        let (a, b) = (own / copy, other / copy);
        let (c, d) = (own / pass, other / pass);
        println!("| {name} | {a:.1} | {b:.1} | {c:.1} | {d:.1} |");
    }
    println!();
}

/// Prints all tables in markdown.
pub fn print(full: &[Input], count: u64) {
    println!("### Beside a peer in C\n");
    println!("The peer (`tests/peer/c`, -O3) does the same events from the same bytes and was written for speed alone;");
    println!("nothing is proved of it. Its decide has two forms: of the placements of least moves and most stays one gives any, the other");
    println!("the first, which is the library's choice. Library and peer are called in turn,");
    println!("{CALLS} calls at a time, each time is the least of {RUNS}, and ratios are taken input by input; microseconds.\n");
    println!("Full: 32 nodes, 16 shards, 128 records in every slot.\n");
    let mut rows = table(full);
    println!("Small: 7 nodes, 3 shards, 111 runs in each report.\n");
    table(&inputs(SMALL, count));
    println!("Short: 7 nodes, 3 shards, 4 runs in each report.\n");
    table(&inputs(SHORT, count));
    println!("Both beside the memory, at full size, where the desk has 65536 bytes.");
    memory_table(&mut rows);
}
