//! Median and worst time of each call, beside the reference's.

use crate::calls::{by_reference, Call, Ready};
use crate::ratios;
use peer::inputs::{input, Input, Size, FULL};
use reference::settings::SUBGROUPS;
use std::time::Instant;

/// A time is the least of so many runs of the same call.
const RUNS: u32 = 15;
const REFERENCE_RUNS: u32 = 5;

/// Times in microseconds.
#[derive(Default)]
pub struct Times(Vec<f64>);

impl Times {
    pub fn add(&mut self, time: f64) {
        self.0.push(time);
    }

    pub fn median(&mut self) -> f64 {
        self.0.sort_by(f64::total_cmp);
        self.0[self.0.len() / 2]
    }

    pub fn worst(&self) -> f64 {
        self.0.iter().copied().fold(0.0, f64::max)
    }
}

/// The least of some runs: what another process took away is not counted.
pub fn least_of(runs: u32, mut run: impl FnMut() -> f64) -> f64 {
    (0..runs).map(|_| run()).fold(f64::INFINITY, f64::min)
}

pub fn microseconds(run: impl FnOnce()) -> f64 {
    let from = Instant::now();
    run();
    from.elapsed().as_secs_f64() * 1e6
}

pub fn library_time(ready: &mut Ready) -> f64 {
    least_of(RUNS, || {
        ready.restore();
        let mut answer = 0;
        let time = microseconds(|| answer = ready.make());
        assert!(ready.accepted(answer), "answer {answer}");
        time
    })
}

/// Some nodes of an input, the first and the last among them; one for a call
/// that takes no node, and for a page the subgroups.
pub fn nodes(call: Call, input: &Input) -> Vec<u32> {
    let last = input.nodes - 1;
    match call {
        Call::Decide | Call::PreviewAll => vec![0],
        Call::Page => (0..SUBGROUPS).collect(),
        _ => vec![0, last / 3, last / 2, last],
    }
}

fn measure(call: Call, inputs: &[Input]) -> Times {
    each(call, inputs, |input, node| {
        library_time(&mut Ready::new(call, input, node))
    })
}

fn measure_reference(call: Call, inputs: &[Input]) -> Times {
    each(call, inputs, |input, node| {
        least_of(REFERENCE_RUNS, || {
            microseconds(|| by_reference(call, input, node))
        })
    })
}

fn each(call: Call, inputs: &[Input], mut time: impl FnMut(&Input, u32) -> f64) -> Times {
    let mut times = Times::default();
    for input in inputs {
        let nodes = nodes(call, input).into_iter();
        times.0.extend(nodes.map(|node| time(input, node)));
    }
    times
}

/// A table with a row for each call. Gives each call's median and the
/// reference's.
fn calls_table(calls: &[Call], inputs: &[Input]) -> Vec<(Call, f64, f64)> {
    let mut medians = Vec::new();
    println!("| call | median | worst | reference, median | worst | ratio of medians |");
    println!("|---|---|---|---|---|---|");
    for &call in calls {
        let mut own = measure(call, inputs);
        let mut other = measure_reference(call, inputs);
        let (a, b) = (own.median(), other.median());
        let (worst, other_worst) = (own.worst(), other.worst());
        println!(
            "| {} | {a:.1} | {worst:.1} | {b:.1} | {other_worst:.1} | {:.2} |",
            call.name(),
            a / b
        );
        medians.push((call, a, b));
    }
    medians
}

/// A table with a row for each size and a column of medians for each event.
fn sizes_table(heading: &str, sizes: &[(u32, Size)], count: u64) {
    let names: Vec<&str> = Call::EVENTS.map(Call::name).to_vec();
    println!("| {heading} | {} |", names.join(" | "));
    println!("|---|{}", "---|".repeat(names.len()));
    for &(value, size) in sizes {
        let inputs = inputs(size, count);
        let medians = Call::EVENTS.map(|call| format!("{:.1}", measure(call, &inputs).median()));
        println!("| {value} | {} |", medians.join(" | "));
    }
}

pub fn inputs(size: Size, count: u64) -> Vec<Input> {
    (0..count).map(|index| input(size, index)).collect()
}

/// The milliseconds of a whole restart of 32 nodes and the reference's: all
/// reports, decide, and for each node its order, fetched and prepared.
fn whole_restart(medians: &[(Call, f64, f64)]) -> (f64, f64) {
    let (mut own, mut reference) = (0.0, 0.0);
    for &(call, a, b) in medians {
        let times = match call {
            Call::CheckState | Call::Drop => 0.0,
            Call::Decide => 1.0,
            _ => f64::from(FULL.nodes),
        };
        own += times * a;
        reference += times * b;
    }
    (own / 1000.0, reference / 1000.0)
}

/// Prints all tables in markdown.
pub fn print(count: u64) {
    let full = inputs(FULL, count);
    println!("### Events at full size\n");
    println!("32 nodes, 16 shards in four subgroups, 128 records in every slot; microseconds.\n");
    let medians = calls_table(&Call::EVENTS, &full);
    let (own, reference) = whole_restart(&medians);
    println!("\nA whole restart (32 reports, decide, 32 orders, 32 fetched, 32 prepared): {own:.2} ms, the reference {reference:.1} ms.\n");
    ratios::print(&full, count);
    println!("### Previews at full size\n");
    println!("While gathering, of some nodes and of all; microseconds.\n");
    calls_table(&Call::PREVIEWS, &full);
    println!("\n### Pages at full size\n");
    println!("While gathering, each of the four subgroups; microseconds.\n");
    calls_table(&[Call::Page], &full);
    println!("\n### Settings and messages at full size\n");
    println!("A report of 128 records, the order of a node; microseconds.\n");
    calls_table(&Call::MESSAGES, &full);
    println!("\n### Growth\n\nMedians in microseconds.\n");
    let of_nodes = |nodes: u32, shards| Size {
        nodes,
        shards,
        ..FULL
    };
    let sizes = [(7, of_nodes(7, 3)), (16, of_nodes(16, 8)), (32, FULL)];
    sizes_table("nodes (3, 8, 16 shards)", &sizes, count);
    println!();
    let sizes = [1, 2, 4, 8, 12, 16].map(|shards| (shards, Size { shards, ..FULL }));
    sizes_table("shards (32 nodes)", &sizes, count);
    println!();
    let sizes = [0, 16, 48, 80, 111].map(|runs| (runs, Size { runs, ..FULL }));
    sizes_table("runs in each report (32 nodes, 16 shards)", &sizes, count);
}
