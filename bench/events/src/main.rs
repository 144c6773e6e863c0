//! Measures the planner's calls:
//!
//! - `events-bench times [COUNT]`: median and worst times over COUNT inputs
//! - `events-bench peer [COUNT]`: of those, the library's beside the peer's alone
//! - `events-bench blocks [MORE [INDEX]]`: a full-size input of the program
//!   `restart`, with so many reports more after the last node's
//! - `events-bench stack [COUNT]`: the deepest stack of each call
//! - `events-bench names`: the calls
//! - `events-bench previews [COUNT]`: previews beside decide, for each kind of
//!   layout
//! - `events-bench rounds [COUNT]`: decisions by rounds beside decide, for each
//!   kind of layout
//! - `events-bench kinds`: these kinds
//! - `events-bench once CALL [INDEX [KIND [MORE]]]`: makes one call on a full-size
//!   input, or on one of a kind, whose node INDEX is then previewed, or with
//!   `without` dropped before, or which is decided by MORE rounds, inside the
//!   function `measured`, for a program that counts instructions
//! - `events-bench beside FORM CALL [INDEX [SIZE]]`: makes one call likewise, by the
//!   `library`, the `peer` or the peer that `chooses`, on a `full`, `small` or
//!   `short` input
//! - `events-bench sheet ..`: the program `sheet` beside as many decisions; see
//!   `sheet.rs`

mod calls;
mod previews;
mod ratios;
mod rounds;
mod sheet;
mod stack;
mod times;

use calls::{Call, Ready};
use differential::library;
use peer::{functions, inputs, kinds};
use std::io::Write;
use std::process::ExitCode;

/// What is inside is counted.
#[no_mangle]
#[inline(never)]
pub fn measured(ready: &mut Ready) -> u32 {
    ready.make()
}

fn main() -> ExitCode {
    let argument = |index| std::env::args().nth(index);
    let (mode, second) = (argument(1).unwrap_or_default(), argument(2));
    let number = |default| {
        second
            .as_ref()
            .and_then(|a| a.parse().ok())
            .unwrap_or(default)
    };
    match mode.as_str() {
        "times" => times::print(number(40)),
        "peer" => ratios::print(&times::inputs(inputs::FULL, number(40)), number(40)),
        "blocks" => {
            let index = argument(3).and_then(|a| a.parse().ok()).unwrap_or(0);
            let blocks = inputs::blocks(&inputs::input(inputs::FULL, index), number(0));
            std::io::stdout().write_all(&blocks).expect("written");
        }
        "stack" => stack::print(number(20)),
        "names" => Call::all()
            .iter()
            .for_each(|call| println!("{}", call.name())),
        "once" => {
            let named = |call: &Call| Some(call.name()) == second.as_deref();
            let mut calls = Call::all().into_iter().chain([Call::CheckGathered]);
            let Some(call) = calls.find(named) else {
                println!("no such call");
                return ExitCode::FAILURE;
            };
            let given = |at| argument(at).and_then(|a| a.parse::<u64>().ok());
            let index = given(3).unwrap_or(0);
            let mut ready = match given(4) {
                None => Ready::new(call, &inputs::input(inputs::FULL, index), 0),
                Some(kind) => match given(5) {
                    None => previews::ready(call, kind as usize, index),
                    Some(rounds) => rounds::ready(call, kind as usize, index, rounds as u32),
                },
            };
            if argument(5).as_deref() == Some("without") {
                ready = ready.without_node();
            }
            println!("answer {}", measured(&mut ready));
        }
        "beside" => {
            let planner = match second.as_deref() {
                Some("peer") => functions::planner(),
                Some("chooses") => functions::choosing(),
                _ => library::tested_planner(),
            };
            let size = match argument(5).as_deref() {
                Some("small") => inputs::SMALL,
                Some("short") => inputs::SHORT,
                _ => inputs::FULL,
            };
            let named = |call: &Call| Some(call.name()) == argument(3).as_deref();
            let Some(call) = Call::EVENTS.into_iter().find(named) else {
                println!("no such event");
                return ExitCode::FAILURE;
            };
            let index = argument(4).and_then(|a| a.parse().ok()).unwrap_or(0);
            let mut ready = Ready::of(planner, call, &inputs::input(size, index), 0);
            println!("answer {}", measured(&mut ready));
        }
        "previews" => previews::print(number(40)),
        "rounds" => rounds::print(number(40)),
        "kinds" => kinds::names().iter().for_each(|name| println!("{name}")),
        "sheet" => return sheet::run(&std::env::args().skip(2).collect::<Vec<String>>()),
        _ => {
            println!(
                "times, peer, blocks, stack, names, previews, rounds, kinds, once, beside or sheet"
            );
            return ExitCode::FAILURE;
        }
    }
    ExitCode::SUCCESS
}
