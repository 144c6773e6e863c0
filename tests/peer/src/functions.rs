//! The peer in C (../c) as a table of functions, like the library.

use differential::calls::Kind;
use differential::functions::{Arguments, BehindPlanner};
use differential::library::{self, Planner};
use differential::{linked_functions, planner_functions};

planner_functions! { linked_functions linked "peer_" "" }
planner_functions! { linked_functions first "peer_" "_first" }

/// The peer has no pages, no previews and no rounds.
struct Absent;

impl BehindPlanner for Absent {}

/// The first placement of least moves, whatever stays: what the library's rounds
/// lead to.
struct WhateverStays;

impl BehindPlanner for WhateverStays {
    unsafe fn decide(given: &Arguments) -> u32 {
        let within = Arguments {
            number: 128,
            ..*given
        };
        match library::tested_planner().call(Kind::DecideWithin, &within) {
            library::PLAN..library::WAIT => library::PLAN,
            other => other,
        }
    }
}

/// Forms of decide that do not make the library's choice.
pub fn wrong_choices() -> [(&'static str, Planner); 2] {
    let stays = Planner {
        decide: Planner::of::<WhateverStays>().decide,
        ..planner()
    };
    [
        ("any placement of least moves and most stays", planner()),
        ("the first placement of least moves", stays),
    ]
}

/// The peer with the form of decide that gives the first placement.
pub fn choosing() -> Planner {
    Planner {
        decide: first::decide,
        ..planner()
    }
}

/// The peer with the form of decide that gives any placement.
pub fn planner() -> Planner {
    Planner {
        fresh: linked::fresh,
        check_state: linked::check_state,
        report: linked::report,
        drop: linked::drop,
        decide: linked::decide,
        order: linked::order,
        fetched: linked::fetched,
        prepared: linked::prepared,
        ..Planner::of::<Absent>()
    }
}
