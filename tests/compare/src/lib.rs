//! Comparison of the proved planner with the reference implementation.
//!
//! - `random`: the seeded generator
//! - `lent`: memory lent to the library, with guards around it
//! - `functions`: the library's C functions, each once, as tables
//! - `library`: the library's C interface: what is tested, and its answers
//! - `expected`: what the reference says each call must do
//! - `mock`: a stand-in for the library, made of the reference
//! - `generate`: settings and valid messages of all shapes
//! - `damage`: faults put into them
//! - `records`: what a refusal with a record's index was about
//! - `messages`: the inputs of the `messages` program and their comparison
//! - `flat`: the inputs of the `flat` program, and their round trips
//! - `flat_faults`, `flat_traps`: faults put into flat reports, and what the
//!   inputs came to
//! - `flat_huge`: lengths of more than 4 GiB
//! - `open_views`: questions on open views and their comparison
//! - `stored`: stored calls of the readers, writers and converters
//! - `world`: groups whose nodes report
//! - `sequences`: events that a state's phase takes
//! - `calls`: one call of an event, what the reference says of it, and their
//!   comparison
//! - `unsound`: faults put into states and desks
//! - `events`: the sequences of the `events` program
//! - `situations`, `tally`: what the sequences came to, and how often
//! - `plans`: the cases of the `plans` program, layouts that decide places
//! - `pages`: the inputs of the `pages` program: roles and the pages of subgroups
//! - `games`: the inputs of the `games` program: outage against crew
//! - `pairs`: worlds that agree on a subgroup and differ in the rest
//! - `previews`: the inputs of the `previews` program
//! - `rounds`: the inputs of the `rounds` program
//! - `arrivals`: the inputs of the `arrivals` program: reports in two orders
//! - `commits`: and sequences of calls beside a log of what happened
//! - `regressions`, `recorder`: stored sequences of calls, read and written
//! - `runs`: whole runs of the program `restart`
//! - `moves`: moves files, the inputs of the program `mondays`
//! - `feeding`: ways to give a program its input
//! - `failing`: reads and writes of `mondays` that fail
//! - `mondays`: the comparison of `mondays` with the reference
//! - `sheets`: the inputs of the program `sheet` and their comparison

pub mod arrivals;
pub mod calls;
pub mod commits;
pub mod damage;
pub mod events;
pub mod expected;
pub mod failing;
pub mod feeding;
pub mod flat;
pub mod flat_faults;
pub mod flat_huge;
pub mod flat_traps;
pub mod functions;
pub mod games;
pub mod generate;
pub mod lent;
pub mod library;
pub mod messages;
pub mod mock;
pub mod mondays;
pub mod moves;
pub mod open_views;
pub mod pages;
pub mod pairs;
pub mod plans;
pub mod previews;
pub mod random;
pub mod recorder;
pub mod records;
pub mod regressions;
pub mod rounds;
pub mod runs;
pub mod sequences;
pub mod sheets;
pub mod situations;
pub mod stored;
pub mod tally;
pub mod unsound;
pub mod world;
