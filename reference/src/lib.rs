//! The unrelated reference implementation of the restart planner.
//!
//! It follows restart-model(7) and restart(7) and shares nothing with the
//! proved planner. It is plain and slow on purpose: the comparison programs
//! trust it because a reader can check it against these pages by eye.
//!
//! The modules, in the order in which data flows:
//! - `number`: the numbers a refusal carries
//! - `mask`: masks of nodes
//! - `words`: words as little-endian bytes
//! - `settings`: the settings
//! - `message`: reading and writing reports and orders
//! - `log`: logs, positions and cuts
//! - `flat`: flat reports, turned into ours and back
//! - `flow`: flow of least cost, for placements
//! - `weights`: placements by weight, where there are many
//! - `placement`: placing held nodes in shards
//! - `order`: the order of placements, and which is the first
//! - `state`, `desk`: what the planner keeps between events
//! - `quorum`: candidates, targets, holders and waits
//! - `soundness`: when a state is sound
//! - `open_view`: what is known of a view that a machine has on disk as open
//! - `roles`: who calls, and what that allows
//! - `events`: report, drop, decide, order, fetched and prepared
//! - `preview`: what decide would say without one node
//! - `rounds`: a plan by improving rounds, and its gap
//! - `page`: what a subgroup's watcher may read
//! - `sheet`: what decide would say with each set of nodes held
//! - `game`: outage against crew, on such a sheet
//! - `program`: what the programs `restart` and `sheet` print
//! - `mondays`: what the program `mondays` prints

#![forbid(unsafe_code)]

#[cfg(test)]
mod cases;
pub mod desk;
pub mod events;
pub mod flat;
pub mod flow;
pub mod game;
pub mod log;
pub mod mask;
pub mod message;
pub mod mondays;
pub mod number;
pub mod open_view;
pub mod order;
pub mod page;
pub mod placement;
pub mod preview;
pub mod program;
pub mod quorum;
pub mod roles;
pub mod rounds;
pub mod settings;
pub mod sheet;
pub mod soundness;
pub mod state;
pub mod weights;
pub mod words;
