//! The peer: the planner's events in C (../c), written for speed alone, and its
//! comparison with the proved planner and the reference.
//!
//! - `functions`: the peer as a table of functions, like the library
//! - `inputs`: restarts of a given size
//! - `kinds`: kinds of layouts of 32 nodes, and restarts of each
//! - `layouts`: restarts that are hard to place
//! - `compare`: the comparison
//!
//! bench/events measures the library beside the peer on the same inputs.

pub mod compare;
pub mod functions;
pub mod inputs;
pub mod kinds;
pub mod layouts;
