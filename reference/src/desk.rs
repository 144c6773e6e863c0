//! The desk: 512 lent words for each node (restart(7), Desk).

use crate::message::{self, Contents, Form};
use crate::settings::{Settings, MOST_NODES};
use crate::words;

/// The words of a node's slot.
pub const SLOT_WORDS: usize = message::MOST_WORDS;
/// The words of the desk.
pub const DESK_WORDS: usize = MOST_NODES as usize * SLOT_WORDS;

/// A node's slot.
pub fn slot(desk: &[u32], node: u32) -> &[u32] {
    let first = node as usize * SLOT_WORDS;
    &desk[first..first + SLOT_WORDS]
}

/// The desk with a message, then zeros, in a node's slot.
pub fn with_message(desk: &[u32], node: u32, message: &[u32]) -> Vec<u32> {
    let mut desk = desk.to_vec();
    let first = node as usize * SLOT_WORDS;
    let slot = words::padded(message, SLOT_WORDS);
    desk[first..first + SLOT_WORDS].copy_from_slice(&slot);
    desk
}

/// The report in a node's slot, if the slot is that node's valid report under
/// rows 5 to 9, 16, 17, 10 and 11. A slot is read as a message of 512 words.
pub fn report(settings: &Settings, desk: &[u32], node: u32) -> Option<Contents> {
    let report = message::read_with(Form::Report, settings, slot(desk, node)).ok()?;
    (report.node == node).then_some(report)
}
