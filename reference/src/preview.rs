//! What decide would say without one held node (restart(3), Previews), and
//! the nodes whose loss means waiting.

use crate::events::{self, open, Decision};
use crate::mask;
use crate::message;
use crate::number::{self, refuse_if, Number};
use crate::order::{self, Choice};
use crate::roles::Role;
use crate::state::{Phase, State};
use crate::words;

/// The preview of a held node: state and desk are copied, the node is dropped in
/// the copy and there it is decided. Gives what decide says, and the copy's state
/// after it.
pub fn preview(
    role: Role,
    settings: &[u32],
    state: &[u32],
    desk: &[u32],
    node: u32,
) -> Result<(Decision, Vec<u32>), Number> {
    preview_by(order::greedy, role, settings, state, desk, node)
}

/// The same, where `choice` finds each subgroup's placement.
pub fn preview_by(
    choice: Choice,
    role: Role,
    settings: &[u32],
    state: &[u32],
    desk: &[u32],
    node: u32,
) -> Result<(Decision, Vec<u32>), Number> {
    gathering(role, settings, state, desk)?;
    let (copy, desk) = (state.to_vec(), desk.to_vec());
    let copy = events::drop_node(role, settings, &copy, &desk, node)?;
    events::decide_by(choice, role, settings, &copy, &desk)
}

/// The mask of the held nodes whose loss means waiting, for whatever reason.
pub fn losses(role: Role, settings: &[u32], state: &[u32], desk: &[u32]) -> Result<u32, Number> {
    losses_by(order::greedy, role, settings, state, desk)
}

/// The same, where `choice` finds each subgroup's placement. Only whether there
/// is one matters.
pub fn losses_by(
    choice: Choice,
    role: Role,
    settings: &[u32],
    state: &[u32],
    desk: &[u32],
) -> Result<u32, Number> {
    let held = gathering(role, settings, state, desk)?.held;
    let mut lost = 0;
    for node in mask::nodes(held) {
        match preview_by(choice, role, settings, state, desk, node)? {
            (Decision::Plan, _) => {}
            (Decision::Wait(_), _) => lost |= mask::only(node),
        }
    }
    Ok(lost)
}

/// A preview, and what stands in a buffer of this many words after it: the
/// copy's state, then zeros.
pub fn preview_into(
    role: Role,
    settings: &[u32],
    state: &[u32],
    desk: &[u32],
    node: u32,
    buffer_words: usize,
) -> Result<(Decision, Vec<u32>), Number> {
    refuse_if(buffer_words != message::MOST_WORDS, number::LENT_LENGTH)?;
    let (decision, copy) = preview(role, settings, state, desk, node)?;
    Ok((decision, words::padded(&copy, buffer_words)))
}

/// What stands in a buffer of this many words after the mask was asked for: the
/// mask, then zeros.
pub fn losses_into(
    role: Role,
    settings: &[u32],
    state: &[u32],
    desk: &[u32],
    buffer_words: usize,
) -> Result<Vec<u32>, Number> {
    refuse_if(buffer_words != message::MOST_WORDS, number::LENT_LENGTH)?;
    let lost = losses(role, settings, state, desk)?;
    Ok(words::padded(&[lost], buffer_words))
}

/// Rows 1 to 4, number 15 among them: in gathering only.
fn gathering(role: Role, settings: &[u32], state: &[u32], desk: &[u32]) -> Result<State, Number> {
    let opened = open(role.may_plan(), settings, state, desk)?;
    refuse_if(opened.state.phase != Phase::Gathering, number::PHASE)?;
    Ok(opened.state)
}

#[cfg(test)]
mod tests;
