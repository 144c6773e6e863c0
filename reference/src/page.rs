//! The page of one subgroup (restart(7), Page): what its watcher may
//! read of a restart.

use crate::events::{open, Opened};
use crate::message;
use crate::number::{self, refuse_if, Number};
use crate::order::{self, Choice};
use crate::placement::Subgroup;
use crate::quorum::Holding;
use crate::roles::Role;
use crate::soundness::gathered;
use crate::state::Phase;

/// The length of a page in words.
pub const PAGE_WORDS: usize = 72;

/// What a page says of a shard.
#[derive(Clone, Copy, Debug, PartialEq, Eq)]
pub struct Entry {
    pub shard: u32,
    /// Holder and target; neither where there is no holder.
    pub holding: Option<Holding>,
    /// The shard's part of the placement, if there is one.
    pub members: Option<u32>,
}

#[derive(Clone, Debug, PartialEq, Eq)]
pub struct Page {
    pub phase: Phase,
    /// The kept view's number; 0 if none is kept.
    pub view: u32,
    /// The subgroup's shards, ascending.
    pub entries: Vec<Entry>,
    /// The moves of the subgroup's placement, if there is one.
    pub moves: Option<u32>,
}

/// The words of a page, to be written into a buffer of this many words.
pub fn page(
    role: Role,
    settings: &[u32],
    state: &[u32],
    desk: &[u32],
    subgroup: u32,
    buffer_words: usize,
) -> Result<Vec<u32>, Number> {
    page_by(
        order::greedy,
        role,
        settings,
        state,
        desk,
        subgroup,
        buffer_words,
    )
}

/// The same, where `choice` finds the subgroup's placement.
pub fn page_by(
    choice: Choice,
    role: Role,
    settings: &[u32],
    state: &[u32],
    desk: &[u32],
    subgroup: u32,
    buffer_words: usize,
) -> Result<Vec<u32>, Number> {
    refuse_if(buffer_words != message::MOST_WORDS, number::LENT_LENGTH)?;
    let opened = open(role.may_read(subgroup), settings, state, desk)?;
    Ok(encode(&read(&opened, choice, subgroup)))
}

/// The page of a subgroup.
fn read(opened: &Opened, choice: Choice, number: u32) -> Page {
    let Opened {
        settings,
        state,
        reports,
    } = opened;
    let gathered = gathered(settings, state, reports);
    // While no view is kept nobody was a member of any shard.
    let nobody = vec![0; settings.shards as usize];
    let kept = state.kept.as_ref();
    let subgroup = Subgroup {
        settings,
        number,
        held: state.held,
        old: kept.map_or(&nobody, |view| &view.masks),
    };
    // The plan's outside gathering, else what decide would place.
    let placement = match &state.plan {
        Some(plan) => Some(plan.masks.clone()),
        None => choice(&subgroup),
    };
    let entry = |shard: u32| Entry {
        shard,
        holding: kept.and_then(|view| gathered.holding(view, shard)),
        members: placement.as_ref().map(|masks| masks[shard as usize]),
    };
    Page {
        phase: state.phase,
        view: kept.map_or(0, |view| view.number),
        entries: settings.shards_of(number).into_iter().map(entry).collect(),
        moves: placement.as_ref().map(|masks| subgroup.moves(masks)),
    }
}

/// The words of a page:
///
/// | words | meaning |
/// |---|---|
/// | 0 | phase, as in a state |
/// | 1 | kept view's number (0 none) |
/// | 2 | mask of the subgroup's shards |
/// | 3 | mask of those that have a holder |
/// | 4 | a placement exists: 0 or 1 |
/// | 5 | its moves |
/// | 6, 7 | zero |
/// | 8–23 | holders |
/// | 24–55 | targets, (view, k) for each shard |
/// | 56–71 | the placement's masks |
///
/// What the page doesn't have is zero, and so is what belongs to a shard of
/// another subgroup.
pub fn encode(page: &Page) -> Vec<u32> {
    let mut words = vec![0; PAGE_WORDS];
    words[0] = page.phase as u32;
    words[1] = page.view;
    if let Some(moves) = page.moves {
        words[4] = 1;
        words[5] = moves;
    }
    for entry in &page.entries {
        let shard = entry.shard as usize;
        words[2] |= 1 << shard;
        if let Some(Holding { holder, target }) = entry.holding {
            words[3] |= 1 << shard;
            words[8 + shard] = holder;
            words[24 + 2 * shard] = target.view;
            words[25 + 2 * shard] = target.k;
        }
        words[56 + shard] = entry.members.unwrap_or(0);
    }
    words
}

#[cfg(test)]
mod tests;
