//! Reports and orders (restart(7), Messages).
//!
//! Each of rows 5 to 9, 16, 17, 10 and 11 of restart(7)'s table is one
//! function here that says whether the row's condition holds or, from 8 to 17,
//! which record it holds of. The rows are asked one after another over the whole
//! message, so between two faults the row's place decides and not the place in
//! the message; within one row the first bad record on the chain speaks.

use crate::mask;
use crate::number::{self, refuse_at, refuse_if, Refusal};
use crate::settings::{self, Settings};

/// A message has at most this many records of four words.
pub const MOST_RECORDS: usize = 128;
/// The longest message, and a buffer to be written, in words.
pub const MOST_WORDS: usize = 4 * MOST_RECORDS;

/// A message does not say what it is: the caller does.
#[derive(Clone, Copy, Debug, PartialEq, Eq)]
pub enum Form {
    Report,
    Order,
}

/// The kinds of records.
pub const MEMBERS: u32 = 1;
pub const TERMINATION: u32 = 2;
pub const RUN: u32 = 3;
pub const HOLDER: u32 = 4;
pub const CUT: u32 = 5;

impl Form {
    /// The least and the greatest view number of the head.
    fn view_limits(self) -> (u32, u32) {
        match self {
            Form::Report => (1, u32::MAX - 1),
            Form::Order => (2, u32::MAX),
        }
    }

    /// The kinds of records that the message may have.
    fn kinds(self) -> &'static [u32] {
        match self {
            Form::Report => &[MEMBERS, TERMINATION, RUN],
            Form::Order => &[MEMBERS, TERMINATION, HOLDER, CUT],
        }
    }
}

/// Words 0 to 2 of a record after the head.
#[derive(Clone, Copy, Debug, PartialEq, Eq)]
pub struct Triple {
    pub word0: u32,
    pub word1: u32,
    pub word2: u32,
}

impl Triple {
    pub fn new(kind: u32, shard: u32, word1: u32, word2: u32) -> Triple {
        Triple {
            word0: kind * 256 + shard,
            word1,
            word2,
        }
    }

    pub fn kind(self) -> u32 {
        self.word0 / 256
    }

    pub fn shard(self) -> u32 {
        self.word0 % 256
    }

    /// What the chain ascends by: kind, then shard, then a run's view.
    fn key(self) -> (u32, u32, u32) {
        let view = if self.kind() == RUN { self.word1 } else { 0 };
        (self.kind(), self.shard(), view)
    }
}

/// What a message says: its head and the records of the chain after the head.
#[derive(Clone, Debug, PartialEq, Eq)]
pub struct Contents {
    pub node: u32,
    pub view: u32,
    pub members: u32,
    pub records: Vec<Triple>,
}

impl Contents {
    /// The records of one kind, in the order of the chain.
    pub fn of_kind(&self, kind: u32) -> Vec<Triple> {
        let of_kind = |record: &&Triple| record.kind() == kind;
        self.records.iter().filter(of_kind).copied().collect()
    }

    /// The first record of this kind and shard.
    pub fn find(&self, kind: u32, shard: u32) -> Option<Triple> {
        let wanted = |record: &&Triple| record.kind() == kind && record.shard() == shard;
        self.records.iter().find(wanted).copied()
    }

    /// The shard's members mask. A shard without one has no members.
    pub fn shard_mask(&self, shard: u32) -> u32 {
        self.find(MEMBERS, shard).map_or(0, |record| record.word1)
    }

    /// All shards' members masks.
    pub fn shard_masks(&self, settings: &Settings) -> Vec<u32> {
        (0..settings.shards).map(|s| self.shard_mask(s)).collect()
    }
}

/// Reads a message, given as words.
pub fn read(form: Form, settings: &[u32], message: &[u32]) -> Result<Contents, Refusal> {
    let settings = settings::parse(settings)?;
    read_with(form, &settings, message)
}

/// Reads a message under settings that are known to be good: rows 5 to 9, 16,
/// 17, 10 and 11. The
/// index of a record is its place in the message, not on the chain.
pub fn read_with(form: Form, settings: &Settings, message: &[u32]) -> Result<Contents, Refusal> {
    refuse_if(row_5_words(message.len()), number::LENGTH)?;
    let head = contents_of(message, &[0]);
    refuse_if(row_6(settings, head.node), number::NODE)?;
    refuse_if(row_7(form, settings, &head), number::VIEW)?;
    refuse_at(row_8(message), number::NEXT)?;
    let chain = chain(message);
    let contents = contents_of(message, &chain);
    let index = |place: usize| chain[place];
    refuse_at(row_9(form, &contents).map(index), number::KIND)?;
    refuse_at(row_16(settings, &contents).map(index), number::SHARD_NUMBER)?;
    refuse_at(
        row_17(form, settings, &contents).map(index),
        number::SEQUENCE,
    )?;
    refuse_if(row_10_of(settings, &contents), number::SHARD)?;
    refuse_if(row_11(form, &contents), number::POSITION)?;
    Ok(contents)
}

/// Writes contents: the words of the message, without the zeros after it.
/// `buffer_words` is the length of the buffer to be written.
pub fn write(
    form: Form,
    settings: &[u32],
    contents: &Contents,
    buffer_words: usize,
) -> Result<Vec<u32>, Refusal> {
    refuse_if(buffer_words != MOST_WORDS, number::LENT_LENGTH)?;
    let settings = settings::parse(settings)?;
    write_with(form, &settings, contents)
}

/// Writes contents under settings that are known to be good: rows 5 to 7, 9, 16,
/// 17, 10 and 11.
/// Row 8 cannot hold of what the writer makes. As the message would stand, the
/// index of a record is its place on the chain.
pub fn write_with(
    form: Form,
    settings: &Settings,
    contents: &Contents,
) -> Result<Vec<u32>, Refusal> {
    refuse_if(row_5_needed(contents), number::LENGTH)?;
    refuse_if(row_6(settings, contents.node), number::NODE)?;
    refuse_if(row_7(form, settings, contents), number::VIEW)?;
    refuse_at(row_9(form, contents), number::KIND)?;
    refuse_at(row_16(settings, contents), number::SHARD_NUMBER)?;
    refuse_at(row_17(form, settings, contents), number::SEQUENCE)?;
    refuse_if(row_10_of(settings, contents), number::SHARD)?;
    refuse_if(row_11(form, contents), number::POSITION)?;
    Ok(encode(contents))
}

/// The records one after another; the last one's next index is 0.
pub fn encode(contents: &Contents) -> Vec<u32> {
    let mut words = vec![contents.node, contents.view, contents.members, 0];
    for (index, record) in contents.records.iter().enumerate() {
        words[4 * index + 3] = index as u32 + 1;
        words.extend([record.word0, record.word1, record.word2, 0]);
    }
    words
}

/// The indexes of the records on the chain, up to the end or to the first bad
/// next index.
fn chain(message: &[u32]) -> Vec<usize> {
    let mut chain = vec![0];
    let mut index = 0;
    while let Some(next) = good_next(message, index) {
        chain.push(next);
        index = next;
    }
    chain
}

/// The next index of a record, if it is larger than the record's own and inside
/// the message.
fn good_next(message: &[u32], index: usize) -> Option<usize> {
    let next = message[4 * index + 3] as usize;
    (index < next && next < message.len() / 4).then_some(next)
}

/// What the records at these indexes say; the first is the head.
fn contents_of(message: &[u32], chain: &[usize]) -> Contents {
    let triple = |&index: &usize| Triple {
        word0: message[4 * index],
        word1: message[4 * index + 1],
        word2: message[4 * index + 2],
    };
    Contents {
        node: message[0],
        view: message[1],
        members: message[2],
        records: chain[1..].iter().map(triple).collect(),
    }
}

/// Row 5 of a reader: words 0, over 512, not a multiple of 4.
pub fn row_5_words(length: usize) -> bool {
    length == 0 || length > MOST_WORDS || !length.is_multiple_of(4)
}

/// Row 5 of a writer: the words needed are over 512.
pub fn row_5_needed(contents: &Contents) -> bool {
    4 * (1 + contents.records.len()) > MOST_WORDS
}

/// Row 6: node not below N.
pub fn row_6(settings: &Settings, node: u32) -> bool {
    node >= settings.nodes
}

/// Row 7: view outside its limits, members mask with a bit from N up or
/// without the head's node.
pub fn row_7(form: Form, settings: &Settings, contents: &Contents) -> bool {
    row_7_view(form, contents.view)
        || settings.too_wide(contents.members)
        || !mask::has(contents.members, contents.node)
}

/// Row 7's limits of a view number.
pub fn row_7_view(form: Form, view: u32) -> bool {
    let (least, greatest) = form.view_limits();
    view < least || view > greatest
}

/// Row 8: the chain stops at a next index other than 0. Gives the index of the
/// record that names it.
pub fn row_8(message: &[u32]) -> Option<usize> {
    let last = chain(message).into_iter().max().unwrap_or(0);
    (message[4 * last + 3] != 0).then_some(last)
}

/// The place on the chain of the first record that is bad. The head has place 0.
fn first_bad(contents: &Contents, bad: impl Fn(Triple) -> bool) -> Option<usize> {
    let bad = |&record: &Triple| bad(record);
    contents
        .records
        .iter()
        .position(bad)
        .map(|before| before + 1)
}

/// Row 9: a kind that the message cannot have, or a word 2 that should be zero.
/// This and the next two give a place on the chain.
pub fn row_9(form: Form, contents: &Contents) -> Option<usize> {
    first_bad(contents, |record| {
        bad_kind(form, record) || bad_word_2(record)
    })
}

fn bad_kind(form: Form, record: Triple) -> bool {
    !form.kinds().contains(&record.kind())
}

/// Word 2 is zero in kinds 1 and 4.
fn bad_word_2(record: Triple) -> bool {
    (record.kind() == MEMBERS || record.kind() == HOLDER) && record.word2 != 0
}

/// Number 16: a shard from S up.
pub fn row_16(settings: &Settings, contents: &Contents) -> Option<usize> {
    first_bad(contents, |record| record.shard() >= settings.shards)
}

/// Number 17: wrong sequence, a repeat or a surplus record, at that record; or
/// a missing record, at the last one on the chain. No record comes after the
/// last, so those of the first kind are asked first.
pub fn row_17(form: Form, settings: &Settings, contents: &Contents) -> Option<usize> {
    let last = contents.records.len();
    let bad = |&place: &usize| out_of_sequence(contents, place) || surplus(contents, place);
    let missing = lacks_members(settings, contents)
        || lacks_termination(form, settings, contents)
        || form == Form::Order && lacks_carried(settings, contents);
    (1..=last).find(bad).or(missing.then_some(last))
}

/// The record does not come after the one before it: by kind, then shard, then
/// a run's view. A repeat is out of sequence too.
pub fn out_of_sequence(contents: &Contents, place: usize) -> bool {
    let records = &contents.records;
    place >= 2 && records[place - 2].key() >= records[place - 1].key()
}

/// A kind 4 or 5 is surplus unless a kind 1 before it gives the recipient that
/// shard.
pub fn surplus(contents: &Contents, place: usize) -> bool {
    let record = contents.records[place - 1];
    let gives = |before: &Triple| {
        before.kind() == MEMBERS
            && before.shard() == record.shard()
            && mask::has(before.word1, contents.node)
    };
    let carried = contents.records[..place - 1].iter().any(gives);
    matches!(record.kind(), HOLDER | CUT) && !carried
}

/// Kind 1: one for each shard.
fn lacks_members(settings: &Settings, contents: &Contents) -> bool {
    (0..settings.shards).any(|shard| contents.find(MEMBERS, shard).is_none())
}

/// Kind 2: for every shard or for none; in an order for every shard. Kind 2 for
/// only some shards means that the others are missing.
fn lacks_termination(form: Form, settings: &Settings, contents: &Contents) -> bool {
    let lacks = |shard: u32| contents.find(TERMINATION, shard).is_none();
    let wanted = form == Form::Order || !contents.of_kind(TERMINATION).is_empty();
    wanted && (0..settings.shards).any(lacks)
}

/// Kinds 4 and 5: one for each shard that the recipient carries.
fn lacks_carried(settings: &Settings, contents: &Contents) -> bool {
    (0..settings.shards).any(|shard| {
        let carries = mask::has(contents.shard_mask(shard), contents.node);
        let has = |kind| contents.find(kind, shard).is_some();
        carries && !(has(HOLDER) && has(CUT))
    })
}

/// Row 10 of a message.
fn row_10_of(settings: &Settings, contents: &Contents) -> bool {
    let masks = contents.shard_masks(settings);
    row_10(settings, contents.members, &masks)
}

/// Row 10: shard empty, outside members, or sharing a node within its subgroup.
/// `masks` has one mask for each shard.
pub fn row_10(settings: &Settings, members: u32, masks: &[u32]) -> bool {
    let bad = |shard: u32| {
        let own = masks[shard as usize];
        let shares = (0..settings.shards).any(|other| {
            other != shard
                && settings.subgroup(other) == settings.subgroup(shard)
                && own & masks[other as usize] != 0
        });
        own == 0 || !mask::within(own, members) || shares
    };
    (0..settings.shards).any(bad)
}

/// Row 11: position or run; holder outside the members.
pub fn row_11(form: Form, contents: &Contents) -> bool {
    let last_view = match form {
        Form::Report => contents.view,
        Form::Order => contents.view - 1,
    };
    contents.records.iter().any(|record| match record.kind() {
        TERMINATION | CUT => bad_position(last_view, record.word1, record.word2),
        RUN => record.word1 == 0 || record.word2 == 0 || record.word1 > last_view,
        HOLDER => !mask::has(contents.members, record.word1),
        _ => false,
    })
}

/// A position is (0, 0) or has view and k from 1; its view is at most
/// `last_view`.
pub fn bad_position(last_view: u32, view: u32, k: u32) -> bool {
    (view == 0) != (k == 0) || view > last_view
}

#[cfg(test)]
mod tests;
