//! Flat reports of the firm that sold the store (restart(7), Flat reports):
//! turned into ours and back.
//!
//! A flat report is node, view, members, S, S masks, a word 0 or 1 and, if 1, S
//! positions of two words, then a count of runs and as many triples of shard,
//! view and count. S is the flat report's own word: where it is not that of the
//! settings, the records are too many or too few.

use crate::log::Position;
use crate::message::{self, Contents, Form, Triple};
use crate::message::{MEMBERS, MOST_RECORDS, MOST_WORDS, RUN, TERMINATION};
use crate::number::{self, refuse_if, Refusal};
use crate::settings::{self, Settings};
use crate::words;

/// The greatest shard that word 0 of a record can hold. It is from S up, for S
/// is at most 16.
const GREATEST_SHARD: u32 = 255;

/// What a converter leaves in the buffer, and how many words of it are before
/// the zeros.
#[derive(Clone, Debug, PartialEq, Eq)]
pub struct Converted {
    pub buffer: Vec<u32>,
    pub length: usize,
}

impl Converted {
    fn new(converted: &[u32]) -> Converted {
        Converted {
            buffer: words::padded(converted, MOST_WORDS),
            length: converted.len(),
        }
    }
}

/// A triple of a flat report.
#[derive(Clone, Copy, Debug, PartialEq, Eq)]
pub struct FlatRun {
    /// Any word.
    pub shard: u32,
    pub view: u32,
    pub count: u32,
}

/// A flat report in its parts.
#[derive(Clone, Debug, PartialEq, Eq)]
pub struct Flat {
    pub node: u32,
    pub view: u32,
    pub members: u32,
    /// As many as its S.
    pub masks: Vec<u32>,
    /// The termination: as many positions as its S.
    pub positions: Option<Vec<Position>>,
    pub runs: Vec<FlatRun>,
}

/// Turns a flat report, given as words, into ours. `buffer_words` is the length
/// of the buffer to be written.
pub fn from_flat(
    settings: &[u32],
    flat: &[u32],
    buffer_words: usize,
) -> Result<Converted, Refusal> {
    refuse_if(buffer_words != MOST_WORDS, number::LENT_LENGTH)?;
    let settings = settings::parse(settings)?;
    from_flat_with(&settings, flat)
}

/// The same under settings that are known to be good: 19 to 21, then what the
/// writer says of the report. Row 5 cannot hold after 21.
pub fn from_flat_with(settings: &Settings, flat: &[u32]) -> Result<Converted, Refusal> {
    let flat = Flat::parse(flat).ok_or(number::FLAT_LENGTH)?;
    let has_zero = flat.runs.iter().any(|run| run.count == 0);
    refuse_if(has_zero, number::ZERO_COUNT)?;
    refuse_if(flat.records() > MOST_RECORDS, number::TOO_MANY)?;
    let written = message::write_with(Form::Report, settings, &flat.contents())?;
    Ok(Converted::new(&written))
}

/// Turns a report of ours, given as words, into a flat one.
pub fn to_flat(
    settings: &[u32],
    message: &[u32],
    buffer_words: usize,
) -> Result<Converted, Refusal> {
    refuse_if(buffer_words != MOST_WORDS, number::LENT_LENGTH)?;
    let settings = settings::parse(settings)?;
    to_flat_with(&settings, message)
}

/// The same under settings that are known to be good: what the reader says of
/// the report. A flat report of 127 records after the head has at most 3 words
/// for each of them and 6 more, so it fits.
pub fn to_flat_with(settings: &Settings, message: &[u32]) -> Result<Converted, Refusal> {
    let contents = message::read_with(Form::Report, settings, message)?;
    Ok(Converted::new(&Flat::of(&contents).words()))
}

impl Flat {
    /// The flat report that the words are, if its counts explain their number
    /// and its termination word is 0 or 1.
    pub fn parse(words: &[u32]) -> Option<Flat> {
        let mut rest = words;
        let head = take(&mut rest, 4)?;
        let shards = u64::from(head[3]);
        let masks = take(&mut rest, shards)?;
        let positions = match take(&mut rest, 1)?[0] {
            0 => None,
            1 => Some(take(&mut rest, 2 * shards)?),
            _ => return None,
        };
        let count = u64::from(take(&mut rest, 1)?[0]);
        let runs = take(&mut rest, 3 * count)?;
        let position = |pair: &[u32]| Position::new(pair[0], pair[1]);
        let run = |triple: &[u32]| FlatRun {
            shard: triple[0],
            view: triple[1],
            count: triple[2],
        };
        rest.is_empty().then(|| Flat {
            node: head[0],
            view: head[1],
            members: head[2],
            masks: masks.to_vec(),
            positions: positions.map(|words| words.chunks_exact(2).map(position).collect()),
            runs: runs.chunks_exact(3).map(run).collect(),
        })
    }

    /// Its words. It has fewer than 2^32 masks and runs, and a position for each
    /// mask or no positions.
    pub fn words(&self) -> Vec<u32> {
        let mut words = vec![self.node, self.view, self.members];
        words.push(self.masks.len() as u32);
        words.extend(&self.masks);
        words.push(u32::from(self.positions.is_some()));
        for position in self.positions.iter().flatten() {
            words.extend([position.view, position.k]);
        }
        words.push(self.runs.len() as u32);
        for run in &self.runs {
            words.extend([run.shard, run.view, run.count]);
        }
        words
    }

    /// The number of records that the report has as one of ours: the head, and
    /// one for each mask, position and run.
    pub fn records(&self) -> usize {
        let positions = self.positions.as_ref().map_or(0, Vec::len);
        1 + self.masks.len() + positions + self.runs.len()
    }

    /// What it says as a report of ours, in its own order. It has at most 128
    /// records. A shard too large for a record counts as one from S up.
    pub fn contents(&self) -> Contents {
        let mut records = Vec::new();
        for (shard, &mask) in (0..).zip(&self.masks) {
            records.push(Triple::new(MEMBERS, shard, mask, 0));
        }
        for (shard, position) in (0..).zip(self.positions.iter().flatten()) {
            records.push(Triple::new(TERMINATION, shard, position.view, position.k));
        }
        for run in &self.runs {
            let shard = run.shard.min(GREATEST_SHARD);
            records.push(Triple::new(RUN, shard, run.view, run.count));
        }
        Contents {
            node: self.node,
            view: self.view,
            members: self.members,
            records,
        }
    }

    /// The flat report that says what the contents of a report do.
    pub fn of(report: &Contents) -> Flat {
        let positions = report.of_kind(TERMINATION);
        let position = |record: &Triple| Position::new(record.word1, record.word2);
        let run = |record: &Triple| FlatRun {
            shard: record.shard(),
            view: record.word1,
            count: record.word2,
        };
        Flat {
            node: report.node,
            view: report.view,
            members: report.members,
            masks: report.of_kind(MEMBERS).iter().map(|r| r.word1).collect(),
            positions: (!positions.is_empty()).then(|| positions.iter().map(position).collect()),
            runs: report.of_kind(RUN).iter().map(run).collect(),
        }
    }
}

/// Takes so many words from the front, if there are as many.
fn take<'a>(rest: &mut &'a [u32], count: u64) -> Option<&'a [u32]> {
    let (taken, after) = rest.split_at_checked(usize::try_from(count).ok()?)?;
    *rest = after;
    Some(taken)
}

#[cfg(test)]
mod tests;
