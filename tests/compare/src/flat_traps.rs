//! What an input of the `flat` program came to: the traps of flat reports, each
//! of which the inputs must meet.

use crate::library::Answer;
use crate::messages::{Call, Input};
use crate::records;
use reference::flat::Flat;
use reference::message::{self, Contents, Form, MEMBERS, MOST_RECORDS, MOST_WORDS};
use reference::{settings, words};

/// Every trap.
pub const ALL: [&str; 36] = [
    "to ours: no termination",
    "to ours: a termination",
    "to ours: a termination of zeros",
    "to ours: no runs",
    "to ours: 128 records",
    "to ours: the last view",
    "19: fewer words than the counts are",
    "19: a part word",
    "19: a termination word above 1",
    "19: a termination word that only its lowest byte makes good",
    "19: masks or positions cut",
    "19: runs cut",
    "19: words left over",
    "19: the counts explain the words but for turns",
    "19: the counts explain the bytes but for turns",
    "20: at the last triple alone",
    "20: and a shard over 255",
    "20: over 128 records",
    "20: over 512 words",
    "21: 129 records",
    "21: over 512 words",
    "21: by the masks",
    "16: a mask too many",
    "16: a run, the shard up to 255",
    "16: a run, the shard over 255",
    "16: a run, the shard's lowest byte below S",
    "17: a mask too few, at a mask",
    "17: a mask too few, at a position",
    "17: a mask too few, at a run",
    "17: no mask",
    "17: runs not by shard",
    "17: runs not by view",
    "17: a run twice",
    "to flat: behind gaps",
    "to flat: 128 records",
    "to flat: an order",
];

/// The traps that an input came to.
pub fn of(input: &Input, answer: u32) -> Vec<&'static str> {
    let answer = Answer::of(answer);
    let words = words::whole_words(&input.given);
    match (input.call, answer) {
        (Call::ToFlat, _) => of_message(input, &words, answer),
        (Call::FromFlat, Answer::Number(19)) => {
            of_length(&words, !input.given.len().is_multiple_of(4))
        }
        (Call::FromFlat, _) => match Flat::parse(&words) {
            Some(flat) => of_flat(input, &flat, words.len(), answer),
            None => vec![],
        },
        _ => vec![],
    }
}

/// The names whose condition holds.
fn named<const N: usize>(conditions: [(&'static str, bool); N]) -> Vec<&'static str> {
    let holding = conditions.into_iter().filter(|&(_, holds)| holds);
    holding.map(|(name, _)| name).collect()
}

fn of_flat(input: &Input, flat: &Flat, length: usize, answer: Answer) -> Vec<&'static str> {
    match answer {
        Answer::Length(_) => accepted(flat),
        Answer::Number(20) => zero_counts(flat, length),
        Answer::Number(21) => named([
            ("21: 129 records", flat.records() == MOST_RECORDS + 1),
            ("21: over 512 words", length > MOST_WORDS),
            ("21: by the masks", flat.masks.len() >= MOST_RECORDS),
        ]),
        Answer::Located(16, index) => unknown_shard(input, flat, index as usize),
        Answer::Located(17, index) => wrong_sequence(&flat.contents(), flat, index as usize),
        _ => vec![],
    }
}

fn accepted(flat: &Flat) -> Vec<&'static str> {
    let positions = flat.positions.as_ref();
    let zeros = |all: &Vec<_>| all.iter().all(|&at| at == reference::log::START);
    named([
        ("to ours: no termination", positions.is_none()),
        ("to ours: a termination", positions.is_some()),
        (
            "to ours: a termination of zeros",
            positions.is_some_and(zeros),
        ),
        ("to ours: no runs", flat.runs.is_empty()),
        ("to ours: 128 records", flat.records() == MOST_RECORDS),
        ("to ours: the last view", flat.view == u32::MAX - 1),
    ])
}

fn zero_counts(flat: &Flat, length: usize) -> Vec<&'static str> {
    let zeros = flat.runs.iter().filter(|run| run.count == 0).count();
    let last = flat.runs.last().is_some_and(|run| run.count == 0);
    named([
        (
            "20: at the last triple alone",
            last && zeros == 1 && flat.runs.len() > 1,
        ),
        (
            "20: and a shard over 255",
            flat.runs.iter().any(|run| run.shard > 255),
        ),
        ("20: over 128 records", flat.records() > MOST_RECORDS),
        ("20: over 512 words", length > MOST_WORDS),
    ])
}

/// Number 16 at this record.
fn unknown_shard(input: &Input, flat: &Flat, index: usize) -> Vec<&'static str> {
    let settings = settings::parse(&words::whole_words(&input.settings));
    let shards = settings.map_or(0, |settings| settings.shards);
    if flat.masks.len() > shards as usize {
        return vec!["16: a mask too many"];
    }
    let first = flat.records() - flat.runs.len();
    let shard = flat.runs[index - first].shard;
    named([
        ("16: a run, the shard up to 255", shard <= 255),
        ("16: a run, the shard over 255", shard > 255),
        (
            "16: a run, the shard's lowest byte below S",
            shard % 256 < shards,
        ),
    ])
}

/// Number 17 at this record.
fn wrong_sequence(contents: &Contents, flat: &Flat, index: usize) -> Vec<&'static str> {
    if index == 0 {
        return vec!["17: no mask"];
    }
    if !message::out_of_sequence(contents, index) {
        let kind = contents.records[index - 1].kind();
        return vec![match kind {
            MEMBERS => "17: a mask too few, at a mask",
            message::TERMINATION => "17: a mask too few, at a position",
            _ => "17: a mask too few, at a run",
        }];
    }
    let first = flat.records() - flat.runs.len();
    let (before, run) = (flat.runs[index - first - 1], flat.runs[index - first]);
    vec![if before.shard > run.shard {
        "17: runs not by shard"
    } else if before.view > run.view {
        "17: runs not by view"
    } else {
        "17: a run twice"
    }]
}

/// Why the counts do not explain the words.
fn of_length(words: &[u32], part: bool) -> Vec<&'static str> {
    let word = |at: u64| usize::try_from(at).ok().and_then(|at| words.get(at));
    let length = words.len() as u64;
    let mut names = named([
        ("19: a part word", part),
        ("19: fewer words than the counts are", length < 6),
        (
            "19: the counts explain the words but for turns",
            explained_in_turns(words, 1),
        ),
        (
            "19: the counts explain the bytes but for turns",
            explained_in_turns(words, 4),
        ),
    ]);
    let Some(&shards) = word(3) else {
        return names;
    };
    let masks_end = 4 + u64::from(shards);
    let Some(&flag) = word(masks_end) else {
        names.push("19: masks or positions cut");
        return names;
    };
    if flag > 1 {
        names.push("19: a termination word above 1");
        if flag % 256 <= 1 {
            names.push("19: a termination word that only its lowest byte makes good");
        }
        return names;
    }
    let count_at = masks_end + 1 + 2 * u64::from(flag) * u64::from(shards);
    let Some(&count) = word(count_at) else {
        names.push("19: masks or positions cut");
        return names;
    };
    let end = count_at + 1 + 3 * u64::from(count);
    names.extend(named([
        ("19: runs cut", end > length),
        ("19: words left over", end < length),
    ]));
    names
}

/// Whether sums modulo 2^32, of words or of their bytes, explain the length,
/// which the sums themselves do not.
pub fn explained_in_turns(words: &[u32], unit: u32) -> bool {
    let word = |at: u32| words.get((at / unit) as usize).copied();
    let times = |count: u32| count.wrapping_mul(unit);
    let end = || {
        let flag_at = times(4).wrapping_add(times(word(times(3))?));
        let flag = word(flag_at)?;
        let positions = match flag {
            0 => 0,
            1 => times(2).wrapping_mul(word(times(3))?),
            _ => return None,
        };
        let count_at = flag_at.wrapping_add(times(1)).wrapping_add(positions);
        let runs = times(3).wrapping_mul(word(count_at)?);
        Some(count_at.wrapping_add(times(1)).wrapping_add(runs))
    };
    end() == Some(times(words.len() as u32)) && Flat::parse(words).is_none()
}

fn of_message(input: &Input, words: &[u32], answer: Answer) -> Vec<&'static str> {
    let settings = words::whole_words(&input.settings);
    let order = || message::read(Form::Order, &settings, words).is_ok();
    let Answer::Length(_) = answer else {
        return named([("to flat: an order", answer.refused() && order())]);
    };
    let chain = records::chain(words);
    let last = chain.last().copied().unwrap_or(0);
    named([
        ("to flat: behind gaps", last >= chain.len()),
        ("to flat: 128 records", chain.len() == MOST_RECORDS),
    ])
}

#[cfg(test)]
mod tests {
    use super::*;

    #[test]
    fn turns() {
        let third = [1, 7, 127, 0, 0, 1_431_655_766, 0, 0];
        assert!(explained_in_turns(&third, 1));
        assert!(!explained_in_turns(&third[..7], 1));
        assert!(explained_in_turns(&[0, 2, 3, u32::MAX - 3, 1, 1, 1, 1], 1));
        assert!(explained_in_turns(&[1, 7, 127, 0, 0, 1 << 30], 4));
        assert!(explained_in_turns(&[1, 7, 127, 1 << 30, 0, 0], 4));
        assert!(!explained_in_turns(&[1, 7, 127, 1 << 30, 0, 0], 1));
        // A flat report has no need of turns.
        assert!(!explained_in_turns(&[1, 7, 127, 0, 0, 0], 1));
    }

    #[test]
    fn why_a_length_is_not_explained() {
        let name = |words: &[u32]| of_length(words, false).join(", ");
        assert_eq!(name(&[0; 3]), "19: fewer words than the counts are");
        assert_eq!(
            name(&[1, 7, 3, 1, 3, 2, 0]),
            "19: a termination word above 1"
        );
        assert_eq!(name(&[1, 7, 3, 9, 3, 0, 0]), "19: masks or positions cut");
        assert_eq!(name(&[1, 7, 3, 1, 3, 0, 1, 0, 7]), "19: runs cut");
        assert_eq!(name(&[1, 7, 3, 1, 3, 0, 0, 0]), "19: words left over");
    }
}
