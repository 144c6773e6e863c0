//! The inputs of the `flat` program, and the round trips of its two calls.

use crate::expected::BUFFER_BYTES;
use crate::flat_faults as faults;
use crate::lent::Place;
use crate::messages::{self, slot, Again, Call, Input};
use crate::random::Random;
use crate::{damage, generate};
use reference::flat::Flat;
use reference::message::Form;
use reference::{settings, words};

/// The calls that the `flat` program makes.
pub const CALLS: [Call; 2] = [Call::FromFlat, Call::ToFlat];
/// The longest flat report that is made, in bytes.
pub const MOST_BYTES: usize = 16384;
/// So many of a hundred calls get bad settings.
const BAD_SETTINGS: u32 = 4;

/// Makes input `index` of a seed.
pub fn input(seed: u64, index: u64) -> Input {
    let random = &mut Random::of_input(seed, index);
    let settings = generate::settings_words(random);
    if random.chance(30) {
        let given = messages::given(random, Call::ToFlat, &settings);
        return messages::lent(random, Call::ToFlat, settings, BAD_SETTINGS, given);
    }
    let given = given(random, &settings);
    messages::lent(random, Call::FromFlat, settings, BAD_SETTINGS, given)
}

/// Settings of one node and one shard.
const ONE: [u32; 6] = [1, 1, 1, 1, 0, 1];
/// Heads, the right one first, and how many words come after them at most.
const HEADS: [([u32; 3], u32); 5] = [
    ([0, 2, 1], 10),
    ([0, 1, 1], 8),
    ([0, 0, 1], 8),
    ([1, 2, 1], 8),
    ([0, 2, 2], 8),
];

/// Under these settings, each of these heads followed by so many words or fewer,
/// each of them 0, 1 or 2, in every combination.
pub fn small_inputs() -> impl Iterator<Item = Input> {
    let input = |flat: Vec<u32>| Input {
        call: Call::FromFlat,
        settings: words::to_bytes(&ONE),
        given: words::to_bytes(&flat),
        buffer: vec![0xEE; BUFFER_BYTES],
        places: [Place::Last; 3],
    };
    let of_length = |head: [u32; 3], length: u32| {
        let code_words = move |code: u32| (0..length).map(move |place| code / 3u32.pow(place) % 3);
        (0..3u32.pow(length)).map(move |code| head.into_iter().chain(code_words(code)).collect())
    };
    let of_head = move |(head, most)| (0..=most).flat_map(move |length| of_length(head, length));
    HEADS.into_iter().flat_map(of_head).map(input)
}

/// A flat report as bytes: valid, with one or two faults, or any words.
fn given(random: &mut Random, settings: &[u32]) -> Vec<u8> {
    let words = match random.between(0, 99) {
        0 => messages::random_words(random),
        1 | 2 => faults::wrapping_masks(random),
        _ => flat_words(random, settings),
    };
    let mut bytes = words::to_bytes(&words);
    if random.chance(1) {
        damage::part_word(random, &mut bytes);
    }
    bytes
}

/// A valid flat report, or one with faults: in what it says, in its parts or in
/// its words.
fn flat_words(random: &mut Random, settings: &[u32]) -> Vec<u32> {
    let settings = settings::parse(settings).expect("generated settings are good");
    let mut contents = generate::contents(random, Form::Report, &settings);
    let (mut in_contents, mut in_parts, mut in_words) = (0, 0, 0);
    for _ in 0..random.pick(&[0, 0, 0, 1, 1, 1, 1, 1, 2, 2]) {
        match random.between(0, 9) {
            0..=2 => in_contents += 1,
            3..=6 => in_parts += 1,
            _ => in_words += 1,
        }
    }
    for _ in 0..in_contents {
        match random.between(0, 2) {
            0 => damage::head(random, &settings, &mut contents),
            1 => damage::shard_mask(random, &settings, &mut contents),
            _ => damage::place(random, Form::Report, &mut contents),
        }
    }
    let mut flat = Flat::of(&contents);
    if random.chance(8) {
        faults::fill(random, &settings, &mut flat);
    }
    for _ in 0..in_parts {
        faults::parts(random, &settings, &mut flat);
    }
    let mut words = flat.words();
    for _ in 0..in_words {
        faults::words(random, &mut words);
    }
    words
}

/// An accepted flat report, turned into ours and back, has the same words; and
/// ours is what the writer makes of its contents.
pub fn there_and_back(
    again: &mut Again,
    flat: &[u8],
    length: usize,
    output: &[u8],
) -> Result<(), String> {
    let message = &output[..length];
    let (back, _) = again(Call::ToFlat, message)?;
    let (from_slot, _) = again(Call::ToFlat, &slot(message))?;
    if back != flat || from_slot != flat {
        return Err("round trip: the flat report comes back with other words".into());
    }
    if written_anew(again, message)? != output {
        return Err("round trip: the writer makes another message of the contents".into());
    }
    Ok(())
}

/// An accepted report of ours, turned into a flat one and back, has the same
/// contents, the records one after another; zeros after it change nothing.
pub fn back_and_there(
    again: &mut Again,
    message: &[u8],
    length: usize,
    output: &[u8],
) -> Result<(), String> {
    let flat = &output[..length];
    let (from_slot, _) = again(Call::ToFlat, &slot(message))?;
    if from_slot != flat {
        return Err("round trip: zeros after the message change its flat report".into());
    }
    let (_, there) = again(Call::FromFlat, flat)?;
    if there != written_anew(again, message)? {
        return Err("round trip: our report comes back with other records".into());
    }
    Ok(())
}

/// A report read, and its contents written: the whole buffer.
fn written_anew(again: &mut Again, message: &[u8]) -> Result<Vec<u8>, String> {
    let (contents, _) = again(Call::ReadReport, message)?;
    let (_, written) = again(Call::WriteReport, &contents)?;
    Ok(written)
}

#[cfg(test)]
mod tests {
    use super::*;
    use crate::expected;
    use crate::library::Answer;
    use std::collections::BTreeSet;

    /// The short flat reports come to every number that so few words can.
    #[test]
    fn answers_to_short_flat_reports() {
        let mut answers = BTreeSet::new();
        let mut inputs = 0;
        for input in small_inputs() {
            let said = expected::from_flat(&input.settings, &input.given, BUFFER_BYTES);
            answers.insert(Answer::of(said.answer).number().unwrap_or(0));
            inputs += 1;
        }
        assert_eq!(inputs, 127_937);
        assert_eq!(answers, BTreeSet::from([0, 6, 7, 10, 11, 16, 17, 19, 20]));
    }
}
