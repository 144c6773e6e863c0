//! The inputs of the `messages` program, and the comparison of one input, of the
//! `flat` program too.

use crate::expected::{self, Expected, BUFFER_BYTES};
use crate::lent::{Lent, Place};
use crate::library::{Answer, Convert, Library, ACCEPTED};
use crate::random::Random;
use crate::{damage, flat, generate, records};
use reference::message::Form;
use reference::{settings, words};

/// The functions on settings and messages.
#[derive(Clone, Copy, Debug, PartialEq, Eq, PartialOrd, Ord)]
pub enum Call {
    CheckSettings,
    ReadReport,
    ReadOrder,
    WriteReport,
    WriteOrder,
    FromFlat,
    ToFlat,
}

impl Call {
    /// The calls that the `messages` program makes.
    pub const MESSAGES: [Call; 5] = [
        Call::CheckSettings,
        Call::ReadReport,
        Call::ReadOrder,
        Call::WriteReport,
        Call::WriteOrder,
    ];

    fn form(self) -> Form {
        match self {
            Call::ReadOrder | Call::WriteOrder => Form::Order,
            _ => Form::Report,
        }
    }

    /// The call is given a message.
    fn reads(self) -> bool {
        matches!(self, Call::ReadReport | Call::ReadOrder | Call::ToFlat)
    }
}

/// One call with all that is lent to it.
#[derive(Clone, Debug)]
pub struct Input {
    pub call: Call,
    pub settings: Vec<u8>,
    /// The message of a reader, the contents of a writer, the flat report or
    /// message of a converter.
    pub given: Vec<u8>,
    /// What the buffer holds before the call.
    pub buffer: Vec<u8>,
    /// Where settings, the given and the buffer lie in their pages.
    pub places: [Place; 3],
}

/// Makes input `index` of a seed.
pub fn input(seed: u64, index: u64) -> Input {
    let random = &mut Random::of_input(seed, index);
    let call = match random.between(0, 99) {
        0..=4 => Call::CheckSettings,
        5..=37 => Call::ReadReport,
        38..=66 => Call::ReadOrder,
        67..=83 => Call::WriteReport,
        _ => Call::WriteOrder,
    };
    let settings = generate::settings_words(random);
    let given = given(random, call, &settings);
    let bad_settings = if call == Call::CheckSettings { 70 } else { 5 };
    lent(random, call, settings, bad_settings, given)
}

/// A call with what it is given and these settings, which are to be bad in so
/// many of a hundred cases.
pub fn lent(
    random: &mut Random,
    call: Call,
    mut settings: Vec<u32>,
    bad_settings: u32,
    given: Vec<u8>,
) -> Input {
    if random.chance(bad_settings) {
        damage::settings(random, &mut settings);
    }
    let mut settings = words::to_bytes(&settings);
    if random.chance(1) {
        damage::part_word(random, &mut settings);
    }
    Input {
        call,
        settings,
        given,
        buffer: buffer(random),
        places: [place(random), place(random), place(random)],
    }
}

/// A buffer, nearly always of the right length, that holds anything.
fn buffer(random: &mut Random) -> Vec<u8> {
    let length = if random.chance(97) {
        BUFFER_BYTES
    } else {
        random.pick(&[0, 4, 512, 2044, 2046, 2047, 2049, 2052, 4096])
    };
    let filling = random.word().to_le_bytes();
    (0..length).map(|index| filling[index % 4]).collect()
}

fn place(random: &mut Random) -> Place {
    match random.between(0, 2) {
        0 => Place::First,
        1 => Place::Last,
        _ => Place::After(random.below(64)),
    }
}

/// The message or contents of a call.
pub fn given(random: &mut Random, call: Call, settings: &[u32]) -> Vec<u8> {
    let mut words = if random.chance(3) {
        random_words(random)
    } else {
        given_words(random, call, settings)
    };
    if random.chance(4) {
        damage::length(random, &mut words);
    }
    let mut bytes = words::to_bytes(&words);
    if random.chance(1) {
        damage::part_word(random, &mut bytes);
    }
    bytes
}

/// A few words, all small or any.
pub fn random_words(random: &mut Random) -> Vec<u32> {
    let length = random.between(0, 40);
    let greatest = random.pick(&[3, 40, 2000, u32::MAX]);
    (0..length).map(|_| random.between(0, greatest)).collect()
}

/// Valid, or with one or two faults.
fn given_words(random: &mut Random, call: Call, words: &[u32]) -> Vec<u32> {
    let settings = settings::parse(words).expect("generated settings are good");
    let form = match (random.chance(2), call.form()) {
        (true, Form::Report) => Form::Order,
        (true, Form::Order) => Form::Report,
        (false, form) => form,
    };
    let mut contents = generate::contents(random, form, &settings);
    let faults = random.pick(&[0, 0, 0, 1, 1, 1, 1, 1, 2, 2]);
    let (mut of_contents, mut of_message) = (0, 0);
    for _ in 0..faults {
        if call.reads() && random.chance(15) {
            of_message += 1;
        } else {
            of_contents += 1;
        }
    }
    for _ in 0..of_contents {
        damage::contents(random, form, &settings, &mut contents);
    }
    if !call.reads() {
        if random.chance(2) {
            let longer = random.pick(&[126, 127, 128, 129, 200]);
            if let Some(&last) = contents.records.last() {
                contents.records.resize(longer, last);
            }
        }
        return expected::contents_words(&contents);
    }
    let mut words = generate::message(random, &contents);
    for _ in 0..of_message {
        if random.chance(80) {
            damage::next_index(random, &mut words);
        } else {
            damage::word(random, &mut words);
        }
    }
    words
}

/// What a refusal with the index of a record was about; none for other answers.
pub fn looked_at(input: &Input, answer: u32) -> Option<String> {
    let Answer::Located(number, index) = Answer::of(answer) else {
        return None;
    };
    let (form, given) = (input.call.form(), words::whole_words(&input.given));
    if input.call.reads() {
        return Some(records::of_message(form, &given, number, index));
    }
    let contents = expected::words_contents(&given)?;
    Some(records::of_contents(form, &contents, number, index))
}

/// The pages from which an input's memory is lent.
pub struct Desk {
    settings: Lent,
    given: Lent,
    buffer: Lent,
}

impl Desk {
    /// Pages for inputs that are given up to so many bytes.
    pub fn new(most_given: usize) -> Desk {
        Desk {
            settings: Lent::new(4096),
            given: Lent::new(most_given),
            buffer: Lent::new(4096),
        }
    }
}

impl Default for Desk {
    fn default() -> Desk {
        Desk::new(4096)
    }
}

/// Compares one input with the reference. Gives the answer, or what differs.
pub fn compare(library: &Library, desk: &mut Desk, input: &Input) -> Result<u32, String> {
    let given = &input.given;
    let (settings, length) = (&input.settings, input.buffer.len());
    let expected = match input.call {
        Call::CheckSettings => Expected {
            answer: expected::check_settings(settings),
            output: None,
        },
        Call::FromFlat => expected::from_flat(settings, given, length),
        Call::ToFlat => expected::to_flat(settings, given, length),
        call if call.reads() => expected::read(call.form(), settings, given, length),
        call => expected::write(call.form(), settings, given, length),
    };
    let (answer, after) = call(library, desk, input)?;
    if answer != expected.answer {
        return Err(format!(
            "the answer is {}, the reference says {}",
            Answer::of(answer),
            Answer::of(expected.answer)
        ));
    }
    let accepted = expected.output.is_some();
    if after != expected.output.unwrap_or(input.buffer.clone()) {
        return Err("the buffer differs".into());
    }
    if accepted {
        let again = &mut |call: Call, given: &[u8]| again(library, desk, input, call, given);
        let length = (answer - ACCEPTED) as usize * 4;
        match input.call {
            Call::FromFlat => flat::there_and_back(again, &input.given, length, &after)?,
            Call::ToFlat => flat::back_and_there(again, &input.given, length, &after)?,
            _ => round_trip(again, input, length, &after)?,
        }
    }
    Ok(answer)
}

/// Makes another call with the settings of an input: the bytes before the zeros
/// and the whole buffer.
pub type Again<'a> = dyn FnMut(Call, &[u8]) -> Result<(Vec<u8>, Vec<u8>), String> + 'a;

fn again(
    library: &Library,
    desk: &mut Desk,
    input: &Input,
    call: Call,
    given: &[u8],
) -> Result<(Vec<u8>, Vec<u8>), String> {
    let input = Input {
        call,
        given: given.to_vec(),
        ..input.clone()
    };
    let (answer, after) = self::call(library, desk, &input)?;
    let length = answer.wrapping_sub(ACCEPTED) as usize * 4;
    if length > after.len() {
        return Err(format!("round trip: {call:?} answers {answer}"));
    }
    Ok((after[..length].to_vec(), after))
}

/// A message as it lies in a slot: with zeros to 512 words.
pub fn slot(message: &[u8]) -> Vec<u8> {
    let mut slot = message.to_vec();
    slot.resize(BUFFER_BYTES, 0);
    slot
}

/// Calls the library. Gives its answer and the buffer afterwards, or says that
/// something else was changed.
fn call(library: &Library, desk: &mut Desk, input: &Input) -> Result<(u32, Vec<u8>), String> {
    let Desk {
        settings,
        given,
        buffer,
    } = desk;
    settings.put(&input.settings, input.places[0]);
    given.put(&input.given, input.places[1]);
    buffer.put(&input.buffer, input.places[2]);
    let answer = call_lent(library, input.call, settings, given, buffer);
    if settings.bytes() != input.settings || given.bytes() != input.given {
        return Err("an input was changed".into());
    }
    for lent in [settings, given, &mut *buffer] {
        if !lent.guards_whole() {
            lent.mend();
            return Err("bytes outside the ends were changed".into());
        }
    }
    Ok((answer, buffer.bytes().to_vec()))
}

fn call_lent(
    library: &Library,
    call: Call,
    settings: &mut Lent,
    given: &mut Lent,
    buffer: &mut Lent,
) -> u32 {
    let convert: Convert = match call {
        Call::CheckSettings => {
            // SAFETY: the pointer is to lent memory of that length.
            return unsafe { (library.check_settings)(settings.pointer(), settings.length()) };
        }
        Call::ReadReport => library.read_report,
        Call::ReadOrder => library.read_order,
        Call::WriteReport => library.write_report,
        Call::WriteOrder => library.write_order,
        Call::FromFlat => library.from_flat,
        Call::ToFlat => library.to_flat,
    };
    // SAFETY: the pointers are to lent memory of those lengths, disjoint.
    unsafe {
        convert(
            settings.pointer(),
            settings.length(),
            given.pointer(),
            given.length(),
            buffer.pointer(),
            buffer.length(),
        )
    }
}

/// What was accepted can be written and read back to the same contents, from
/// its own length and from 512 words.
fn round_trip(
    again: &mut Again,
    input: &Input,
    length: usize,
    output: &[u8],
) -> Result<(), String> {
    let (reader, writer) = match input.call.form() {
        Form::Report => (Call::ReadReport, Call::WriteReport),
        Form::Order => (Call::ReadOrder, Call::WriteOrder),
    };
    let output = &output[..length];
    let (contents, message) = if input.call.reads() {
        let (from_slot, _) = again(reader, &slot(&input.given))?;
        let (message, _) = again(writer, output)?;
        if from_slot != output {
            return Err("round trip: zeros after the message change its contents".into());
        }
        (output.to_vec(), message)
    } else {
        (input.given.clone(), output.to_vec())
    };
    let (back, _) = again(reader, &message)?;
    let (from_slot, _) = again(reader, &slot(&message))?;
    if back != contents || from_slot != contents {
        return Err("round trip: what was written is read to other contents".into());
    }
    Ok(())
}
