//! What the reference says each call of the C interface must do.

use crate::library::ACCEPTED;
use reference::flat::{self, Converted};
use reference::message::{self, Contents, Form, Triple};
use reference::number::{self, refuse_if, Number, Refusal};
use reference::{settings, words};

/// A buffer to be written, in bytes.
pub const BUFFER_BYTES: usize = 4 * message::MOST_WORDS;

/// What a call must answer, and what its buffer must hold afterwards if it is
/// not to stay as it was.
#[derive(Clone, Debug, PartialEq, Eq)]
pub struct Expected {
    pub answer: u32,
    pub output: Option<Vec<u8>>,
}

/// Whether settings given as bytes are good.
pub fn check_settings(settings: &[u8]) -> u32 {
    match parse_settings(settings) {
        Ok(_) => 0,
        Err(Number(number)) => number,
    }
}

/// Reads a message given as bytes.
pub fn read(form: Form, settings: &[u8], message: &[u8], buffer: usize) -> Expected {
    outcome(read_words(form, settings, message, buffer))
}

fn read_words(
    form: Form,
    settings: &[u8],
    message: &[u8],
    buffer: usize,
) -> Result<Vec<u32>, Refusal> {
    refuse_if(buffer != BUFFER_BYTES, number::LENT_LENGTH)?;
    let settings = parse_settings(settings)?;
    let message = words::from_bytes(message).ok_or(number::LENGTH)?;
    let contents = message::read_with(form, &settings, &message)?;
    Ok(contents_words(&contents))
}

/// Writes a message from contents given as bytes.
pub fn write(form: Form, settings: &[u8], contents: &[u8], buffer: usize) -> Expected {
    outcome(write_words(form, settings, contents, buffer))
}

fn write_words(
    form: Form,
    settings: &[u8],
    contents: &[u8],
    buffer: usize,
) -> Result<Vec<u32>, Refusal> {
    refuse_if(buffer != BUFFER_BYTES, number::LENT_LENGTH)?;
    let settings = parse_settings(settings)?;
    let words = words::from_bytes(contents).ok_or(number::LENGTH)?;
    let contents = words_contents(&words).ok_or(number::LENGTH)?;
    message::write_with(form, &settings, &contents)
}

/// Turns a flat report given as bytes into ours.
pub fn from_flat(settings: &[u8], flat: &[u8], buffer: usize) -> Expected {
    converted(from_flat_words(settings, flat, buffer))
}

fn from_flat_words(settings: &[u8], flat: &[u8], buffer: usize) -> Result<Converted, Refusal> {
    refuse_if(buffer != BUFFER_BYTES, number::LENT_LENGTH)?;
    let settings = parse_settings(settings)?;
    let flat = words::from_bytes(flat).ok_or(number::FLAT_LENGTH)?;
    flat::from_flat_with(&settings, &flat)
}

/// Turns a report of ours, given as bytes, into a flat one.
pub fn to_flat(settings: &[u8], message: &[u8], buffer: usize) -> Expected {
    converted(to_flat_words(settings, message, buffer))
}

fn to_flat_words(settings: &[u8], message: &[u8], buffer: usize) -> Result<Converted, Refusal> {
    refuse_if(buffer != BUFFER_BYTES, number::LENT_LENGTH)?;
    let settings = parse_settings(settings)?;
    let message = words::from_bytes(message).ok_or(number::LENGTH)?;
    flat::to_flat_with(&settings, &message)
}

fn parse_settings(bytes: &[u8]) -> Result<settings::Settings, Number> {
    let words = words::from_bytes(bytes).ok_or(number::SETTINGS)?;
    settings::parse(&words)
}

/// The answer and the whole buffer: the words, then zeros.
fn outcome(result: Result<Vec<u32>, Refusal>) -> Expected {
    converted(result.map(|written| Converted {
        buffer: words::padded(&written, message::MOST_WORDS),
        length: written.len(),
    }))
}

/// The same of a whole buffer and the length before its zeros.
fn converted(result: Result<Converted, Refusal>) -> Expected {
    match result {
        Ok(converted) => Expected {
            answer: ACCEPTED + converted.length as u32,
            output: Some(words::to_bytes(&converted.buffer)),
        },
        Err(refusal) => Expected {
            answer: refusal.word(),
            output: None,
        },
    }
}

/// Contents as words: node, view, members, then the triples.
pub fn contents_words(contents: &Contents) -> Vec<u32> {
    let mut words = vec![contents.node, contents.view, contents.members];
    for record in &contents.records {
        words.extend([record.word0, record.word1, record.word2]);
    }
    words
}

/// The contents that words say, if they are a head and whole triples.
pub fn words_contents(words: &[u32]) -> Option<Contents> {
    if words.len() < 3 || !words.len().is_multiple_of(3) {
        return None;
    }
    let triple = |words: &[u32]| Triple {
        word0: words[0],
        word1: words[1],
        word2: words[2],
    };
    Some(Contents {
        node: words[0],
        view: words[1],
        members: words[2],
        records: words[3..].chunks_exact(3).map(triple).collect(),
    })
}
