//! Calls of the converters with a length that a word cannot hold: more than
//! 4 GiB, or more than 2^32 words. Nearly all of it is zeros, which take no
//! room. The reference would copy them, so the answers are written here by hand.

use crate::expected::BUFFER_BYTES;
use crate::lent::Sparse;
use crate::library::{Answer, Convert, Library};
use reference::words;

const SETTINGS: [u32; 14] = [7, 3, 4, 3, 0, 0, 1, 1, 1, 2, 2, 2, 3, 1];
/// A flat report, and the same as ours.
const FLAT: [u32; 12] = [1, 7, 127, 3, 5, 82, 32, 0, 1, 1, 7, 5];
#[rustfmt::skip]
const OURS: [u32; 20] = [
    1, 7, 127, 1, 256, 5, 0, 2, 257, 82, 0, 3, 258, 32, 0, 4, 769, 7, 5, 0,
];

/// A turn of a word, in bytes and in words.
const BYTES: usize = 1 << 32;
const WORDS: usize = 4 * BYTES;

/// A piece that is lent: its first words and the bytes that it has.
type Piece<'a> = (&'a [u32], usize);

/// Makes every call and gives their number.
pub fn play_all(library: &Library) -> Result<usize, String> {
    let mut calls = 0;
    let mut call = |convert: Convert, pieces: [Piece; 3], number: u32| {
        calls += 1;
        made(convert, pieces, number).map_err(|what| format!("huge call {calls}: {what}"))
    };
    let (from_flat, to_flat) = (library.from_flat, library.to_flat);
    let settings: Piece = (&SETTINGS, 4 * SETTINGS.len());
    let buffer: Piece = (&[], BUFFER_BYTES);

    // A flat report and more zeros than its counts explain.
    for more in [BYTES, WORDS, BYTES + WORDS] {
        let flat: Piece = (&FLAT, 4 * FLAT.len() + more);
        let ours: Piece = (&OURS, 4 * OURS.len() + more);
        call(from_flat, [settings, flat, buffer], 19)?;
        call(to_flat, [settings, ours, buffer], 5)?;
    }
    // So many masks, no termination and no runs: the length is explained, or a
    // word more or less.
    for masks in [1 << 30, 1 << 31, u32::MAX - 3, u32::MAX] {
        let words = [1, 7, 127, masks];
        let length = 4 * (6 + masks as usize);
        call(from_flat, [settings, (&words, length), buffer], 21)?;
        call(from_flat, [settings, (&words, length + 4), buffer], 19)?;
        call(from_flat, [settings, (&words, length - 4), buffer], 19)?;
    }
    // So many runs, the first of count 0.
    for runs in [1 << 30, 1_431_655_766, u32::MAX] {
        let mut words = FLAT;
        words[8] = runs;
        words[11] = 0;
        let length = 4 * (9 + 3 * runs as usize);
        call(from_flat, [settings, (&words, length), buffer], 20)?;
        call(from_flat, [settings, (&words, length + 4), buffer], 19)?;
        call(from_flat, [settings, (&words, length - 4), buffer], 19)?;
    }
    // Settings and buffers that are too long.
    for more in [BYTES, WORDS] {
        let flat: Piece = (&FLAT, 4 * FLAT.len());
        let ours: Piece = (&OURS, 4 * OURS.len());
        for (convert, given) in [(from_flat, flat), (to_flat, ours)] {
            let longer = (settings.0, settings.1 + more);
            call(convert, [longer, given, buffer], 2)?;
            call(convert, [settings, given, (buffer.0, buffer.1 + more)], 1)?;
        }
    }
    Ok(calls)
}

/// Makes one call, which is to be refused with this number. Nothing that it is
/// lent can be written, and the pieces of a common length lie in more zeros.
fn made(convert: Convert, pieces: [Piece; 3], number: u32) -> Result<(), String> {
    let lend = |(words, length): Piece| Sparse::new(&words::to_bytes(words), length.max(4096));
    let lent = pieces.map(lend);
    let [settings, given, buffer] = pieces.map(|(_, length)| length);
    // SAFETY: the pointers are to lent memory of at least those lengths.
    let answer = unsafe {
        convert(
            lent[0].pointer(),
            settings,
            lent[1].pointer(),
            given,
            lent[2].pointer(),
            buffer,
        )
    };
    match answer == number {
        true => Ok(()),
        false => Err(format!("{}, not number {number}", Answer::of(answer))),
    }
}
