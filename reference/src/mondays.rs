//! What the program `mondays` does (mondays(1)).

use crate::number::{self, refuse_if, Number};
use crate::words;
use std::collections::VecDeque;
use std::io::{self, Read, Write};

/// So many consecutive lines are a window.
pub const WINDOW: usize = 64;
/// A line has two words: a restart number and its moves.
pub const LINE_BYTES: usize = 8;
/// A restart has at most so many moves.
pub const MOST_MOVES: u32 = 128;

/// A line of the moves file.
#[derive(Clone, Copy, Debug, PartialEq, Eq)]
pub struct Line {
    pub restart: u32,
    pub moves: u32,
}

/// The line that these bytes are, after the line `before` if there is one.
fn line(before: Option<Line>, bytes: &[u8]) -> Result<Line, Number> {
    refuse_if(bytes.len() < LINE_BYTES, number::LINE)?;
    let words = words::whole_words(bytes);
    let (restart, moves) = (words[0], words[1]);
    let ascends = before.is_none_or(|before| before.restart < restart);
    refuse_if(!ascends, number::LINE)?;
    refuse_if(moves > MOST_MOVES, number::MOVES)?;
    Ok(Line { restart, moves })
}

/// The lines before the first bad one, and the number of that one.
pub fn lines(file: &[u8]) -> (Vec<Line>, Option<Number>) {
    let mut lines = Vec::new();
    for bytes in file.chunks(LINE_BYTES) {
        match line(lines.last().copied(), bytes) {
            Ok(line) => lines.push(line),
            Err(number) => return (lines, Some(number)),
        }
    }
    (lines, None)
}

/// The sum of the moves of these lines and the greatest single one.
fn window_text<'a>(lines: impl Iterator<Item = &'a Line> + Clone) -> String {
    let sum: u32 = lines.clone().map(|line| line.moves).sum();
    let greatest = lines.map(|line| line.moves).max().unwrap_or(0);
    format!("{sum} {greatest}\n")
}

fn number_text(Number(number): Number) -> String {
    format!("number {number}\n")
}

/// What is printed for this file.
pub fn answer(file: &[u8]) -> String {
    let (lines, bad) = lines(file);
    let mut printed = String::new();
    for window in lines.windows(WINDOW) {
        printed += &window_text(window.iter());
    }
    printed + &bad.map_or(String::new(), number_text)
}

/// Reads a file line by line and prints its answer as it goes. A failed read
/// or write ends it with nothing more printed.
pub fn run(input: &mut impl Read, output: &mut impl Write) -> io::Result<()> {
    let mut last: VecDeque<Line> = VecDeque::new();
    loop {
        let mut bytes = Vec::with_capacity(LINE_BYTES);
        input.take(LINE_BYTES as u64).read_to_end(&mut bytes)?;
        if bytes.is_empty() {
            return Ok(());
        }
        match line(last.back().copied(), &bytes) {
            Ok(line) => last.push_back(line),
            Err(number) => return output.write_all(number_text(number).as_bytes()),
        }
        if last.len() > WINDOW {
            last.pop_front();
        }
        if last.len() == WINDOW {
            output.write_all(window_text(last.iter()).as_bytes())?;
        }
    }
}

#[cfg(test)]
mod tests;
