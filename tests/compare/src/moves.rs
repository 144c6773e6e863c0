//! Moves files, the inputs of the program `mondays`: whole and damaged ones,
//! and what is in a file that a wrong program could trip over.

use crate::random::Random;
use reference::mondays::{self, Line, LINE_BYTES, MOST_MOVES, WINDOW};
use reference::number::{self, Number};
use reference::words;
use std::collections::BTreeSet;

/// The program reads so many lines at a time.
pub const BLOCK: usize = 4096;

/// Line counts at which a program can be off by one.
const COUNTS: [usize; 8] = [
    0,
    WINDOW - 1,
    WINDOW,
    WINDOW + 1,
    BLOCK - 1,
    BLOCK,
    BLOCK + 1,
    2 * BLOCK + WINDOW - 1,
];

/// Lines at which a fault can be missed: the ends of the first windows and of
/// blocks.
const PLACES: [usize; 8] = [
    0,
    1,
    WINDOW - 1,
    WINDOW,
    BLOCK - 1,
    BLOCK,
    2 * BLOCK - 1,
    2 * BLOCK,
];

/// The file of this index: lines, most of them with a fault.
pub fn file(seed: u64, index: u64) -> Vec<u8> {
    let random = &mut Random::of_input(seed, index);
    let mut lines = lines(random);
    for _ in 0..random.pick(&[0, 0, 0, 1, 1, 2]) {
        damage(random, &mut lines);
    }
    let mut file = bytes_of(&lines);
    if random.chance(25) {
        let more = random.between(1, LINE_BYTES as u32 - 1) as usize;
        if random.chance(50) {
            file.truncate(file.len().saturating_sub(more));
        } else {
            file.extend(vec![random.pick(&[0, 1, 200, 255]); more]);
        }
    }
    file
}

/// A file of so many good lines.
pub fn good(random: &mut Random, count: usize) -> Vec<u8> {
    let moves = moves(random, count);
    bytes_of(&number_lines(random, &moves))
}

fn bytes_of(lines: &[Line]) -> Vec<u8> {
    let words: Vec<u32> = lines
        .iter()
        .flat_map(|line| [line.restart, line.moves])
        .collect();
    words::to_bytes(&words)
}

fn lines(random: &mut Random) -> Vec<Line> {
    let count = match random.between(0, 9) {
        0..=2 => random.pick(&COUNTS),
        3 => random.between(0, 70) as usize,
        4 => random.between(BLOCK as u32 - 70, BLOCK as u32 + 70) as usize,
        5 => random.between(1, 2 * BLOCK as u32 + 70) as usize,
        6 if random.chance(30) => random.between(2 * BLOCK as u32, 2 * BLOCK as u32 + 70) as usize,
        _ => random.between(WINDOW as u32, 300) as usize,
    };
    let moves = moves(random, count);
    number_lines(random, &moves)
}

/// Moves of one shape.
fn moves(random: &mut Random, count: usize) -> Vec<u32> {
    let shape = random.between(0, 8);
    let (any, period) = (
        random.between(0, MOST_MOVES),
        random.pick(&[2, 63, 64, 65, 200]),
    );
    let step = |line: usize| (line % (MOST_MOVES as usize + 1)) as u32;
    (0..count)
        .map(|line| match shape {
            0 => 0,
            1 => MOST_MOVES,
            2 => any,
            3 => MOST_MOVES - step(line),
            4 => step(line),
            5 if line % period == 0 => any,
            5 => random.between(0, 3),
            6 => random.between(0, 5),
            _ => random.between(0, MOST_MOVES),
        })
        .collect()
}

/// The lines with these moves, their restart numbers ascending.
fn number_lines(random: &mut Random, moves: &[u32]) -> Vec<Line> {
    let widest = u32::MAX / (moves.len() as u32 + 1);
    let gap = random.pick(&[1, 1, 2, 300, 70_000, widest]).min(widest);
    let steps: Vec<u32> = moves.iter().map(|_| random.between(1, gap)).collect();
    let span: u32 = steps.iter().skip(1).sum();
    let room = u32::MAX - span;
    let first = match random.between(0, 5) {
        0 => 0,
        1 => room,
        2 => ((1u32 << 31) - span.min(1 << 31) / 2).min(room),
        3 => random.between(0, room.min(300)),
        _ => random.between(0, room),
    };
    let mut restart = first;
    let mut lines = Vec::new();
    for (at, &moves) in moves.iter().enumerate() {
        restart = if at == 0 { first } else { restart + steps[at] };
        lines.push(Line { restart, moves });
    }
    lines
}

/// Puts a fault into a line.
fn damage(random: &mut Random, lines: &mut [Line]) {
    if lines.is_empty() {
        return;
    }
    let last = lines.len() - 1;
    let any = random.below(lines.len());
    let places: Vec<usize> = PLACES.into_iter().filter(|&at| at <= last).collect();
    let latest = random.pick(&places[places.len().saturating_sub(2)..]);
    let special = random.pick(&places);
    let at = random.pick(&[any, last, latest, special, special]);
    let before = lines[at.saturating_sub(1)].restart;
    let line = &mut lines[at];
    let many = [MOST_MOVES + 1, 256, 500, 1 << 16, 1 << 24, u32::MAX];
    let smaller = [before, before, before.saturating_sub(1), 0, before / 2];
    let fault = random.between(0, 6);
    if (3..6).contains(&fault) {
        line.moves = random.pick(&many);
    }
    if fault <= 3 {
        line.restart = random.pick(&smaller);
    } else if fault == 6 {
        // No line can follow.
        line.restart = u32::MAX;
    }
}

/// How a file's answer ends, after windows or without any.
pub fn ending(file: &[u8]) -> String {
    let (lines, bad) = mondays::lines(file);
    let windows = if lines.len() < WINDOW {
        "no window"
    } else {
        "windows"
    };
    match bad {
        None => windows.into(),
        Some(Number(number)) => format!("{windows}, number {number}"),
    }
}

/// Every ending that a file can have.
pub fn endings() -> BTreeSet<String> {
    let mut all = BTreeSet::new();
    for windows in ["no window", "windows"] {
        for number in ["", ", number 24", ", number 25"] {
            all.insert(format!("{windows}{number}"));
        }
    }
    all
}

/// Every trap that a file can have.
pub fn all_traps() -> BTreeSet<String> {
    let mut all: BTreeSet<String> = OTHER_TRAPS.map(String::from).into();
    all.extend(COUNTS.map(good_lines));
    all.extend(PLACES.map(bad_line));
    all.extend((1..LINE_BYTES).map(part_line));
    for digits in 1..=4 {
        all.insert(sum_digits(digits));
    }
    for digits in 1..=3 {
        all.insert(greatest_digits(digits));
    }
    all
}

fn good_lines(count: usize) -> String {
    format!("exactly {count} lines, all good")
}

fn bad_line(at: usize) -> String {
    format!("the first bad line has {at} before it")
}

fn part_line(bytes: usize) -> String {
    format!("cut short to {bytes} bytes after good lines")
}

fn sum_digits(digits: usize) -> String {
    format!("a sum of {digits} digits")
}

fn greatest_digits(digits: usize) -> String {
    format!("a greatest of {digits} digits")
}

const FIRST_0: &str = "the first number is 0";
const FIRST_LARGEST: &str = "the first number is 4294967295";
const LAST_LARGEST: &str = "the last number is 4294967295";
const AFTER_LARGEST: &str = "a line after 4294967295";
const ACROSS_SIGN: &str = "numbers on both sides of 2147483648";
const ALL_0: &str = "windows with no moves at all";
const ALL_128: &str = "windows of 128 moves in each line";
const GREATEST_LEAVES: &str = "the greatest leaves in each of 64 windows";
const GREATEST_STAYS: &str = "the greatest leaves and its equal stays";
const REPEATED: &str = "a number repeated";
const DESCENDING: &str = "a smaller number";
const MOVES_129: &str = "129 moves";
const MOVES_LOW_BYTE: &str = "too many moves whose lowest byte is small";
const BOTH: &str = "out of sequence with too many moves";
const SECOND_BAD: &str = "a later bad line of the other number";
const BAD_THEN_CUT: &str = "too many moves, and cut short at the end";
const CUT_IN_NEW_BLOCK: &str = "cut short just after whole blocks";

const OTHER_TRAPS: [&str; 17] = [
    FIRST_0,
    FIRST_LARGEST,
    LAST_LARGEST,
    AFTER_LARGEST,
    ACROSS_SIGN,
    ALL_0,
    ALL_128,
    GREATEST_LEAVES,
    GREATEST_STAYS,
    REPEATED,
    DESCENDING,
    MOVES_129,
    MOVES_LOW_BYTE,
    BOTH,
    SECOND_BAD,
    BAD_THEN_CUT,
    CUT_IN_NEW_BLOCK,
];

/// The traps that this file has.
pub fn traps(file: &[u8]) -> BTreeSet<String> {
    let (lines, bad) = mondays::lines(file);
    let mut traps = whole_traps(&lines);
    match bad {
        None => {
            traps.insert(good_lines(lines.len()));
        }
        Some(number) => traps.extend(bad_traps(file, &lines, number)),
    }
    let all = all_traps();
    traps.retain(|trap| all.contains(trap));
    traps
}

/// The traps of a file's good lines.
fn whole_traps(lines: &[Line]) -> BTreeSet<String> {
    let mut traps = BTreeSet::new();
    let (Some(first), Some(last)) = (lines.first(), lines.last()) else {
        return traps;
    };
    let windows: Vec<(u32, u32)> = lines.windows(WINDOW).map(sum_and_greatest).collect();
    let falls = |pair: &[(u32, u32)]| pair[0].1 > pair[1].1;
    let stays = |(at, pair): (usize, &[(u32, u32)])| {
        lines[at].moves == pair[0].1
            && pair[0].1 == pair[1].1
            && lines[at + WINDOW].moves < pair[0].1
    };
    let sign = 1 << 31;
    let mut found = vec![
        (FIRST_0, first.restart == 0),
        (FIRST_LARGEST, first.restart == u32::MAX),
        (
            LAST_LARGEST,
            last.restart == u32::MAX && lines.len() > WINDOW,
        ),
        (ACROSS_SIGN, first.restart < sign && sign <= last.restart),
        (ALL_0, windows.iter().any(|window| window.0 == 0)),
        (ALL_128, windows.iter().any(|window| window.0 == 8192)),
    ];
    let mut runs = windows.windows(WINDOW + 1);
    let leaves = runs.any(|run| run.windows(2).all(falls));
    found.push((GREATEST_LEAVES, leaves));
    found.push((GREATEST_STAYS, windows.windows(2).enumerate().any(stays)));
    let found = found.into_iter().filter(|trap| trap.1);
    traps.extend(found.map(|trap| trap.0.to_string()));
    for (sum, greatest) in windows {
        traps.insert(sum_digits(sum.to_string().len()));
        traps.insert(greatest_digits(greatest.to_string().len()));
    }
    traps
}

fn sum_and_greatest(window: &[Line]) -> (u32, u32) {
    let moves = || window.iter().map(|line| line.moves);
    (moves().sum(), moves().max().unwrap_or(0))
}

/// The traps of a file whose first bad line comes after these.
fn bad_traps(file: &[u8], lines: &[Line], number: Number) -> BTreeSet<String> {
    let rest = &file[lines.len() * LINE_BYTES..];
    let part = file.len() % LINE_BYTES;
    if rest.len() < LINE_BYTES {
        let mut traps = BTreeSet::from([part_line(rest.len()), bad_line(lines.len())]);
        if !lines.is_empty() && lines.len().is_multiple_of(BLOCK) {
            traps.insert(CUT_IN_NEW_BLOCK.into());
        }
        return traps;
    }
    let bad = words::whole_words(&rest[..LINE_BYTES]);
    let (restart, moves) = (bad[0], bad[1]);
    let before = lines.last().map(|line| line.restart);
    let over = moves > MOST_MOVES;
    let sequence = number == number::LINE;
    let found = [
        (REPEATED, before == Some(restart)),
        (DESCENDING, before > Some(restart)),
        (AFTER_LARGEST, before == Some(u32::MAX)),
        (MOVES_129, !sequence && moves == MOST_MOVES + 1),
        (MOVES_LOW_BYTE, !sequence && moves & 255 <= MOST_MOVES),
        (BOTH, sequence && over),
        (SECOND_BAD, second_bad(rest, number)),
        (BAD_THEN_CUT, !sequence && part != 0),
    ];
    let found = found.into_iter().filter(|trap| trap.1);
    let mut traps: BTreeSet<String> = found.map(|trap| trap.0.into()).collect();
    traps.insert(bad_line(lines.len()));
    traps
}

/// Whether a later line is bad by the other number.
fn second_bad(rest: &[u8], number: Number) -> bool {
    let words = words::whole_words(rest);
    let later = || words.chunks_exact(2).skip(1);
    if number == number::LINE {
        later().any(|line| line[1] > MOST_MOVES)
    } else {
        words
            .chunks_exact(2)
            .zip(later())
            .any(|(a, b)| a[0] >= b[0])
    }
}

#[cfg(test)]
mod tests {
    use super::*;

    #[test]
    fn good_files_are_good() {
        for index in 0..200 {
            let random = &mut Random::of_input(5, index);
            let count = random.between(0, 9000) as usize;
            let (lines, bad) = mondays::lines(&good(random, count));
            assert_eq!((lines.len(), bad), (count, None));
        }
    }

    #[test]
    fn traps_are_seen_in_the_file_itself() {
        let mut lines: Vec<Line> = (0..70).map(|restart| Line { restart, moves: 3 }).collect();
        let whole = traps(&bytes_of(&lines));
        assert!(whole.contains(FIRST_0) && whole.contains("a sum of 3 digits"));
        assert!(!whole.contains(REPEATED) && !whole.contains(ALL_0));
        lines[64] = Line {
            restart: 63,
            moves: 900,
        };
        let bad = traps(&bytes_of(&lines));
        assert!(bad.contains(REPEATED) && bad.contains(BOTH) && bad.contains(&bad_line(64)));
        assert_eq!(ending(&bytes_of(&lines)), "windows, number 24");
    }
}
