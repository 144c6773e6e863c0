//! The comparison of what the program `mondays` prints with the reference, and
//! counts of what the compared files showed.

use crate::failing;
use crate::feeding::{Feeding, Program};
use crate::moves;
use crate::random::Random;
use reference::mondays;
use std::collections::BTreeMap;
use std::path::Path;

/// From this many files on, every trap and every ending must have occurred.
pub const JUDGED: u64 = 3000;
/// Each so often.
const LEAST: u64 = 3;
/// The lines of the one long file.
const LONG: usize = 1_000_000;

/// What the compared files had, and how often.
#[derive(Default)]
pub struct Tally {
    pub files: u64,
    pub windows: u64,
    endings: BTreeMap<(Feeding, String), u64>,
    traps: BTreeMap<String, u64>,
}

impl Tally {
    fn count(&mut self, file: &[u8], feeding: Feeding, printed: &[u8]) {
        self.files += 1;
        let lines = printed.iter().filter(|&&byte| byte == b'\n').count() as u64;
        self.windows += lines - u64::from(mondays::lines(file).1.is_some());
        let ending = (feeding, moves::ending(file));
        *self.endings.entry(ending).or_default() += 1;
        for trap in moves::traps(file) {
            *self.traps.entry(trap).or_default() += 1;
        }
    }

    pub fn print(&self) {
        for ((feeding, ending), times) in &self.endings {
            println!("  {feeding:?}, {ending}: {times}");
        }
        for (trap, times) in &self.traps {
            println!("  {trap}: {times}");
        }
    }

    /// What is too rare for the files to show much.
    pub fn rare(&self) -> Vec<String> {
        let mut rare = Vec::new();
        for trap in moves::all_traps() {
            if self.traps.get(&trap).copied().unwrap_or(0) < LEAST {
                rare.push(trap);
            }
        }
        for feeding in Feeding::ALL {
            for ending in moves::endings() {
                let times = self.endings.get(&(feeding, ending.clone()));
                if times.copied().unwrap_or(0) < LEAST {
                    rare.push(format!("{feeding:?}, {ending}"));
                }
            }
        }
        rare
    }
}

/// The way that the file of this index reaches the program.
fn feeding(index: u64) -> Feeding {
    Feeding::ALL[(index % Feeding::ALL.len() as u64) as usize]
}

/// Runs the program on the file of an index.
pub fn compare(program: &Program, seed: u64, index: u64, tally: &mut Tally) -> Result<(), String> {
    let (file, feeding) = (moves::file(seed, index), feeding(index));
    let printed = same(program, &file, feeding)?;
    tally.count(&file, feeding, &printed);
    Ok(())
}

/// The answer to a file, which must be the reference's, with nothing said
/// beside it.
fn same(program: &Program, file: &[u8], feeding: Feeding) -> Result<Vec<u8>, String> {
    let expected = mondays::answer(file);
    program.must_print(file, feeding, &expected)?;
    Ok(expected.into_bytes())
}

/// The tests beside the files of a seed: the example, reads and writes that
/// fail, and a long file.
pub fn others() -> Vec<(&'static str, Test)> {
    let mut all: Vec<(&str, Test)> = vec![("the example", example)];
    all.extend(failing::ALL);
    all.push(("a long file", long_file));
    all
}

pub type Test = fn(&Program) -> Result<(), String>;

/// The stored example has the stored answer.
fn example(program: &Program) -> Result<(), String> {
    let folder = Path::new(env!("CARGO_MANIFEST_DIR")).join("../../examples");
    let read = |name| std::fs::read(folder.join(name)).map_err(|error| format!("{name}: {error}"));
    let (file, answer) = (read("moves.bin")?, read("moves.txt")?);
    let printed = same(program, &file, Feeding::File)?;
    if printed != answer || answer.is_empty() {
        return Err("examples/moves.txt is not the answer to examples/moves.bin".into());
    }
    Ok(())
}

fn long_file(program: &Program) -> Result<(), String> {
    let file = moves::good(&mut Random::new(7), LONG);
    same(program, &file, Feeding::Pieces(65_537)).map(|_| ())
}
