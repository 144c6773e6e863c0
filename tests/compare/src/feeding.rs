//! Ways to give a program its standard input, and what it prints.

use std::fs::File;
use std::io::{self, Read, Write};
use std::path::PathBuf;
use std::process::{Child, ChildStdin, Command, ExitStatus, Stdio};
use std::thread;
use std::time::{Duration, Instant};

/// A program under test: its path and arguments.
#[derive(Clone)]
pub struct Program(pub Vec<String>);

/// How a file reaches the program.
#[derive(Clone, Copy, Debug, PartialEq, Eq, PartialOrd, Ord)]
pub enum Feeding {
    /// Standard input is the file.
    File,
    /// Through a pipe in pieces of so many bytes.
    Pieces(usize),
    /// Through a pipe, a piece whenever the program waits for one.
    Asked(usize),
}

impl Feeding {
    pub const ALL: [Feeding; 9] = [
        Feeding::File,
        Feeding::Pieces(3),
        Feeding::Pieces(7),
        Feeding::Pieces(4096),
        Feeding::Pieces(32_768),
        Feeding::Pieces(65_537),
        Feeding::Asked(3),
        Feeding::Asked(7),
        Feeding::Asked(4097),
    ];
}

/// A program that waits for its input is asked for at most so many pieces.
const MOST_ASKED: usize = 60;
/// A program that neither reads nor ends for so long has failed.
const PATIENCE: Duration = Duration::from_secs(20);

/// What a run left.
pub struct Ran {
    pub status: ExitStatus,
    pub printed: Vec<u8>,
    pub told: String,
}

impl Program {
    pub fn command(&self) -> Command {
        let mut command = Command::new(&self.0[0]);
        command.args(&self.0[1..]);
        command
    }

    /// Starts the program on this standard input; its outputs are kept.
    pub fn start(&self, input: impl Into<Stdio>) -> Result<Child, String> {
        let mut command = self.command();
        command.stdin(input);
        started(&mut command)
    }

    /// Runs the program on a file.
    pub fn run(&self, file: &[u8], feeding: Feeding) -> Result<Ran, String> {
        if feeding == Feeding::File {
            let stored = Stored::new(file).map_err(said)?;
            return finished(self.start(stored.open().map_err(said)?)?);
        }
        let mut child = self.start(Stdio::piped())?;
        let pipe = child.stdin.take().ok_or("no pipe")?;
        let id = child.id();
        thread::scope(|scope| {
            let fed = scope.spawn(move || feed(pipe, id, file, feeding));
            let ran = finished(child);
            fed.join().map_err(|_| "the feeding thread failed")??;
            ran
        })
    }

    /// Runs the program on a file. It must print the reference's text, and say
    /// nothing beside it.
    pub fn must_print(&self, file: &[u8], feeding: Feeding, text: &str) -> Result<(), String> {
        let ran = self.run(file, feeding)?;
        if ran.printed != text.as_bytes() {
            let what = first_difference(&ran.printed, text);
            return Err(format!("{} bytes, {feeding:?}: {what}", file.len()));
        }
        if !ran.told.is_empty() || !ran.status.success() {
            let (status, told) = (ran.status, ran.told);
            return Err(format!("{feeding:?}: ended with {status}, told {told:?}"));
        }
        Ok(())
    }
}

/// Where a text that was printed first differs from another one.
fn first_difference(printed: &[u8], expected: &str) -> String {
    let printed = String::from_utf8_lossy(printed);
    let (mut ours, mut theirs) = (
        printed.split_inclusive('\n'),
        expected.split_inclusive('\n'),
    );
    for line in 1.. {
        let (own, other) = (ours.next(), theirs.next());
        if own != other || own.is_none() {
            return format!("output line {line} is {own:?}, the reference's {other:?}");
        }
    }
    unreachable!("a text has an end")
}

/// Starts a command whose outputs are kept.
pub fn started(command: &mut Command) -> Result<Child, String> {
    command
        .stdout(Stdio::piped())
        .stderr(Stdio::piped())
        .spawn()
        .map_err(|error| format!("{:?} does not start: {error}", command.get_program()))
}

/// Waits for the program's end.
pub fn finished(child: Child) -> Result<Ran, String> {
    let output = child.wait_with_output().map_err(said)?;
    Ok(Ran {
        status: output.status,
        printed: output.stdout,
        told: String::from_utf8_lossy(&output.stderr).into_owned(),
    })
}

pub fn said(error: io::Error) -> String {
    error.to_string()
}

/// Writes a file into the pipe. A program that has ended need not read it all.
fn feed(mut pipe: ChildStdin, id: u32, file: &[u8], feeding: Feeding) -> Result<(), String> {
    let (piece, asked) = match feeding {
        Feeding::Pieces(piece) => (piece, false),
        // An odd number of bytes, so that pieces end inside lines.
        Feeding::Asked(piece) => (piece.max(file.len() / MOST_ASKED) | 1, true),
        Feeding::File => (file.len().max(1), false),
    };
    for bytes in file.chunks(piece) {
        if asked && !waits(id)? || pipe.write_all(bytes).is_err() {
            return Ok(());
        }
    }
    Ok(())
}

/// Waits until the program sleeps, as it does when it has read all there is.
/// False if it has ended.
pub fn waits(id: u32) -> Result<bool, String> {
    let state = until(id, &['S', 'Z', 'X'])?;
    Ok(state == 'S')
}

/// Waits until the program is in one of these states; gives that state.
pub fn until(id: u32, states: &[char]) -> Result<char, String> {
    let begun = Instant::now();
    while begun.elapsed() < PATIENCE {
        let state = state(id);
        if states.contains(&state) {
            return Ok(state);
        }
        thread::yield_now();
    }
    Err("the program neither waits for its input nor ends".into())
}

/// The letter of the program's state in /proc, X if it is gone.
fn state(id: u32) -> char {
    let text = std::fs::read_to_string(format!("/proc/{id}/stat")).unwrap_or_default();
    let after_name = text.rsplit_once(") ").map_or("X", |parts| parts.1);
    after_name.chars().next().unwrap_or('X')
}

/// The most memory that the program has had so far, in KiB.
pub fn peak(id: u32) -> Result<u64, String> {
    let text = std::fs::read_to_string(format!("/proc/{id}/status")).map_err(said)?;
    let line = text.lines().find(|line| line.starts_with("VmHWM:"));
    let size = line.and_then(|line| line.split_whitespace().nth(1));
    size.and_then(|size| size.parse().ok())
        .ok_or_else(|| "its memory is not told".into())
}

/// Reads all that comes and throws it away; gives how much it was.
pub fn drain(mut from: impl Read) -> io::Result<u64> {
    io::copy(&mut from, &mut io::sink())
}

/// A file on disk for as long as this lives.
struct Stored(PathBuf);

impl Stored {
    fn new(bytes: &[u8]) -> io::Result<Stored> {
        let thread = format!("{:?}", thread::current().id());
        let number: String = thread.chars().filter(char::is_ascii_digit).collect();
        let name = format!("input-{}-{number}", std::process::id());
        let path = std::env::temp_dir().join(name);
        std::fs::write(&path, bytes)?;
        Ok(Stored(path))
    }

    fn open(&self) -> io::Result<File> {
        File::open(&self.0)
    }
}

impl Drop for Stored {
    fn drop(&mut self) {
        let _ = std::fs::remove_file(&self.0);
    }
}
