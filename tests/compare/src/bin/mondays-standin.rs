//! A stand-in for the program `mondays` with one fault, or none, by its name:
//! `mondays-standin [FAULT]`. The comparison must find each of them
//! (`tests/mondays.rs`).

use std::collections::VecDeque;
use std::fs::File;
use std::io::{self, BufWriter, ErrorKind, Read, Write};
use std::os::fd::AsFd;
use std::process::ExitCode;

const BLOCK_BYTES: usize = 32_768;

struct Standin {
    fault: String,
    window: usize,
    last: VecDeque<[u32; 2]>,
    greatest: u32,
    output: BufWriter<File>,
}

/// Whether to read on.
type Step = io::Result<bool>;

impl Standin {
    fn has(&self, fault: &str) -> bool {
        self.fault == fault
    }

    /// Takes the lines of a block, the last of which may be cut short.
    fn block(&mut self, block: &[u8]) -> Step {
        if self.has("windows start anew in each block") {
            self.last.clear();
        }
        if self.has("each block may start with any number") {
            if let Some(line) = self.last.back_mut() {
                line[0] = 0;
            }
        }
        for bytes in block.chunks(8) {
            let line = match bytes.len() {
                8 => {
                    let word = |at: usize| u32::from_le_bytes([0, 1, 2, 3].map(|i| bytes[at + i]));
                    Some([word(0), word(4)])
                }
                _ => None,
            };
            if line.is_none() && self.has("a part line is left out") {
                return Ok(false);
            }
            if let Some(number) = self.bad(line) {
                writeln!(self.output, "number {number}")?;
                return Ok(self.has("goes on after a bad line"));
            }
            self.take(line.unwrap_or_default())?;
        }
        Ok(true)
    }

    /// The number of a bad line.
    fn bad(&self, line: Option<[u32; 2]>) -> Option<u32> {
        let Some([restart, moves]) = line else {
            return Some(24);
        };
        let descends = self.last.back().is_some_and(|before| match () {
            _ if self.has("a repeated number is good") => before[0] > restart,
            _ if self.has("numbers have a sign") => before[0] as i32 >= restart as i32,
            _ => before[0] >= restart,
        });
        let first_0 = self.last.is_empty() && restart == 0;
        let many = match () {
            _ if self.has("128 moves are too many") => moves >= 128,
            _ if self.has("129 moves are good") => moves > 129,
            _ if self.has("the moves are a byte") => moves & 255 > 128,
            _ => moves > 128,
        };
        match () {
            _ if self.has("25 comes before 24") && many => Some(25),
            _ if descends || first_0 && self.has("0 is no number") => Some(24),
            _ if many => Some(25),
            _ => None,
        }
    }

    /// Takes a good line and prints the window that ends with it.
    fn take(&mut self, line: [u32; 2]) -> io::Result<()> {
        self.last.push_back(line);
        if self.last.len() > self.window {
            self.last.pop_front();
        }
        self.greatest = self.greatest.max(line[1]);
        if self.last.len() < self.window {
            return Ok(());
        }
        let moves = self.last.iter().map(|line| line[1]);
        let mut greatest = moves.clone().max().unwrap_or(0);
        if self.has("the greatest never leaves") {
            greatest = self.greatest;
        }
        if self.has("the greatest of all but the oldest") {
            greatest = moves.clone().skip(1).max().unwrap_or(0);
        }
        let mut sum: u32 = moves.sum();
        if self.has("the sum has 12 bits") {
            sum &= 4095;
        }
        writeln!(self.output, "{sum} {greatest}")
    }

    /// Fills a block as far as the input goes.
    fn fill(&self, input: &mut File, block: &mut [u8]) -> io::Result<usize> {
        let mut got = 0;
        while got < block.len() {
            match input.read(&mut block[got..]) {
                Ok(0) => break,
                Ok(count) => got += count,
                Err(error) if error.kind() == ErrorKind::Interrupted => {
                    if self.has("an interrupted read is the end") {
                        break;
                    }
                    if self.has("an interrupted read fails") {
                        return Err(error);
                    }
                    if self.has("an interrupted read loses its block") {
                        got = 0;
                    }
                }
                Err(_) if self.has("a failed read is the end") => break,
                Err(_) if self.has("a failed read is the end, told") => {
                    eprintln!("mondays: a read failed");
                    break;
                }
                Err(error) => return Err(error),
            }
            if self.has("a short read is taken as it is") {
                break;
            }
        }
        Ok(got)
    }

    fn run(&mut self, input: &mut File) -> io::Result<()> {
        let mut kept = Vec::new();
        loop {
            let mut block = vec![0; BLOCK_BYTES];
            let got = self.fill(input, &mut block)?;
            if got == 0 || !self.block(&block[..got])? {
                return Ok(());
            }
            if self.has("keeps what it has read") {
                kept.push(block);
            }
        }
    }

    /// Runs, writes out what is printed, and gives what failed.
    fn finish(&mut self, input: &mut File) -> io::Result<()> {
        let done = self.run(input);
        if done.is_err() && self.has("a failed read loses the windows before") {
            return done;
        }
        if done.is_err() && self.has("a failed read prints a number") {
            writeln!(self.output, "number 24")?;
        }
        self.output.flush().and(done)
    }
}

fn main() -> ExitCode {
    let fault = std::env::args().nth(1).unwrap_or_default();
    let window = match fault.as_str() {
        "a window has 63 lines" => 63,
        "a window has 65 lines" => 65,
        _ => 64,
    };
    // Files, since Rust's own standard streams take a closed one for good.
    let open = |stream: io::Result<std::os::fd::OwnedFd>| stream.map(File::from);
    let input = open(io::stdin().as_fd().try_clone_to_owned());
    let output = open(io::stdout().as_fd().try_clone_to_owned());
    let (Ok(mut input), Ok(output)) = (input, output) else {
        return ExitCode::FAILURE;
    };
    let mut standin = Standin {
        fault,
        window,
        last: VecDeque::new(),
        greatest: 0,
        output: BufWriter::new(output),
    };
    match standin.finish(&mut input) {
        Ok(()) => ExitCode::SUCCESS,
        Err(error) => {
            let silent = match error.kind() {
                ErrorKind::StorageFull => "a failed write is not told",
                _ => "a failed read is not told",
            };
            if !standin.has(silent) {
                eprintln!("mondays: {error}");
            }
            if standin.has("a failed read loses the windows before") {
                // What is in the buffer is not written.
                std::process::exit(1);
            }
            ExitCode::FAILURE
        }
    }
}
