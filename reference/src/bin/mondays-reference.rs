//! The reference's form of the program `mondays`: reads a moves file from
//! standard input and prints what its windows come to.

use reference::mondays;
use std::fs::File;
use std::io::{self, BufReader, BufWriter, Write};
use std::os::fd::AsFd;
use std::process::ExitCode;

fn main() -> ExitCode {
    match print() {
        Ok(()) => ExitCode::SUCCESS,
        Err(error) => {
            eprintln!("mondays: {error}");
            ExitCode::FAILURE
        }
    }
}

/// Standard input is taken as a file: `Stdin` would take a descriptor that
/// cannot be read for an empty one.
fn print() -> io::Result<()> {
    let input = io::stdin().as_fd().try_clone_to_owned()?;
    let mut output = BufWriter::new(io::stdout().lock());
    let done = mondays::run(&mut BufReader::new(File::from(input)), &mut output);
    output.flush()?;
    done
}
