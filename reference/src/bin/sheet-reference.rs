//! The reference's form of the program `sheet`: reads blocks of words from
//! standard input and prints the readiness sheet or the number.

use std::io::{self, Read, Write};

fn main() -> io::Result<()> {
    let mut input = Vec::new();
    io::stdin().read_to_end(&mut input)?;
    let printed = reference::program::sheet::run(&input);
    io::stdout().write_all(printed.as_bytes())
}
