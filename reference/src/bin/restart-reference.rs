//! The reference's form of the program `restart`: reads blocks of words from
//! standard input and prints the plan, the wait or the number.

use std::io::{self, Read, Write};

fn main() -> io::Result<()> {
    let mut input = Vec::new();
    io::stdin().read_to_end(&mut input)?;
    let printed = reference::program::run(&input);
    io::stdout().write_all(printed.as_bytes())
}
