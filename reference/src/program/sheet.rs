//! What the program `sheet` does (sheet(1)).

use super::{reported, Reported};
use crate::number::Refusal;
use crate::roles::Role;
use crate::sheet::{self, Sheet};

/// What is printed for this standard input.
pub fn run(input: &[u8]) -> String {
    printed(&sheet_of(input))
}

/// The sheet after the last block. Every block is read and judged before it.
pub fn sheet_of(input: &[u8]) -> Result<Sheet, Refusal> {
    let Reported {
        settings,
        state,
        desk,
    } = reported(input)?;
    Ok(sheet::sheet(Role::Planner, &settings, &state, &desk)?)
}

/// A line for each mask, then the line of the counts; or the refusal.
pub fn printed(sheet: &Result<Sheet, Refusal>) -> String {
    let sheet = match sheet {
        Err(refusal) => return format!("{refusal}\n"),
        Ok(sheet) => sheet,
    };
    let mut text = String::new();
    for line in &sheet.lines {
        text += &format!("{} {}\n", line.mask, line.number);
    }
    let counts = sheet.counts().map(|count| count.to_string());
    text + &counts.join(" ") + "\n"
}

#[cfg(test)]
mod tests;
