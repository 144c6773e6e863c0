//! Stored calls of the readers, writers and converters, as text
//! (tests/compare/regressions/messages and tests/compare/regressions/flat):
//!
//! ```text
//! settings WORD ..
//! read_report WORD .. = ANSWER         read_order alike: the words of a message
//! write_report WORD .. = ANSWER        write_order alike: the words of contents
//! from_flat WORD .. = ANSWER           the words of a flat report
//! to_flat WORD .. = ANSWER             the words of a message
//! ```
//!
//! The answers are written by hand from the specification; each call is compared
//! with the reference as well.

use crate::expected::BUFFER_BYTES;
use crate::lent::Place;
use crate::library::{Answer, Library};
use crate::messages::{self, Call, Desk, Input};
use crate::regressions;
use reference::words;
use std::path::PathBuf;

/// Makes every stored call of a folder and gives their number.
pub fn play_all(library: &Library, folder: &str) -> Result<usize, String> {
    let directory = regressions::directory().join(folder);
    let files = std::fs::read_dir(directory).map_err(|error| error.to_string())?;
    let mut paths: Vec<PathBuf> = files.flatten().map(|file| file.path()).collect();
    paths.sort();
    let mut calls = 0;
    for path in paths {
        let name = path.file_name().unwrap_or_default().to_string_lossy();
        let text = std::fs::read_to_string(&path).map_err(|error| format!("{name}: {error}"))?;
        calls += play(library, &text).map_err(|what| format!("{name}, {what}"))?;
    }
    Ok(calls)
}

/// Makes the calls of a text and gives their number.
pub fn play(library: &Library, text: &str) -> Result<usize, String> {
    let mut desk = Desk::default();
    let mut settings = Vec::new();
    let mut calls = 0;
    for (number, line) in (1..).zip(text.lines()) {
        let line = line.split('#').next().unwrap_or("").trim();
        let (first, rest) = line.split_once(' ').unwrap_or((line, ""));
        let said = match first {
            "" => continue,
            "settings" => values(rest).map(|words| settings = words),
            _ => {
                calls += 1;
                made(library, &mut desk, &settings, first, rest)
            }
        };
        said.map_err(|what| format!("line {number}: {what}"))?;
    }
    Ok(calls)
}

fn made(
    library: &Library,
    desk: &mut Desk,
    settings: &[u32],
    name: &str,
    rest: &str,
) -> Result<(), String> {
    let (given, answer) = rest.split_once("= ").ok_or("no answer")?;
    let input = Input {
        call: call(name)?,
        settings: words::to_bytes(settings),
        given: words::to_bytes(&values(given)?),
        buffer: vec![0xEE; BUFFER_BYTES],
        places: [Place::Last; 3],
    };
    let is = Answer::of(messages::compare(library, desk, &input)?);
    match is.to_string() == answer {
        true => Ok(()),
        false => Err(format!("the answer is {is}, not {answer}")),
    }
}

fn call(name: &str) -> Result<Call, String> {
    match name {
        "read_report" => Ok(Call::ReadReport),
        "read_order" => Ok(Call::ReadOrder),
        "write_report" => Ok(Call::WriteReport),
        "write_order" => Ok(Call::WriteOrder),
        "from_flat" => Ok(Call::FromFlat),
        "to_flat" => Ok(Call::ToFlat),
        _ => Err(format!("{name} is no call")),
    }
}

fn values(text: &str) -> Result<Vec<u32>, String> {
    let value = |word: &str| word.parse().map_err(|_| format!("{word} is no word"));
    text.split_whitespace().map(value).collect()
}

#[cfg(test)]
mod tests {
    use super::*;
    use crate::mock::{self, Faithful};

    #[test]
    fn the_stored_calls() {
        let library = mock::library::<Faithful>();
        for folder in ["messages", "flat"] {
            assert!(play_all(&library, folder).is_ok_and(|calls| calls > 50));
        }
    }

    #[test]
    fn a_wrong_answer_is_told() {
        let library = mock::library::<Faithful>();
        let text = "settings 1 1 1 1 0 1\nread_report 0 7 1 1 256 1 0 0 = length 6\n";
        assert_eq!(play(&library, text), Ok(1));
        let text = text.replace("length 6", "number 17 0");
        let said = "line 2: the answer is length 6, not number 17 0".to_string();
        assert_eq!(play(&library, &text), Err(said));
    }
}
