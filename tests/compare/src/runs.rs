//! Whole runs: inputs of the program `restart`, and the comparison of what it
//! prints with what the reference prints.

use crate::random::Random;
use crate::world;
use crate::{damage, generate};
use reference::program;
use reference::words;
use std::io::Write;
use std::process::{Command, Stdio};

/// Inputs up to this length are cut at every byte.
const SHORT: usize = 700;

/// The standard input of run `index`: settings and some nodes' reports as
/// blocks, now and then cut, with a wrong count or with other bytes.
pub fn input(seed: u64, index: u64) -> Vec<u8> {
    let random = &mut Random::of_input(seed, index);
    let bytes = whole(random);
    mangled(random, bytes)
}

/// Bytes that are now and then cut, longer or others.
pub fn mangled(random: &mut Random, mut bytes: Vec<u8>) -> Vec<u8> {
    if random.chance(8) {
        bytes.truncate(random.below(bytes.len() + 1));
    }
    if random.chance(4) {
        let more = random.pick(&[1, 2, 3, 4, 7, 8]);
        bytes.extend(vec![random.pick(&[0, 1, 255]); more]);
    }
    if random.chance(8) {
        let places = random.between(1, 4);
        for _ in 0..places {
            spoil(random, &mut bytes);
        }
    }
    bytes
}

/// An input that is short enough to be cut at every byte.
pub fn short_input(seed: u64, index: u64) -> Vec<u8> {
    let random = &mut Random::of_input(!seed, index);
    loop {
        let bytes = whole(random);
        if bytes.len() <= SHORT {
            return bytes;
        }
    }
}

/// Another value in the place of one byte.
fn spoil(random: &mut Random, bytes: &mut [u8]) {
    if !bytes.is_empty() {
        let place = random.below(bytes.len());
        let any = random.below(256) as u8;
        bytes[place] = random.pick(&[0, 1, 2, 255, any]);
    }
}

/// The blocks of a run, some of which have a fault.
fn whole(random: &mut Random) -> Vec<u8> {
    let world = world::world(random);
    let mut settings = world.words.clone();
    if random.chance(3) {
        damage::settings(random, &mut settings);
    }
    let mut nodes: Vec<u32> = (0..world.settings.nodes).collect();
    random.shuffle(&mut nodes);
    if random.chance(60) {
        nodes.truncate(random.below(nodes.len() + 1));
    }
    if let (Some(&again), true) = (nodes.last(), random.chance(20)) {
        let place = random.below(nodes.len());
        nodes.insert(place, again);
    }
    let faulty = random.chance(35);
    let mut bytes = block(random, &settings);
    for node in nodes {
        let message = if faulty {
            world.message(random, node)
        } else {
            match world.report(random, node) {
                Some(report) => generate::message(random, &report),
                None => continue,
            }
        };
        bytes.extend(block(random, &message));
    }
    bytes
}

/// Words preceded by their count, which is seldom wrong.
pub fn block(random: &mut Random, words: &[u32]) -> Vec<u8> {
    let count = words.len() as u32;
    let wrong = random.pick(&[0, 1, count + 1, count * 2, 1000, 1 << 30, u32::MAX]);
    let mut block = vec![if random.chance(99) { count } else { wrong }];
    block.extend(words);
    words::to_bytes(&block)
}

/// What the program prints for an input, given to it in two parts.
pub fn printed(path: &str, input: &[u8]) -> Result<String, String> {
    let mut child = Command::new(path)
        .stdin(Stdio::piped())
        .stdout(Stdio::piped())
        .spawn()
        .map_err(|error| format!("{path} does not start: {error}"))?;
    if let Some(mut stdin) = child.stdin.take() {
        let (first, second) = input.split_at(input.len() / 3);
        // A program that has refused need not read on.
        let _ = stdin
            .write_all(first)
            .and_then(|()| stdin.write_all(second));
    }
    let output = child
        .wait_with_output()
        .map_err(|error| error.to_string())?;
    String::from_utf8(output.stdout).map_err(|error| error.to_string())
}

/// How a run ended.
#[derive(Clone, Copy, Debug, PartialEq, Eq, PartialOrd, Ord)]
pub enum Ending {
    Number(u32),
    Wait(u32),
    Plan,
}

/// Compares what was printed with the reference: every word of it.
pub fn compare(input: &[u8], printed: &str) -> Result<Ending, String> {
    let ended = program::decide(input);
    let expected = program::printed(&ended);
    if printed != expected {
        return Err(format!("printed {printed:?}, the reference {expected:?}"));
    }
    Ok(match ended {
        Err(refusal) => Ending::Number(refusal.number.0),
        Ok(ended) if ended.state.plan.is_some() => Ending::Plan,
        Ok(_) => Ending::Wait(reason(&expected)),
    })
}

fn reason(wait_line: &str) -> u32 {
    let reason = wait_line.split_whitespace().nth(1);
    reason.and_then(|word| word.parse().ok()).unwrap_or(0)
}

#[cfg(test)]
mod tests {
    use super::*;
    use reference::message::{encode, Contents, Triple, MEMBERS};

    /// Four nodes of different sets; a shard that needs two and had node 3.
    fn input() -> Vec<u8> {
        let settings = [4, 4, 1, 1, 0, 1, 2, 3, 2];
        let mut all = vec![settings.len() as u32];
        all.extend(settings);
        for node in 0..4 {
            let message = encode(&Contents {
                node,
                view: 5,
                members: 15,
                records: vec![Triple::new(MEMBERS, 0, 8, 0)],
            });
            all.push(message.len() as u32);
            all.extend(message);
        }
        words::to_bytes(&all)
    }

    fn with_members(moves: u32, members: &str) -> Result<Ending, String> {
        let text =
            format!("view 6\nmoves {moves}\nshard 0 holder 3 target 0 0 members {members}\n");
        compare(&input(), &text)
    }

    /// An index is printed after its number, 0 too.
    #[test]
    fn the_index_of_a_record() {
        let settings = [4, 4, 1, 1, 0, 1, 2, 3, 2];
        let said = |message: &[u32], text: &str| {
            let mut all = vec![settings.len() as u32];
            all.extend(settings);
            all.push(message.len() as u32);
            all.extend(message);
            compare(&words::to_bytes(&all), text)
        };
        let head = [0, 5, 15, 0];
        assert_eq!(said(&head, "number 17 0\n"), Ok(Ending::Number(17)));
        assert!(said(&head, "number 17\n").is_err());
        assert!(said(&head, "number 17 1\n").is_err());
        let run = [0, 5, 15, 1, 256, 8, 0, 2, 769, 1, 1, 0];
        assert_eq!(said(&run, "number 16 2\n"), Ok(Ending::Number(16)));
        assert!(said(&run, "number 16\n").is_err());
        let view = [0, 0, 15, 1];
        assert_eq!(said(&view, "number 7\n"), Ok(Ending::Number(7)));
        assert!(said(&view, "number 7 0\n").is_err());
    }

    #[test]
    fn nothing_in_a_plan_is_free() {
        assert_eq!(with_members(1, "0 3"), Ok(Ending::Plan));
        assert!(with_members(1, "1 3").is_err());
        assert!(with_members(1, "2 3").is_err());
        assert!(with_members(1, "3 0").is_err());
        assert!(with_members(2, "2 3").is_err());
        assert!(with_members(2, "1 2").is_err());
        assert!(with_members(1, "1 2").is_err());
        assert!(with_members(1, "3").is_err());
        assert!(compare(&input(), "wait 2\n").is_err());
        assert!(compare(&input(), "").is_err());
    }
}
