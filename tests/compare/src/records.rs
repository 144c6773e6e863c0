//! What a refusal with the index of a record was about: the record's place, and
//! for number 17 what was wrong there. The names show that the inputs come to
//! every cause, at records whose index is not their place on the chain too.

use reference::mask;
use reference::message::{self, Contents, Form, Triple, MEMBERS};

/// The records on the chain, as far as it can be followed.
pub fn chain(words: &[u32]) -> Vec<usize> {
    let mut chain = vec![0];
    let mut index = 0;
    loop {
        let next = words[4 * index + 3] as usize;
        if next <= index || next >= words.len() / 4 {
            return chain;
        }
        chain.push(next);
        index = next;
    }
}

/// What the records of the chain say.
pub fn on_chain(words: &[u32], chain: &[usize]) -> Contents {
    let triple = |&index: &usize| Triple {
        word0: words[4 * index],
        word1: words[4 * index + 1],
        word2: words[4 * index + 2],
    };
    Contents {
        node: words[0],
        view: words[1],
        members: words[2],
        records: chain[1..].iter().map(triple).collect(),
    }
}

/// A name for what a message was refused for, as `17 repeat behind a gap`.
pub fn of_message(form: Form, words: &[u32], number: u32, index: u32) -> String {
    let chain = chain(words);
    let place = chain.iter().position(|&other| other == index as usize);
    match place {
        None => format!("{number} off the chain"),
        Some(place) => {
            let contents = on_chain(words, &chain);
            named(form, &contents, number, place, index as usize > place)
        }
    }
}

/// The same of contents to be written.
pub fn of_contents(form: Form, contents: &Contents, number: u32, index: u32) -> String {
    named(form, contents, number, index as usize, false)
}

fn named(form: Form, contents: &Contents, number: u32, place: usize, gap: bool) -> String {
    let place_name = match (place, gap) {
        (0, _) => "at the head",
        (_, true) => "behind a gap",
        (_, false) => "in line",
    };
    match number {
        17 => format!("17 {} {place_name}", cause(form, contents, place)),
        _ => format!("{number} {place_name}"),
    }
}

/// Why the record at this place of the chain has number 17.
fn cause(form: Form, contents: &Contents, place: usize) -> &'static str {
    if place == 0 || place > contents.records.len() {
        return "missing";
    }
    let record = contents.records[place - 1];
    if message::surplus(contents, place) && form == Form::Order {
        let gives = |later: &Triple| {
            let own = later.kind() == MEMBERS && later.shard() == record.shard();
            own && mask::has(later.word1, contents.node)
        };
        let early = contents.records[place..].iter().any(gives);
        return if early { "early" } else { "surplus" };
    }
    if message::out_of_sequence(contents, place) {
        let before = contents.records[place - 2];
        let same = before.word0 == record.word0;
        let runs = record.kind() == message::RUN;
        let repeat = same && (!runs || before.word1 == record.word1);
        return if repeat { "repeat" } else { "sequence" };
    }
    "missing"
}

#[cfg(test)]
mod tests {
    use super::*;

    #[test]
    fn names() {
        #[rustfmt::skip]
        let words = [
            0, 7, 3, 2,
            9, 9, 9, 9,
            256, 1, 0, 3,
            256, 1, 0, 4,
            768, 5, 1, 0,
        ];
        let name = |number, index| of_message(Form::Report, &words, number, index);
        assert_eq!(name(17, 3), "17 repeat behind a gap");
        assert_eq!(name(17, 4), "17 missing behind a gap");
        assert_eq!(name(8, 0), "8 at the head");
        assert_eq!(name(9, 1), "9 off the chain");
        let contents = on_chain(&words, &chain(&words));
        let name = |index| of_contents(Form::Report, &contents, 17, index);
        assert_eq!(name(2), "17 repeat in line");
    }
}
