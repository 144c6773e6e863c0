//! Calls written down as the text of a stored case (see `regressions`).

use crate::calls::{self, Asked, Kind, Table, BUFFER_BYTES, DESK_BYTES, STATE_BYTES};
use reference::roles::PLANNER;
use reference::words;

/// Writes calls down as the text of a case.
pub struct Recorder {
    table: Table,
    pub text: String,
}

impl Recorder {
    pub fn new(name: &str) -> Recorder {
        Recorder {
            table: Table {
                settings: Vec::new(),
                state: vec![0; STATE_BYTES],
                desk: vec![0; DESK_BYTES],
            },
            text: format!("case {name}\nguards a difference\n"),
        }
    }

    /// Writes a call down with the reference's answer.
    pub fn call(&mut self, asked: &Asked) {
        let Asked { table, .. } = asked;
        if asked.kind != Kind::Fresh {
            self.lend(table);
        }
        let message = whole_words(&asked.message);
        let whole = [
            ("settings", &self.table.settings, &table.settings),
            ("state", &self.table.state, &table.state),
            ("desk", &self.table.desk, &table.desk),
            ("message", &message, &asked.message),
        ];
        let mut lines: Vec<String> = Vec::new();
        for (name, own, lent) in whole {
            if own.len() != lent.len() {
                lines.push(format!("bytes {name} {}", lent.len()));
            }
        }
        if asked.buffer.len() != BUFFER_BYTES {
            lines.push(format!("bytes buffer {}", asked.buffer.len()));
        }
        let expected = calls::expected(asked);
        let what = match asked.kind {
            Kind::Report => format!("message {}", joined(&words::whole_words(&message))),
            kind if kind.takes_node() => format!("{} {}", kind.name(), asked.node),
            kind => kind.name().into(),
        };
        let role = match asked.role {
            PLANNER => String::new(),
            word => format!("as {word} "),
        };
        lines.push(format!("{role}{what} = {}", expected.answer()));
        lines.iter().for_each(|line| self.put(line));
        if !expected.answer().refused() {
            self.table.state = expected.state;
            if asked.kind == Kind::Report {
                self.table.desk = expected.desk;
            }
        }
    }

    /// Sets what is lent to what a call gets.
    fn lend(&mut self, table: &Table) {
        if self.table.settings != whole_words(&table.settings) {
            self.table.settings = whole_words(&table.settings);
            let words = words::whole_words(&self.table.settings);
            self.put(&format!("settings {}", joined(&words)));
        }
        let words = words::whole_words(&table.desk);
        if let [word, others @ ..] = &words[..] {
            if others.iter().all(|other| other == word) && *word != 0 {
                self.table.desk = words::to_bytes(&vec![*word; DESK_BYTES / 4]);
                self.put(&format!("fill {word}"));
            }
        }
        self.table.state = self.piece("state", &self.table.state.clone(), &table.state);
        self.table.desk = self.piece("desk", &self.table.desk.clone(), &table.desk);
    }

    fn put(&mut self, line: &str) {
        self.text += line;
        self.text += "\n";
    }

    /// Sets the words in which a piece differs, as far as it goes.
    fn piece(&mut self, name: &str, own: &[u8], lent: &[u8]) -> Vec<u8> {
        let mut own = own.to_vec();
        let words = words::whole_words(&whole_words(lent));
        for (index, word) in words.into_iter().enumerate() {
            let Some(bytes) = own.get_mut(4 * index..4 * index + 4) else {
                break;
            };
            if bytes != word.to_le_bytes() {
                bytes.copy_from_slice(&word.to_le_bytes());
                self.put(&format!("set {name} {index} {word}"));
            }
        }
        own
    }
}

/// The bytes with zeros up to whole words.
fn whole_words(bytes: &[u8]) -> Vec<u8> {
    let mut bytes = bytes.to_vec();
    bytes.resize(bytes.len().next_multiple_of(4), 0);
    bytes
}

fn joined(words: &[u32]) -> String {
    let words: Vec<String> = words.iter().map(u32::to_string).collect();
    words.join(" ")
}
