//! Stored sequences of calls, as text (tests/compare/regressions). Each line is a call
//! with its answer, a change to what is lent, or something that must hold:
//!
//! ```text
//! case NAME
//! guards WHAT IT SHOWED OR WHICH ROW IT GUARDS
//! settings WORD ..
//! fill WORD                            every word of the desk
//! report node N view V members M masks M .. [termination V.K ..] [runs SHARD:V.COUNT ..] [words LENGTH] = ANSWER
//! message WORD .. = ANSWER             a report, word by word
//! fresh = ANSWER
//! decide = ANSWER                      check_state alike
//! drop N = ANSWER                      order, fetched, prepared alike
//! page SUBGROUP = ANSWER
//! preview N = ANSWER                   preview_all = ANSWER
//! as WORD LINE                         the call in the role of that word, else the planner's
//! decide_within ROUNDS = ANSWER
//! back                                 the state is what it was before the last call
//! set PIECE INDEX WORD                 a word of settings, state or desk
//! bytes PIECE LENGTH                   for the next call: also message and buffer
//! word PIECE INDEX WORD                must be so: a word of state, desk or buffer
//! plan VIEW MOVES                      must be so
//! shard S holder N target V.K members N ..
//! masks MASK ..                        must be so: the plan's masks from shard 0 on
//! cut S V.K                            of the last order
//! first WORD ..                        must be so: the buffer's first words; all others are zero
//! next INDEX WORD .. | INDEX WORD ..   must be so: the buffer is the state with these words from there on, then zeros
//! shows WORD .. | HOLDER .. | V K .. | MASK ..   the last page from words 0, 8, 24 and 56; all others are zero
//! each FROM TO LINE                    the line with each number in the place of $
//! ```
//!
//! A case begins with a state and a desk of zeros. The answers are written by
//! hand from restart-model(7) and restart(7); each call is compared with the reference as well.

use crate::calls::{
    self, Asked, Kind, Outcome, Pages, Table, BUFFER_BYTES, DESK_BYTES, STATE_BYTES,
};
use crate::lent::Place;
use crate::library::Planner;
use reference::message::{
    encode, read_with, Contents, Form, Triple, CUT, MEMBERS, RUN, TERMINATION,
};
use reference::{settings, words};
use std::path::{Path, PathBuf};

/// What a line or a case did wrong.
type Check = Result<(), String>;

pub struct Case {
    pub name: String,
    pub guards: String,
    /// The number and the text of each line.
    lines: Vec<(usize, String)>,
}

/// The cases of a text.
pub fn cases(text: &str) -> Result<Vec<Case>, String> {
    let mut cases: Vec<Case> = Vec::new();
    for (number, line) in (1..).zip(text.lines()) {
        let line = line.split('#').next().unwrap_or("").trim();
        let (first, rest) = line.split_once(' ').unwrap_or((line, ""));
        match (first, cases.last_mut()) {
            ("", _) => {}
            ("case", _) => cases.push(Case {
                name: rest.into(),
                guards: String::new(),
                lines: Vec::new(),
            }),
            (_, None) => return Err(format!("line {number} is before the first case")),
            ("guards", Some(case)) => case.guards += rest,
            (_, Some(case)) => case.lines.push((number, line.into())),
        }
    }
    match cases.iter().find(|case| case.guards.is_empty()) {
        Some(case) => Err(format!("{} guards nothing", case.name)),
        None => Ok(cases),
    }
}

/// The directory of the stored cases.
pub fn directory() -> PathBuf {
    Path::new(env!("CARGO_MANIFEST_DIR")).join("regressions")
}

/// Plays every stored case and gives their number.
pub fn play_all(planner: &Planner, pages: &mut Pages) -> Result<usize, String> {
    let files = std::fs::read_dir(directory()).map_err(|error| error.to_string())?;
    let mut paths: Vec<PathBuf> = files.flatten().map(|file| file.path()).collect();
    paths.retain(|path| path.is_file());
    paths.sort();
    let mut played = 0;
    for path in paths {
        let name = path.file_name().unwrap_or_default().to_string_lossy();
        let text = std::fs::read_to_string(&path).map_err(|error| format!("{name}: {error}"))?;
        for case in cases(&text).map_err(|what| format!("{name}: {what}"))? {
            play(planner, pages, &case).map_err(|what| format!("{name}, {what}"))?;
            played += 1;
        }
    }
    Ok(played)
}

/// Plays a case.
pub fn play(planner: &Planner, pages: &mut Pages, case: &Case) -> Check {
    let mut player = Player::new(planner, pages);
    for (number, line) in &case.lines {
        let said = player.line(line);
        said.map_err(|what| format!("line {number}, {}: {what}", case.name))?;
    }
    match player.calls {
        0 => Err(format!("{} makes no call", case.name)),
        _ => Ok(()),
    }
}

struct Player<'a> {
    planner: &'a Planner,
    pages: &'a mut Pages,
    table: Table,
    /// The state before the last call.
    before: Vec<u8>,
    /// Lengths in bytes for the next call.
    lengths: Vec<(String, usize)>,
    last: Option<Outcome>,
    calls: usize,
}

impl Player<'_> {
    fn new<'a>(planner: &'a Planner, pages: &'a mut Pages) -> Player<'a> {
        Player {
            planner,
            pages,
            table: Table {
                settings: Vec::new(),
                state: vec![0; STATE_BYTES],
                desk: vec![0; DESK_BYTES],
            },
            before: vec![0; STATE_BYTES],
            lengths: Vec::new(),
            last: None,
            calls: 0,
        }
    }

    fn line(&mut self, line: &str) -> Check {
        if let Some(rest) = line.strip_prefix("each ") {
            return self.each(rest);
        }
        let (role, line) = match line.strip_prefix("as ") {
            Some(rest) => rest.split_once(' ').ok_or("as needs a word and a call")?,
            None => ("256", line),
        };
        let (text, answer) = match line.split_once('=') {
            Some((text, answer)) => (text.trim(), Some(answer.trim())),
            None => (line, None),
        };
        let parts: Vec<&str> = text.split_whitespace().collect();
        let (first, rest) = parts.split_first().ok_or("an empty line")?;
        match answer {
            Some(answer) => self.call(value(role)?, first, rest, answer),
            None => self.change_or_check(first, rest),
        }
    }

    fn each(&mut self, rest: &str) -> Check {
        let parts: Vec<&str> = rest.splitn(3, ' ').collect();
        let [from, to, line] = parts[..] else {
            return Err("each needs two numbers and a line".into());
        };
        for number in value(from)?..=value(to)? {
            let line = line.replace('$', &number.to_string());
            self.line(&line)
                .map_err(|what| format!("at {number}: {what}"))?;
        }
        Ok(())
    }

    fn change_or_check(&mut self, first: &str, rest: &[&str]) -> Check {
        match (first, rest) {
            ("settings", words) => self.table.settings = words::to_bytes(&values(words)?),
            ("back", []) => self.table.state.clone_from(&self.before),
            ("masks", masks) => {
                for (shard, wanted) in values(masks)?.into_iter().enumerate() {
                    same(self.word("state", 58 + shard)?, wanted)?;
                }
            }
            ("fill", [word]) => {
                self.table.desk = words::to_bytes(&vec![value(word)?; DESK_BYTES / 4]);
            }
            ("set", [piece, index, word]) => {
                let at = 4 * value(index)? as usize;
                let word = value(word)?.to_le_bytes();
                let bytes = self.piece(piece)?.get_mut(at..at + 4);
                bytes.ok_or("no such word")?.copy_from_slice(&word);
            }
            ("bytes", [piece, length]) => {
                let length = value(length)? as usize;
                self.lengths.push((piece.to_string(), length));
            }
            ("word", [piece, index, word]) => {
                let is = self.word(piece, value(index)? as usize)?;
                return same(is, value(word)?);
            }
            ("shows", parts) => return self.shows(parts),
            ("first", words) => return self.buffer_is(&values(words)?),
            ("next", parts) => return self.next(parts),
            ("plan", [view, moves]) => {
                same(self.word("state", 55)?, value(view)?)?;
                return same(self.word("state", 57)?, value(moves)?);
            }
            ("shard", [shard, "holder", holder, "target", target, "members", members @ ..]) => {
                let shard = value(shard)? as usize;
                return self.shard(shard, value(holder)?, position(target)?, members);
            }
            ("cut", [shard, at]) => return self.cut(value(shard)?, position(at)?),
            _ => return Err(format!("{first} is not understood")),
        }
        Ok(())
    }

    fn piece(&mut self, name: &str) -> Result<&mut Vec<u8>, String> {
        match name {
            "settings" => Ok(&mut self.table.settings),
            "state" => Ok(&mut self.table.state),
            "desk" => Ok(&mut self.table.desk),
            _ => Err(format!("{name} cannot be set")),
        }
    }

    fn word(&mut self, piece: &str, index: usize) -> Result<u32, String> {
        let words = match (piece, &self.last) {
            ("buffer", Some(last)) => words::whole_words(&last.buffer),
            _ => words::whole_words(self.piece(piece)?),
        };
        words.get(index).copied().ok_or("no such word".into())
    }

    fn shard(&mut self, shard: usize, holder: u32, target: (u32, u32), members: &[&str]) -> Check {
        let members = values(members)?.into_iter().map(|node| 1 << node).sum();
        same(self.word("state", 74 + shard)?, holder)?;
        same(self.word("state", 90 + 2 * shard)?, target.0)?;
        same(self.word("state", 91 + 2 * shard)?, target.1)?;
        same(self.word("state", 58 + shard)?, members)
    }

    /// Whether the last page is as told, all 512 words of it.
    fn shows(&mut self, parts: &[&str]) -> Check {
        let mut page = vec![0; BUFFER_BYTES / 4];
        for (part, first) in parts.split(|&part| part == "|").zip([0, 8, 24, 56]) {
            put(&mut page, first, &values(part)?)?;
        }
        self.buffer_is(&page)
    }

    /// Whether the last preview leads to the state with other words, each part
    /// from its place on.
    fn next(&mut self, parts: &[&str]) -> Check {
        let mut next = words::whole_words(&self.table.state);
        for part in parts.split(|&part| part == "|") {
            let (first, own) = part.split_first().ok_or("a part without its place")?;
            put(&mut next, value(first)? as usize, &values(own)?)?;
        }
        self.buffer_is(&next)
    }

    /// Whether the buffer has these words, and zeros after them.
    fn buffer_is(&mut self, wanted: &[u32]) -> Check {
        for (index, wanted) in words::padded(wanted, BUFFER_BYTES / 4).iter().enumerate() {
            let said = same(self.word("buffer", index)?, *wanted);
            said.map_err(|what| format!("word {index} is {what}"))?;
        }
        Ok(())
    }

    /// The cut of a shard in the last order.
    fn cut(&mut self, shard: u32, at: (u32, u32)) -> Check {
        let settings = words::whole_words(&self.table.settings);
        let settings = settings::parse(&settings).map_err(|_| "bad settings")?;
        let last = self.last.as_ref().ok_or("no order")?;
        let order = words::whole_words(&last.buffer);
        let order = read_with(Form::Order, &settings, &order).map_err(|_| "no order")?;
        let cut = order.find(CUT, shard).ok_or("no cut")?;
        same(cut.word1, at.0)?;
        same(cut.word2, at.1)
    }

    /// Makes a call, compares it with the reference and with the stored answer.
    fn call(&mut self, role: u32, first: &str, rest: &[&str], answer: &str) -> Check {
        let mut asked = Asked {
            role,
            kind: kind(first)?,
            table: self.table.clone(),
            message: Vec::new(),
            node: 0,
            buffer: vec![0xEE; BUFFER_BYTES],
        };
        match (first, rest) {
            ("message", words) => asked.message = words::to_bytes(&values(words)?),
            ("report", parts) => asked.message = words::to_bytes(&report(parts)?),
            (_, [node]) if asked.kind.takes_node() => asked.node = value(node)?,
            (_, []) if !asked.kind.takes_node() => {}
            _ => return Err(format!("{first} is not understood")),
        }
        for (piece, length) in std::mem::take(&mut self.lengths) {
            lengthen(&mut asked, &piece, length)?;
        }
        self.calls += 1;
        self.before.clone_from(&self.table.state);
        let outcome = calls::compare(self.planner, self.pages, &asked, [Place::Last; 5])?;
        if outcome.answer().to_string() != answer {
            return Err(format!("the answer is {}, not {answer}", outcome.answer()));
        }
        if !outcome.answer().refused() {
            self.table.state.clone_from(&outcome.state);
            if asked.kind == Kind::Report {
                self.table.desk.clone_from(&outcome.desk);
            }
        }
        self.last = Some(outcome);
        Ok(())
    }
}

fn kind(name: &str) -> Result<Kind, String> {
    let name = if name == "message" { "report" } else { name };
    let kind = Kind::ALL.into_iter().find(|kind| kind.name() == name);
    kind.ok_or(format!("{name} is no call"))
}

fn lengthen(asked: &mut Asked, piece: &str, length: usize) -> Check {
    let bytes = match piece {
        "settings" => &mut asked.table.settings,
        "state" => &mut asked.table.state,
        "desk" => &mut asked.table.desk,
        "message" => &mut asked.message,
        "buffer" => &mut asked.buffer,
        _ => return Err(format!("{piece} is not lent")),
    };
    bytes.resize(length, 0);
    Ok(())
}

/// Puts words in the place of others.
fn put(words: &mut [u32], first: usize, own: &[u32]) -> Check {
    let place = words.get_mut(first..first + own.len());
    place
        .ok_or("more words than there are")?
        .copy_from_slice(own);
    Ok(())
}

fn same(is: u32, wanted: u32) -> Check {
    match is == wanted {
        true => Ok(()),
        false => Err(format!("{is} and not {wanted}")),
    }
}

fn value(text: &str) -> Result<u32, String> {
    text.parse().map_err(|_| format!("{text} is no word"))
}

fn values(texts: &[&str]) -> Result<Vec<u32>, String> {
    texts.iter().map(|text| value(text)).collect()
}

/// Two words with a point between them.
fn position(text: &str) -> Result<(u32, u32), String> {
    let parts = text.split_once('.');
    let (view, k) = parts.ok_or(format!("{text} is no position"))?;
    Ok((value(view)?, value(k)?))
}

/// The words of a report in parts, each after its name.
fn report(parts: &[&str]) -> Result<Vec<u32>, String> {
    let mut report = Contents {
        node: 0,
        view: 0,
        members: 0,
        records: Vec::new(),
    };
    let mut length = None;
    let (mut name, mut shard) = ("", 0);
    for &part in parts {
        if part.starts_with(|first: char| first.is_alphabetic()) {
            (name, shard) = (part, 0);
            continue;
        }
        match name {
            "node" => report.node = value(part)?,
            "view" => report.view = value(part)?,
            "members" => report.members = value(part)?,
            "words" => length = Some(value(part)? as usize),
            _ => report.records.push(record(name, shard, part)?),
        }
        shard += 1;
    }
    let words = encode(&report);
    Ok(words::padded(&words, length.unwrap_or(words.len())))
}

/// A record of a report; masks and positions come shard by shard.
fn record(name: &str, shard: u32, part: &str) -> Result<Triple, String> {
    match name {
        "masks" => Ok(Triple::new(MEMBERS, shard, value(part)?, 0)),
        "termination" => {
            let (view, k) = position(part)?;
            Ok(Triple::new(TERMINATION, shard, view, k))
        }
        "runs" => {
            let (shard, run) = part.split_once(':').ok_or(format!("{part} is no run"))?;
            let (view, count) = position(run)?;
            Ok(Triple::new(RUN, value(shard)?, view, count))
        }
        _ => Err(format!("{name} is no part of a report")),
    }
}
