//! A stand-in for the program `sheet` with one fault, or none, by its name:
//! `sheets-standin [FAULT]`. The comparison must find each of them
//! (`tests/sheets.rs`).

use reference::desk::DESK_WORDS;
use reference::log::Position;
use reference::message::Contents;
use reference::number::{self, Refusal};
use reference::program::Reported;
use reference::quorum::Gathered;
use reference::roles::Role;
use reference::settings::{self, Settings, SUBGROUPS};
use reference::sheet::MOST_NODES;
use reference::state::{self, View};
use reference::{events, mask, order, soundness, words};
use std::io::{self, Read, Write};

struct Standin {
    fault: String,
}

/// What is known after the last block.
struct Ready {
    settings: Settings,
    kept: View,
    termination: Option<Vec<Position>>,
    /// Ascending by node.
    reports: Vec<Contents>,
}

/// A line: mask, number, and the wait's shard or subgroup.
type Line = (u32, u32, u32);

impl Standin {
    fn has(&self, fault: &str) -> bool {
        self.fault == fault
    }

    // ---- Blocks

    /// The blocks of an input.
    fn blocks(&self, input: &[u8]) -> Vec<Vec<u32>> {
        let mut blocks = Vec::new();
        let mut left = input;
        while let Some((count, rest)) = left.split_first_chunk::<4>() {
            let wanted = 4 * u64::from(u32::from_le_bytes(*count));
            let there = wanted.min(rest.len() as u64) as usize;
            let (block, next) = rest.split_at(there);
            let mut block = words::whole_words(block);
            if there as u64 != wanted {
                if self.has("a block cut short is left out") {
                    return blocks;
                }
                if self.has("a block cut short is filled with zeros") {
                    block.resize((wanted / 4).min(1000) as usize, 0);
                }
            }
            blocks.push(block);
            left = next;
        }
        if !left.is_empty() && self.has("a cut count is a block") {
            blocks.push(vec![]);
        }
        blocks
    }

    /// Settings, state and desk after the last block.
    fn reported(&self, input: &[u8]) -> Result<Reported, Refusal> {
        let mut blocks = self.blocks(input).into_iter();
        let settings = blocks.next();
        if settings.is_none() && self.has("missing settings are number 23") {
            return Err(number::NOT_READY.into());
        }
        let settings = settings.unwrap_or_default();
        let mut state = state::encode(&state::fresh());
        let mut desk = vec![0; DESK_WORDS];
        if self.has("22 before the reports are judged") && too_large(&settings, MOST_NODES) {
            return Err(number::TOO_LARGE.into());
        }
        for message in blocks {
            let old = self.has("a second report of a node is left out")
                && state[52].checked_shr(message.first().copied().unwrap_or(32)) == Some(1);
            let next = events::report(Role::Planner, &settings, &state, &desk, &message);
            match next {
                Ok(_) if old => {}
                Ok(next) => (state, desk) = next,
                Err(_) if self.has("a refused report is left out") => {}
                Err(mut refusal) => {
                    if self.has("no index after a number") {
                        refusal.index = None;
                    }
                    return Err(refusal);
                }
            }
        }
        Ok(Reported {
            settings,
            state,
            desk,
        })
    }

    // ---- Rows 22 and 23

    fn ready(&self, reported: &Reported) -> Result<Ready, Refusal> {
        let settings = settings::parse(&reported.settings)?;
        let state = state::decode(&settings, &reported.state).ok_or(number::STATE)?;
        let most = match () {
            _ if self.has("eleven nodes are allowed") => 11,
            _ if self.has("ten nodes are too many") => 9,
            _ => MOST_NODES,
        };
        let large = settings.nodes > most;
        if large && !self.has("23 before 22") {
            return Err(number::TOO_LARGE.into());
        }
        let kept = match state.kept.clone() {
            Some(kept) => kept,
            None if self.has("nobody has reported: every set waits") => View {
                number: 1,
                members: mask::below(settings.nodes),
                masks: vec![0; settings.shards as usize],
            },
            None => return Err(number::NOT_READY.into()),
        };
        let mut reports = Vec::new();
        for node in 0..settings.nodes {
            match soundness::slot_report(&settings, &state, &reported.desk, node) {
                Some(report) => reports.push(report),
                None if state.kept.is_none() => {}
                None if self.has("a node that has not reported is down") => {}
                None if self.has("the last node need not report") && node + 1 == settings.nodes => {
                }
                None => return Err(number::NOT_READY.into()),
            }
        }
        if large {
            return Err(number::TOO_LARGE.into());
        }
        Ok(Ready {
            termination: state.termination,
            settings,
            kept,
            reports,
        })
    }

    // ---- Lines

    /// The masks in the order in which they are printed.
    fn masks(&self, nodes: u32) -> Vec<u32> {
        let mut masks: Vec<u32> = (0..=mask::below(nodes)).collect();
        let turned = |mask: &u32| mask.reverse_bits() >> (32 - nodes);
        match self.fault.as_str() {
            "masks descend" => masks.reverse(),
            "node 0 is the last" => masks.sort_by_key(turned),
            "the empty set is left out" => drop(masks.remove(0)),
            "the full set is left out" => drop(masks.pop()),
            "by how many are up" => masks.sort_by_key(|mask| mask.count_ones()),
            "the last node is always up" => {
                let last = mask::only(nodes - 1);
                masks.iter_mut().for_each(|mask| *mask |= last);
            }
            _ => {}
        }
        masks
    }

    /// What decide would say with these nodes held: its number, and the shard or
    /// subgroup.
    fn number(&self, ready: &Ready, mask: u32) -> (u32, u32) {
        let Ready { settings, kept, .. } = ready;
        let mut held = mask;
        if self.has("only members of the kept view are held") {
            held &= kept.members;
        }
        let is_held = |report: &&Contents| mask::has(held, report.node);
        let mut reports: Vec<Contents> = ready.reports.iter().filter(is_held).cloned().collect();
        if self.has("everyone's log is there") {
            reports = ready.reports.clone();
        }
        let mut own = kept.clone();
        if self.has("the kept view is that of the held") {
            if let Some(newest) = reports.iter().max_by_key(|report| report.view) {
                own = soundness::view(settings, newest);
            }
        }
        let mut termination = ready.termination.clone();
        if self.has("a termination needs a holder") {
            let own = |report: &Contents| report.view == kept.number;
            let has = |report: &Contents| soundness::termination(report).is_some();
            if !reports.iter().any(|report| own(report) && has(report)) {
                termination = None;
            }
        }
        if self.has("a termination plays no part") {
            termination = None;
        }
        if self.has("an older view counts as the kept one") {
            reports
                .iter_mut()
                .for_each(|report| report.view = own.number);
        }
        let gathered = Gathered {
            settings,
            kept: Some(&own),
            termination: termination.as_ref(),
            held,
            reports: &reports,
        };
        self.wait(&gathered, &own)
    }

    /// The first wait that applies.
    fn wait(&self, gathered: &Gathered, view: &View) -> (u32, u32) {
        let held = gathered.held;
        let back = mask::count(match () {
            _ if self.has("a majority of any nodes") => held,
            _ => held & view.members,
        });
        let members = mask::count(view.members);
        let enough = match () {
            _ if self.has("half of the members are enough") => 2 * back >= members,
            _ => 2 * back > members,
        };
        let least = gathered.settings.least_group_size;
        let large = match () {
            _ if self.has("least size plus one") => mask::count(held) > least,
            _ if self.has("least size counts members") => back >= least,
            _ => mask::count(held) >= least,
        };
        let places = match self.fault.as_str() {
            "wait 3 before 2" => [3, 2, 4, 5],
            "wait 4 before 3" => [2, 4, 3, 5],
            "wait 5 before 4" => [2, 3, 5, 4],
            _ => [2, 3, 4, 5],
        };
        let groups = match () {
            _ if self.has("subgroup 3 is not looked at") => SUBGROUPS - 1,
            _ => SUBGROUPS,
        };
        let without = |&shard: &u32| gathered.holding(view, shard).is_none();
        let unplaced = |&group: &u32| order::greedy(&gathered.subgroup(view, group)).is_none();
        let applies = |reason: u32| match reason {
            2 => (!enough).then_some((2, 0)),
            3 => (!large).then_some((3, 0)),
            4 => {
                let shard = (0..gathered.settings.shards).find(without);
                shard.map(|shard| (4, shard))
            }
            _ => (0..groups).find(unplaced).map(|group| (5, group)),
        };
        places.into_iter().find_map(applies).unwrap_or((0, 0))
    }

    // ---- Text

    fn text(&self, lines: &[Line]) -> String {
        let mut text = String::new();
        for &(mask, number, value) in lines {
            text += &match self.fault.as_str() {
                "the wait's shard or subgroup too" if number > 3 => {
                    format!("{mask} {number} {value}\n")
                }
                "a plan is 1" if number == 0 => format!("{mask} 1\n"),
                "number first" => format!("{number} {mask}\n"),
                _ => format!("{mask} {number}\n"),
            };
        }
        let counted = match self.fault.as_str() {
            "the full set is not counted" => &lines[..lines.len() - 1],
            "only some lines are counted" => &lines[..lines.len().min(512)],
            _ => lines,
        };
        let numbers: &[u32] = match self.fault.as_str() {
            "wait 1 is counted" => &[0, 1, 2, 3, 4, 5],
            "plans are counted last" => &[2, 3, 4, 5, 0],
            "no count of wait 5" => &[0, 2, 3, 4],
            _ => &[0, 2, 3, 4, 5],
        };
        let count = |number: &u32| counted.iter().filter(|line| line.1 == *number).count();
        let mut counts: Vec<usize> = numbers.iter().map(count).collect();
        match self.fault.as_str() {
            "no count of 0" => counts.retain(|&count| count > 0),
            "counts are bytes" => counts.iter_mut().for_each(|count| *count &= 255),
            "no counts" => return text,
            _ => {}
        }
        let counts: Vec<String> = counts.iter().map(|count| count.to_string()).collect();
        let counts = counts.join(" ");
        match self.has("counts first") {
            true => format!("{counts}\n{text}"),
            false => format!("{text}{counts}\n"),
        }
    }

    fn run(&self, input: &[u8]) -> String {
        let ready = match self
            .reported(input)
            .and_then(|reported| self.ready(&reported))
        {
            Ok(ready) => ready,
            Err(refusal) => return format!("{refusal}\n"),
        };
        let line = |mask| {
            let (number, value) = self.number(&ready, mask);
            (mask, number, value)
        };
        let masks = self.masks(ready.settings.nodes).into_iter();
        self.text(&masks.map(line).collect::<Vec<Line>>())
    }

    fn read(&self) -> io::Result<Vec<u8>> {
        let mut input = Vec::new();
        let mut stdin = io::stdin().lock();
        if self.has("a short read is the end") {
            let mut block = vec![0; 4096];
            loop {
                let got = stdin.read(&mut block)?;
                input.extend(&block[..got]);
                if got < block.len() {
                    return Ok(input);
                }
            }
        }
        stdin.read_to_end(&mut input)?;
        Ok(input)
    }
}

/// Whether good settings have more nodes than these.
fn too_large(settings: &[u32], most: u32) -> bool {
    settings::parse(settings).is_ok_and(|settings| settings.nodes > most)
}

fn main() -> io::Result<()> {
    let standin = Standin {
        fault: std::env::args().nth(1).unwrap_or_default(),
    };
    let text = standin.run(&standin.read()?);
    io::stdout().write_all(text.as_bytes())?;
    if standin.has("says something beside") {
        eprintln!("sheet: done");
    }
    Ok(())
}
