//! The inputs of the `arrivals` program, first half: reports of distinct nodes, in
//! one order and another.
//!
//! From the same state and desk the same reports are given to the planner in many
//! orders. The orders in which all are accepted must end in the same state and
//! desk, byte for byte, and decide must answer the same and leave the same, with
//! rounds and without. An order in which one is refused says nothing. Nothing is
//! compared with the reference.
//!
//! An input depends on the seed and its index alone.

use crate::calls::{self, Asked, Kind, Outcome, Pages, Table};
use crate::commits;
use crate::events::place;
use crate::generate;
use crate::library::{Answer, Game, Planner};
use crate::random::Random;
use crate::sequences;
use crate::world::{self, World};
use reference::message::{Contents, Triple, MEMBERS, TERMINATION};
use reference::roles::PLANNER;
use reference::{mask, words};
use std::collections::BTreeMap;

/// What an input is.
#[derive(Clone, Copy, Debug, PartialEq, Eq)]
pub enum Sort {
    /// Reports in many orders.
    Shuffle,
    /// A sequence of calls beside a log.
    Sequence,
}

impl Sort {
    pub const ALL: [Sort; 2] = [Sort::Shuffle, Sort::Sequence];

    pub fn name(self) -> &'static str {
        match self {
            Sort::Shuffle => "shuffle",
            Sort::Sequence => "sequence",
        }
    }
}

/// What is tested.
pub struct Tested<'a> {
    pub planner: &'a Planner,
    pub game: Game,
    pub pages: &'a mut Pages,
    pub tally: &'a mut Tally,
}

/// A promise that was broken, in words, and what led to it.
#[derive(Debug)]
pub struct Broken {
    pub what: String,
    pub story: Vec<String>,
}

impl Tested<'_> {
    /// Plays input `index` of a sort under a seed.
    pub fn input(&mut self, seed: u64, sort: Sort, index: u64) -> Result<(), Box<Broken>> {
        match sort {
            Sort::Shuffle => self.shuffle(seed, index),
            Sort::Sequence => commits::play(self, seed, index),
        }
    }

    /// Calls the planner.
    pub fn call(&mut self, random: &mut Random, asked: &Asked) -> Result<Outcome, Box<Broken>> {
        self.tally.calls += 1;
        let places = [(); 5].map(|()| place(random));
        let called = calls::call(self.planner, self.pages, asked, places);
        called.map_err(|what| broken(what, vec![asked.kind.name().into()]))
    }

    /// What reports lead to in one order, up to the first that is refused.
    fn arrive(
        &mut self,
        random: &mut Random,
        start: &Table,
        reports: &[Vec<u8>],
        order: &[usize],
    ) -> Result<Arrived, Box<Broken>> {
        let mut table = start.clone();
        for (taken, &index) in order.iter().enumerate() {
            let asked = Asked {
                message: reports[index].clone(),
                ..asked(Kind::Report, table)
            };
            let outcome = self.call(random, &asked)?;
            let answer = outcome.answer();
            if answer != Answer::Accepted {
                return Ok(Arrived::Refused(taken, answer));
            }
            table = Table {
                state: outcome.state,
                desk: outcome.desk,
                ..asked.table
            };
        }
        let mut decided = Vec::new();
        for (kind, number) in DECISIONS {
            let asked = Asked {
                node: number,
                ..asked(kind, table.clone())
            };
            decided.push(self.call(random, &asked)?);
        }
        Ok(Arrived::All(Box::new(End { table, decided })))
    }

    /// Gives the reports of a group to the planner in many orders.
    fn shuffle(&mut self, seed: u64, index: u64) -> Result<(), Box<Broken>> {
        let random = &mut Random::of_input(seed, index);
        let world = group(random);
        let start = self.start(random, &world)?;
        let group = reports(random, &world, &start);
        let messages: Vec<Vec<u8>> = group
            .reports
            .iter()
            .map(|(_, bytes)| bytes.clone())
            .collect();
        let mut first: Option<(Vec<usize>, Box<End>)> = None;
        let mut seen = Seen::default();
        for order in orders(random, messages.len()) {
            let arrived = self.arrive(random, &start, &messages, &order)?;
            if group.trap != Trap::None {
                trapped(group.trap, &order, &arrived)?;
            }
            seen.order(&group, &order, &arrived);
            let Arrived::All(end) = arrived else {
                continue;
            };
            match &first {
                None => first = Some((order, end)),
                Some((other, wanted)) => {
                    if let Some(what) = end.differs(wanted) {
                        let story = vec![format!("{other:?} and then {order:?}")];
                        return Err(broken(what, story));
                    }
                }
            }
        }
        self.tally.groups += 1;
        let end = first.as_ref().map(|(_, end)| &**end);
        self.tally.group(&start, &group, &seen, end);
        Ok(())
    }

    /// A state and a desk from which reports come: fresh, or with some nodes that
    /// have reported and not been dropped again.
    fn start(&mut self, random: &mut Random, world: &World) -> Result<Table, Box<Broken>> {
        let fresh = sequences::Table::fresh(random, &world.words);
        let mut table = Table {
            settings: words::to_bytes(&fresh.settings),
            state: words::to_bytes(&fresh.state),
            desk: words::to_bytes(&fresh.desk),
        };
        let often = random.pick(&[0, 0, 30, 60, 100]);
        for node in 0..world.settings.nodes {
            let Some(report) = world.report(random, node).filter(|_| random.chance(often)) else {
                continue;
            };
            let message = words::to_bytes(&generate::message(random, &report));
            for (kind, chance) in [(Kind::Report, 100), (Kind::Drop, 20)] {
                let asked = Asked {
                    node,
                    message: message.clone(),
                    ..asked(kind, table.clone())
                };
                if random.chance(chance) {
                    let outcome = self.call(random, &asked)?;
                    (table.state, table.desk) = (outcome.state, outcome.desk);
                }
            }
        }
        if random.chance(20) {
            remember(random, world, &mut table);
        }
        Ok(table)
    }
}

/// Lets an absent node have reported a view before, which no restart need have
/// come to.
fn remember(random: &mut Random, world: &World, table: &mut Table) {
    let mut state = words::whole_words(&table.state);
    let absent = mask::nodes(mask::below(world.settings.nodes) & !state[52]);
    if !absent.is_empty() {
        let node = random.pick(&absent) as usize;
        state[122 + node] = random.pick(&world.numbers());
        table.state = words::to_bytes(&state);
    }
}

/// The calls that decide, and their rounds.
const DECISIONS: [(Kind, u32); 4] = [
    (Kind::Decide, 0),
    (Kind::DecideWithin, 0),
    (Kind::DecideWithin, 1),
    (Kind::DecideWithin, 128),
];

pub fn broken(what: String, story: Vec<String>) -> Box<Broken> {
    Box::new(Broken { what, story })
}

/// A call of the planner's own.
pub fn asked(kind: Kind, table: Table) -> Asked {
    Asked {
        role: PLANNER,
        kind,
        table,
        message: Vec::new(),
        node: 0,
        buffer: vec![0; calls::BUFFER_BYTES],
    }
}

/// Where an order leads to.
enum Arrived {
    /// So many were accepted, and the next got this answer.
    Refused(usize, Answer),
    All(Box<End>),
}

/// What all reports leave, and what is decided then.
struct End {
    table: Table,
    decided: Vec<Outcome>,
}

impl End {
    /// What is not the same after another order.
    fn differs(&self, other: &End) -> Option<String> {
        if self.table.state != other.table.state {
            return Some("the states differ".into());
        }
        if self.table.desk != other.table.desk {
            return Some("the desks differ".into());
        }
        let both = self.decided.iter().zip(&other.decided).zip(DECISIONS);
        both.filter(|((own, other), _)| own != other)
            .map(|((own, other), (kind, _))| {
                let (name, own, other) = (kind.name(), own.answer(), other.answer());
                format!("{name} answers {own} and {other}, or leaves other bytes")
            })
            .next()
    }
}

/// What an order of the first three reports must come to.
#[derive(Clone, Copy, Debug, PartialEq, Eq)]
enum Trap {
    None,
    /// Reports 0 and 1 are of one view with other masks, report 2 of a greater
    /// one.
    Masks,
    /// They have other terminations.
    Terminations,
}

/// The reports of a group, each with its message.
struct Group {
    reports: Vec<(Contents, Vec<u8>)>,
    trap: Trap,
}

/// Where the greater view comes between the two that do not fit, or before them,
/// all are accepted; where it comes last, the second of them is refused.
fn trapped(trap: Trap, order: &[usize], arrived: &Arrived) -> Result<(), Box<Broken>> {
    let number = match trap {
        Trap::Terminations => 13,
        _ => 12,
    };
    let wrong = match (order[2] == 2, arrived) {
        (true, Arrived::Refused(1, answer)) if *answer == Answer::Number(number) => return Ok(()),
        (false, Arrived::All(_)) => return Ok(()),
        (_, Arrived::Refused(taken, answer)) => format!("report {taken} gets {answer}"),
        (_, Arrived::All(_)) => "all are accepted".into(),
    };
    let what = format!("views of which two do not fit: {wrong}");
    Err(broken(what, vec![format!("{order:?}")]))
}

/// A group of some nodes, all of which are in its first view.
fn group(random: &mut Random) -> World {
    let nodes = random.pick(&[2, 3, 3, 4, 4, 5, 5, 6, 7, 9, 12, 20, 32]);
    world::of_size(random, nodes)
}

/// Orders of so many reports: all of them where they are few.
fn orders(random: &mut Random, count: usize) -> Vec<Vec<usize>> {
    let mut own: Vec<usize> = (0..count).collect();
    let every = count <= 3 || count == 4 && random.chance(25);
    if every {
        let mut all = Vec::new();
        permute(&mut own, 0, &mut all);
        return all;
    }
    let mut some = vec![own.clone(), own.iter().rev().copied().collect()];
    for _ in 0..random.between(2, 5) {
        random.shuffle(&mut own);
        some.push(own.clone());
    }
    some
}

/// Every order of the items from `from` on.
fn permute(items: &mut Vec<usize>, from: usize, all: &mut Vec<Vec<usize>>) {
    if from == items.len() {
        all.push(items.clone());
        return;
    }
    for other in from..items.len() {
        items.swap(from, other);
        permute(items, from + 1, all);
        items.swap(from, other);
    }
}

/// Reports of distinct nodes.
fn reports(random: &mut Random, world: &World, start: &Table) -> Group {
    let mut nodes: Vec<u32> = (0..world.settings.nodes).collect();
    random.shuffle(&mut nodes);
    let state = words::whole_words(&start.state);
    let (trap, contents) = match random.between(0, 5) {
        0 => two_that_do_not_fit(random, world, &nodes, &state),
        1 => {
            nodes.truncate(random.pick(&[2, 3, 3, 4, 5]));
            (Trap::None, with_terminations(random, world, &nodes, &state))
        }
        _ => {
            let few = random.pick(&[2, 2, 2, 3, 3, 3, 4, 4]);
            let many = random.between(5, 32) as usize;
            nodes.truncate(random.pick(&[few, few, few, few, many]));
            (Trap::None, any_reports(random, world, &nodes, &state))
        }
    };
    let message = |report: Contents| {
        let bytes = words::to_bytes(&generate::message(random, &report));
        (report, bytes)
    };
    Group {
        reports: contents.into_iter().map(message).collect(),
        trap,
    }
}

/// Reports of any views, now and then one that does not fit the others.
fn any_reports(random: &mut Random, world: &World, nodes: &[u32], state: &[u32]) -> Vec<Contents> {
    let numbers = world.numbers();
    let unfit = random.pick(&[0, 0, 0, 5, 20]);
    let mut reports = Vec::new();
    for &node in nodes {
        // Of no smaller view than before, mostly.
        let least = match random.chance(97) {
            true => state[122 + node as usize],
            false => 0,
        };
        let some = (0..6).find_map(|_| {
            let number = random.pick(&numbers);
            let report = match random.chance(50) {
                true => world.report_of(random, node, number),
                false => world.report(random, node),
            };
            report.filter(|report| report.view >= least)
        });
        let Some(mut report) = some else {
            continue;
        };
        if random.chance(unfit) {
            other_masks(random, world, &mut report);
        }
        if random.chance(unfit) {
            world::other_termination(&mut report);
        }
        reports.push(report);
    }
    reports
}

/// Reports of a view above all others, and the next, by these nodes.
fn above(
    random: &mut Random,
    world: &World,
    nodes: &[u32],
    state: &[u32],
) -> Option<Vec<Contents>> {
    let last = world.numbers().into_iter().max()?.max(state[1]);
    let own = |&node: &u32| world.report(random, node);
    let mut reports: Vec<Contents> = nodes.iter().filter_map(own).collect();
    // All say the same of the view, as if it had these members all along.
    let (members, masks) = reports
        .first()
        .map(|first| (first.members, masks_of(first)))?;
    reports.retain(|report| mask::has(members, report.node));
    let room = last < u32::MAX - 3 && reports.len() >= 2;
    for report in &mut reports {
        report.view = last + 1;
        report.members = members;
        put_masks(report, &masks);
        report.records.retain(|record| record.kind() != TERMINATION);
    }
    room.then_some(reports)
}

/// Views with and without a termination, a greater one without among them.
fn with_terminations(
    random: &mut Random,
    world: &World,
    nodes: &[u32],
    state: &[u32],
) -> Vec<Contents> {
    let Some(mut reports) = above(random, world, nodes, state) else {
        return any_reports(random, world, nodes, state);
    };
    let position = random.pick(&[(0, 0), (reports[0].view, 3)]);
    for report in &mut reports {
        match random.between(0, 9) {
            0..=4 => put_termination(report, position, world.settings.shards),
            5 => report.view += 1,
            _ => {}
        }
    }
    reports
}

/// Two reports of a view that do not fit, and one of a greater view.
fn two_that_do_not_fit(
    random: &mut Random,
    world: &World,
    nodes: &[u32],
    state: &[u32],
) -> (Trap, Vec<Contents>) {
    let trap = random.pick(&[Trap::Masks, Trap::Masks, Trap::Terminations]);
    let above = above(random, world, nodes, state);
    let Some(mut reports) = above.filter(|reports| reports.len() >= 3) else {
        let few = &nodes[..nodes.len().min(4)];
        return (Trap::None, any_reports(random, world, few, state));
    };
    reports.truncate(3);
    let shards = world.settings.shards;
    let fit = match trap {
        Trap::Terminations => {
            put_termination(&mut reports[0], (0, 0), shards);
            let other = (reports[1].view, 1);
            put_termination(&mut reports[1], other, shards);
            false
        }
        _ => !other_masks(random, world, &mut reports[1]),
    };
    reports[2].view += 1;
    (if fit { Trap::None } else { trap }, reports)
}

fn masks_of(report: &Contents) -> Vec<u32> {
    let members = |record: &&Triple| record.kind() == MEMBERS;
    let records = report.records.iter().filter(members);
    records.map(|record| record.word1).collect()
}

fn put_masks(report: &mut Contents, masks: &[u32]) {
    let members = |record: &&mut Triple| record.kind() == MEMBERS;
    let records = report.records.iter_mut().filter(members);
    for (record, &mask) in records.zip(masks) {
        record.word1 = mask;
    }
}

/// Gives a report, which has none, a termination with this position everywhere.
fn put_termination(report: &mut Contents, (view, k): (u32, u32), shards: u32) {
    let after = report.records.partition_point(|r| r.kind() == MEMBERS);
    let positions = (0..shards).map(|shard| Triple::new(TERMINATION, shard, view, k));
    report.records.splice(after..after, positions);
    let most = reference::message::MOST_RECORDS - 1;
    report.records.truncate(most);
}

/// Makes a report say other masks of its view. Whether that was possible.
fn other_masks(random: &mut Random, world: &World, report: &mut Contents) -> bool {
    let own = masks_of(report);
    for _ in 0..8 {
        let masks = generate::shard_masks(random, &world.settings, report.members, report.node);
        if masks != own {
            put_masks(report, &masks);
            return true;
        }
    }
    false
}

/// What the orders of a group came to.
#[derive(Default)]
struct Seen {
    orders: u64,
    accepted: u64,
    refused: Vec<Answer>,
    /// Whether the greatest view came last, without a termination, after one.
    bare_last: bool,
    trap: bool,
}

impl Seen {
    fn order(&mut self, group: &Group, order: &[usize], arrived: &Arrived) {
        self.orders += 1;
        match arrived {
            Arrived::Refused(_, answer) => self.refused.push(*answer),
            Arrived::All(_) => self.accepted += 1,
        }
        self.trap |= group.trap != Trap::None && order[2] != 2;
        let reports: Vec<&Contents> = order.iter().map(|&at| &group.reports[at].0).collect();
        if let (Arrived::All(_), Some((last, before))) = (arrived, reports.split_last()) {
            let greatest = before.iter().all(|report| report.view < last.view);
            let terminated = before.iter().any(|report| terminated(report));
            self.bare_last |= greatest && terminated && !self::terminated(last);
        }
    }
}

fn terminated(report: &Contents) -> bool {
    let mut records = report.records.iter();
    records.any(|record| record.kind() == TERMINATION)
}

/// Counts of what the inputs came to.
#[derive(Default)]
pub struct Tally {
    pub groups: u64,
    pub sequences: u64,
    pub calls: u64,
    counts: BTreeMap<String, u64>,
}

/// From this many groups and sequences on, rare situations are a failure.
pub const JUDGED: u64 = 1000;

/// What must be found among a thousand groups at least, and how often.
const WANTED: [(&str, u64); 27] = [
    ("orders: two or more, all accepted", 500),
    ("orders: some accepted and some refused", 50),
    ("orders: refused with 12 and accepted", 40),
    ("orders: refused with 13 and accepted", 15),
    ("orders: of three reports that trap", 50),
    ("orders: of two reports", 100),
    ("orders: of ten reports and more", 6),
    ("reports: of one view, with a termination and without", 100),
    ("reports: a greater view without a termination last", 20),
    ("reports: of other views", 300),
    ("reports: of a held node", 200),
    ("reports: of a held node and a greater view", 50),
    ("reports: of no held node", 200),
    ("start: fresh", 200),
    ("start: nodes held", 200),
    ("start: a termination", 50),
    ("start: more remembered than kept", 30),
    ("end: another kept view", 300),
    ("end: the kept view of the start", 50),
    ("end: a termination", 200),
    ("end: a plan", 100),
    ("end: a plan with a gap", 20),
    ("end: another plan without rounds", 50),
    ("end: wait 2", 20),
    ("end: wait 3", 5),
    ("end: wait 4", 50),
    ("end: wait 5", 10),
];

impl Tally {
    pub fn put(&mut self, holds: bool, name: &str) {
        if holds {
            *self.counts.entry(name.into()).or_default() += 1;
        }
    }

    fn group(&mut self, start: &Table, group: &Group, seen: &Seen, end: Option<&End>) {
        let both = seen.accepted > 0 && !seen.refused.is_empty();
        let with = |number| seen.refused.contains(&Answer::Number(number));
        let two = seen.accepted > 1;
        self.put(two, "orders: two or more, all accepted");
        self.put(both, "orders: some accepted and some refused");
        let twelve = both && with(12);
        self.put(twelve, "orders: refused with 12 and accepted");
        let thirteen = both && with(13);
        self.put(thirteen, "orders: refused with 13 and accepted");
        self.put(seen.trap, "orders: of three reports that trap");
        self.put(seen.accepted == 0, "orders: none accepted");
        let count = group.reports.len();
        self.put(two && count == 2, "orders: of two reports");
        self.put(two && count >= 10, "orders: of ten reports and more");
        let Some(end) = end.filter(|_| two) else {
            return;
        };
        let (start, desk) = (words::whole_words(&start.state), &start.desk);
        let contents: Vec<&Contents> = group.reports.iter().map(|(report, _)| report).collect();
        let first = contents[0];
        let one_view = contents.iter().any(|report| {
            let same = contents.iter().filter(|other| other.view == report.view);
            let with = same.clone().filter(|other| terminated(other)).count();
            0 < with && with < same.count()
        });
        self.put(
            one_view,
            "reports: of one view, with a termination and without",
        );
        self.put(
            seen.bare_last,
            "reports: a greater view without a termination last",
        );
        let other = contents.iter().any(|report| report.view != first.view);
        self.put(other, "reports: of other views");
        let desk = words::whole_words(desk);
        let before = |report: &&&Contents| desk[512 * report.node as usize + 1];
        let held = |report: &&&Contents| mask::has(start[52], report.node);
        let again = contents.iter().filter(held).count();
        self.put(again > 0, "reports: of a held node");
        self.put(again == 0, "reports: of no held node");
        let greater = |report: &&&Contents| held(report) && report.view > before(report);
        let greater = contents.iter().any(|report| greater(&report));
        self.put(greater, "reports: of a held node and a greater view");
        self.put(start[1] == 0, "start: fresh");
        self.put(start[52] != 0, "start: nodes held");
        self.put(start[3] == 1, "start: a termination");
        let more = start[122..154].iter().any(|&view| view > start[1]);
        self.put(more, "start: more remembered than kept");
        let state = words::whole_words(&end.table.state);
        self.put(state[1] != start[1], "end: another kept view");
        self.put(state[1] == start[1], "end: the kept view of the start");
        self.put(state[3] == 1, "end: a termination");
        let decided = match end.decided[0].answer() {
            Answer::Wait(reason, _) => format!("end: wait {reason}"),
            answer => format!("end: a {answer}"),
        };
        self.put(true, &decided);
        let gap = matches!(end.decided[1].answer(), Answer::PlanWithin(_));
        self.put(gap, "end: a plan with a gap");
        let plan = |at: usize| &end.decided[at].state;
        self.put(plan(1) != plan(0), "end: another plan without rounds");
    }

    /// Prints all counts.
    pub fn print(&self) {
        for (name, times) in &self.counts {
            println!("  {name}: {times}");
        }
    }

    /// What is too rare for the inputs to show much.
    pub fn rare(&self) -> Vec<&'static str> {
        let times = |name: &str| self.counts.get(name).copied().unwrap_or(0);
        let rare = |wanted: &[(&'static str, u64)], of: u64| -> Vec<&'static str> {
            let few = wanted
                .iter()
                .filter(|(name, least)| times(name) * 1000 < of * least);
            few.map(|&(name, _)| name).collect()
        };
        let mut all = rare(&WANTED, self.groups);
        all.extend(rare(&commits::WANTED, self.sequences));
        all
    }
}
