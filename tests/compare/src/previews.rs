//! The inputs of the `previews` program: the restarts of the `events` program and
//! the layouts of the `plans` program, with a preview of what each call is lent,
//! damaged or not. What a preview says is compared with the reference, and with
//! drop and decide of the planner itself; the mask of all nodes with the reference
//! and with a preview of each node.
//!
//! An input depends on the seed, its sort and its index alone.

use crate::calls::{self, Asked, Kind, Outcome, Pages, Table, BUFFER_BYTES};
use crate::events::{self, place};
use crate::lent::Place;
use crate::library::{Answer, Planner, ACCEPTED};
use crate::pages::ROLES;
use crate::pairs::{self, World};
use crate::plans::{self, Size};
use crate::random::Random;
use crate::tally;
use reference::message::{Contents, TERMINATION};
use reference::roles::PLANNER;
use reference::settings::MOST_NODES;
use reference::state::Phase;
use reference::{mask, words};
use std::collections::{BTreeMap, BTreeSet};

/// The roles that get number 15.
const NOT_THE_PLANNER: [u32; ROLES.len() - 1] = {
    let mut others = [0; ROLES.len() - 1];
    let mut at = 0;
    while at < others.len() {
        others[at] = ROLES[at + 1];
        at += 1;
    }
    others
};
/// Nodes that no settings have.
const BEYOND: [u32; 5] = [32, 33, 64, 1 << 31, u32::MAX];

/// Where an input comes from.
#[derive(Clone, Copy, Debug, PartialEq, Eq)]
pub enum Sort {
    /// A restart of the `events` program, call by call.
    Restart,
    /// A layout of the `plans` program, of up to 9 nodes.
    Small,
    /// And of up to 32.
    Large,
    /// A layout whose shards need about as many nodes as are held.
    Tight,
}

impl Sort {
    pub const ALL: [Sort; 4] = [Sort::Restart, Sort::Small, Sort::Large, Sort::Tight];

    pub fn name(self) -> &'static str {
        match self {
            Sort::Restart => "restart",
            Sort::Small => "small",
            Sort::Large => "large",
            Sort::Tight => "tight",
        }
    }
}

/// A call at which the planner differs.
pub struct Difference {
    pub what: String,
    pub asked: Asked,
}

type Compared<T> = Result<T, Box<Difference>>;

/// What is known of a call beside what it is lent.
#[derive(Clone, Copy)]
struct About {
    /// Whether there is a fault in what is lent.
    faulty: bool,
    /// How the reference finds a placement.
    size: Size,
}

/// A planner that is being compared.
pub struct Comparison<'a> {
    pub planner: &'a Planner,
    pub pages: &'a mut Pages,
    /// Whether it is compared with the reference, or only with itself.
    pub with_reference: bool,
    pub tally: &'a mut Tally,
}

impl Comparison<'_> {
    /// Compares input `index` of a sort under a seed.
    pub fn input(&mut self, seed: u64, sort: Sort, index: u64) -> Compared<()> {
        match sort {
            Sort::Restart => self.restart(seed, index),
            Sort::Small => {
                let case = plans::case(!seed, Size::Small, index);
                self.layout(&mut Random::of_input(seed, index), &case)
            }
            Sort::Large => {
                let case = plans::case(!seed, Size::Large, index);
                self.layout(&mut Random::of_input(seed, index), &case)
            }
            Sort::Tight => {
                let random = &mut Random::of_input(seed ^ 1, index);
                let words = tight_settings(random);
                let often = random.pick(&[90, 97, 100, 100, 100]);
                let case = plans::case_of(random, Size::Large, words, often);
                self.layout(random, &case)
            }
        }
    }

    /// Previews along a restart. The restart itself goes on by the reference.
    fn restart(&mut self, seed: u64, index: u64) -> Compared<()> {
        let random = &mut Random::of_input(!seed, index);
        let mut sequence = events::sequence(seed, index);
        while let Some(step) = sequence.step() {
            let about = About {
                faulty: !step.faults.is_empty(),
                size: Size::Large,
            };
            for _ in 0..random.pick(&[0, 0, 1, 1]) {
                let asked = preview(random, &step.asked.table);
                self.both(random, about, &asked)?;
            }
            if random.chance(12) {
                let asked = of_all(random, &step.asked.table);
                self.both(random, about, &asked)?;
            }
            sequence.go_on(&step.asked, &calls::expected(&step.asked));
        }
        Ok(())
    }

    /// Previews of one layout: one compared with the reference, those of every
    /// node with drop and decide, and the mask.
    fn layout(&mut self, random: &mut Random, case: &plans::Case) -> Compared<()> {
        let table = &case.asked.table;
        let about = About {
            faulty: case.fault.is_some(),
            size: case.size,
        };
        let asked = preview(random, table);
        self.both(random, about, &asked)?;
        for kind in [Kind::Preview, Kind::PreviewAll] {
            let role = random.pick(&NOT_THE_PLANNER);
            let asked = Asked {
                role,
                ..as_planner(kind, table, 0)
            };
            self.both(random, about, &asked)?;
        }
        let every = random.chance(match case.size {
            Size::Small => 40,
            Size::Large => 12,
        });
        if every {
            for node in 0..=MOST_NODES {
                self.by_events(random, &as_planner(Kind::Preview, table, node))?;
            }
            self.both(random, about, &as_planner(Kind::PreviewAll, table, 0))?;
        } else {
            self.by_previews(random, &as_planner(Kind::PreviewAll, table, 0))?;
        }
        Ok(())
    }

    /// Compares a preview, or the mask, in both ways, and counts it.
    fn both(&mut self, random: &mut Random, about: About, asked: &Asked) -> Compared<()> {
        if self.with_reference {
            let expected = calls::expected_by(about.size.choice(), asked);
            let outcome = self.compare(random, asked, &expected, "by the reference")?;
            self.tally
                .count(self.planner, self.pages, asked, &outcome, about);
        }
        match asked.kind {
            Kind::PreviewAll => self.by_previews(random, asked),
            _ => self.by_events(random, asked),
        }
    }

    /// Compares a preview with what the planner's own events say.
    fn by_events(&mut self, random: &mut Random, asked: &Asked) -> Compared<()> {
        let said = said_by_events(self.planner, self.pages, asked);
        let expected = said.map_err(|what| different(asked, what))?;
        self.compare(random, asked, &expected, "by drop and decide")?;
        self.tally.by_events += 1;
        Ok(())
    }

    /// Compares the mask with the planner's own previews.
    fn by_previews(&mut self, random: &mut Random, asked: &Asked) -> Compared<()> {
        let said = said_by_previews(self.planner, self.pages, asked);
        let expected = said.map_err(|what| different(asked, what))?;
        self.compare(random, asked, &expected, "by a preview of each node")?;
        self.tally.by_previews += 1;
        Ok(())
    }

    fn compare(
        &mut self,
        random: &mut Random,
        asked: &Asked,
        expected: &Outcome,
        how: &str,
    ) -> Compared<Outcome> {
        let places = [(); 5].map(|()| place(random));
        self.tally.calls += 1;
        let compared = calls::compare_with(expected, self.planner, self.pages, asked, places);
        compared.map_err(|what| different(asked, format!("{how}: {what}")))
    }
}

fn different(asked: &Asked, what: String) -> Box<Difference> {
    let asked = asked.clone();
    Box::new(Difference { what, asked })
}

/// What the planner's events say of a preview: the node is dropped in a copy of
/// the state, and there it is decided.
fn said_by_events(planner: &Planner, pages: &mut Pages, asked: &Asked) -> Result<Outcome, String> {
    let places = [Place::Last; 5];
    let of_kind = |kind: Kind, state: &[u8]| Asked {
        kind,
        table: Table {
            state: state.to_vec(),
            ..asked.table.clone()
        },
        ..asked.clone()
    };
    let refused = |number: u32| Ok(Outcome::unchanged(asked, number));
    if asked.buffer.len() != BUFFER_BYTES {
        return refused(1);
    }
    let dropped = calls::call(
        planner,
        pages,
        &of_kind(Kind::Drop, &asked.table.state),
        places,
    )?;
    match dropped.answer {
        number @ (1 | 2 | 15 | 3) => return refused(number),
        _ if asked.table.state[..4] != [0; 4] => return refused(4),
        0 => {}
        number => return refused(number),
    }
    let decided = calls::call(
        planner,
        pages,
        &of_kind(Kind::Decide, &dropped.state),
        places,
    )?;
    let mut buffer = decided.state;
    buffer.resize(BUFFER_BYTES, 0);
    Ok(Outcome {
        buffer,
        ..Outcome::unchanged(asked, decided.answer)
    })
}

/// What the planner's previews of each node say of the mask.
fn said_by_previews(
    planner: &Planner,
    pages: &mut Pages,
    asked: &Asked,
) -> Result<Outcome, String> {
    let mut lost = 0;
    for node in 0..MOST_NODES {
        let preview = Asked {
            kind: Kind::Preview,
            node,
            ..asked.clone()
        };
        let outcome = calls::call(planner, pages, &preview, [Place::Last; 5])?;
        match outcome.answer() {
            Answer::Plan | Answer::Number(6 | 14) => {}
            Answer::Wait(_, _) => lost |= mask::only(node),
            Answer::Number(number) => return Ok(Outcome::unchanged(asked, number)),
            other => return Err(format!("a preview of node {node} answers {other}")),
        }
    }
    Ok(Outcome {
        buffer: words::to_bytes(&words::padded(&[lost], BUFFER_BYTES / 4)),
        ..Outcome::unchanged(asked, ACCEPTED + 1)
    })
}

fn as_planner(kind: Kind, table: &Table, node: u32) -> Asked {
    Asked {
        role: PLANNER,
        kind,
        table: table.clone(),
        message: Vec::new(),
        node,
        buffer: vec![0xEE; BUFFER_BYTES],
    }
}

/// In any role now and then, with a buffer of any filling and now and then of
/// another length.
fn call(random: &mut Random, kind: Kind, table: &Table, node: u32) -> Asked {
    let mut buffer = vec![random.word() as u8; BUFFER_BYTES];
    if random.chance(3) {
        events::length(random, &mut buffer, "buffer's length");
    }
    let role = match random.chance(4) {
        true => random.pick(&ROLES),
        false => PLANNER,
    };
    Asked {
        role,
        buffer,
        ..as_planner(kind, table, node)
    }
}

fn of_all(random: &mut Random, table: &Table) -> Asked {
    call(random, Kind::PreviewAll, table, 0)
}

/// A preview of a held node, mostly; else of one that is absent or none at all.
fn preview(random: &mut Random, table: &Table) -> Asked {
    let nodes = words::whole_words(&table.settings).first().copied();
    let nodes = nodes.unwrap_or(0).clamp(1, MOST_NODES);
    let held = words::whole_words(&table.state).get(52).copied();
    let held = held.unwrap_or(0) & mask::below(nodes);
    let from = match random.between(0, 99) {
        0..=79 => held,
        80..=91 => mask::below(nodes) & !held,
        _ => 0,
    };
    let node = match from {
        0 => {
            let below = random.between(0, nodes - 1);
            let beyond = random.pick(&BEYOND);
            random.pick(&[below, nodes, nodes, beyond])
        }
        _ => random.pick(&mask::nodes(from)),
    };
    call(random, Kind::Preview, table, node)
}

/// Settings whose shards need as many nodes as there are, or one or two fewer, in
/// one subgroup or in some.
pub fn tight_settings(random: &mut Random) -> Vec<u32> {
    let nodes = random.pick(&[4, 6, 9, 12, 16, 20, 25, 32, 32, 32]);
    let sets = random.between(2, 16).min(nodes);
    let subgroups = random.pick(&[1, 1, 1, 2, 4]);
    let each = random.between(1, 16 / subgroups);
    let each = each
        .max(nodes.div_ceil(sets))
        .min(16 / subgroups)
        .min(nodes);
    let mut words = vec![nodes, sets, random.between(1, nodes), subgroups * each];
    words.extend((0..nodes).map(|node| node % sets));
    for shard in 0..subgroups * each {
        words.push(shard % subgroups * 256 + 1);
    }
    for subgroup in 0..subgroups {
        let spare = random.pick(&[0, 0, 1, 2]);
        let mut left = (nodes - spare).saturating_sub(each);
        while left > 0 {
            let of_least = |&shard: &u32| words[(4 + nodes + shard) as usize] % 256;
            let own = (0..subgroups * each).filter(|shard| shard % subgroups == subgroup);
            let Some(shard) = own.min_by_key(of_least) else {
                break;
            };
            let word = &mut words[(4 + nodes + shard) as usize];
            if *word % 256 == sets {
                break;
            }
            *word += 1;
            left -= 1;
        }
    }
    if random.chance(30) {
        crate::generate::put_caps(random, true, &mut words);
    }
    words
}

/// Counts of what the calls came to.
#[derive(Default)]
pub struct Tally {
    pub calls: u64,
    /// Previews compared with drop and decide, and masks with previews.
    pub by_events: u64,
    pub by_previews: u64,
    answers: BTreeMap<(Kind, String), u64>,
    situations: BTreeMap<String, u64>,
    roles: BTreeMap<(Kind, u32), u64>,
}

/// From this many calls on, rare answers are a failure.
pub const JUDGED: u64 = 20_000;
/// Every answer is at least one in so many of its call's answers.
const COMMON: u64 = 250;
/// Every call comes at least so often in every role, with nothing amiss before
/// 15.
const LEAST: u64 = 10;

/// What must be found at least so often among a thousand previews that are not
/// refused.
const OF_NODES: [(&str, u64); 19] = [
    ("a plan, and decide plans", 50),
    ("wait 2, and decide plans", 2),
    ("wait 3, and decide plans", 2),
    ("wait 4, and decide plans", 5),
    ("wait 5, and decide plans", 5),
    ("a wait of another reason than decide's", 5),
    ("a plan with the masks that decide gives", 5),
    ("a plan with other masks", 30),
    ("a plan with a termination kept", 4),
    ("of the only node that reported the kept view", 5),
    ("of the only node that reported the termination", 2),
    ("of a node that reported an older view", 10),
    ("of a node that no shard of the kept view has", 10),
    ("of a node that is a holder in decide's plan", 50),
    ("of the last held node", 5),
    ("of node 31", 2),
    ("with every node held", 50),
    ("in spite of a fault", 5),
    ("by the search through all placements", 30),
];
/// And among a thousand masks.
const OF_MASKS: [(&str, u64); 14] = [
    ("0, nobody held", 2),
    ("0, nodes held", 8),
    ("some of the held nodes", 50),
    ("all held nodes, and decide plans", 10),
    ("all held nodes, and decide waits", 50),
    ("node 31", 5),
    ("with nodes of two reasons", 5),
    ("a node of wait 2, and decide plans", 2),
    ("a node of wait 3, and decide plans", 1),
    ("a node of wait 4, and decide plans", 10),
    ("a node of wait 5, and decide plans", 10),
    ("with every node held", 50),
    ("in spite of a fault", 2),
    ("by the search through all placements", 20),
];
/// And among a thousand refusals with number 4.
const OF_PHASES: [(&str, u64); 5] = [
    ("while Ordered", 100),
    ("while Preparing", 40),
    ("while Committed", 20),
    ("of a node that is not held", 8),
    ("of a node from N up", 20),
];

impl Tally {
    fn put(&mut self, holds: bool, name: String) {
        if holds {
            *self.situations.entry(name).or_default() += 1;
        }
    }

    fn count(
        &mut self,
        planner: &Planner,
        pages: &mut Pages,
        asked: &Asked,
        outcome: &Outcome,
        about: About,
    ) {
        let answer = outcome.answer();
        let key = (asked.kind, tally::class(answer));
        *self.answers.entry(key).or_default() += 1;
        if ![1, 2].contains(&answer.number().unwrap_or(0)) {
            *self.roles.entry((asked.kind, asked.role)).or_default() += 1;
        }
        let Some(world) = pairs::world(&asked.table) else {
            return;
        };
        if answer == Answer::Number(4) {
            return self.phase(asked, &world);
        }
        if answer.refused() {
            return;
        }
        let mut of_kind = |kind: Kind, node: u32| {
            let asked = as_planner(kind, &asked.table, node);
            let made = calls::call(planner, pages, &asked, [Place::Last; 5]);
            made.unwrap_or_else(|_| Outcome::unchanged(&asked, 0))
        };
        let decided = of_kind(Kind::Decide, 0);
        let name = asked.kind.name();
        let all = mask::below(world.settings.nodes);
        self.put(about.faulty, format!("{name}: in spite of a fault"));
        let searched = about.size == Size::Small;
        self.put(
            searched,
            format!("{name}: by the search through all placements"),
        );
        let full = world.state.held == all;
        self.put(full, format!("{name}: with every node held"));
        if asked.kind == Kind::Preview {
            return self.preview(asked, outcome, &world, &decided);
        }
        let answer_of = |node| of_kind(Kind::Preview, node).answer();
        let nodes = mask::nodes(world.state.held);
        let answers: Vec<Answer> = nodes.into_iter().map(answer_of).collect();
        self.mask(outcome, &world, decided.answer(), &answers);
    }

    fn phase(&mut self, asked: &Asked, world: &World) {
        self.put(true, format!("number 4: while {:?}", world.state.phase));
        if asked.kind == Kind::Preview {
            let known = asked.node < world.settings.nodes;
            let held = known && mask::has(world.state.held, asked.node);
            self.put(
                known && !held,
                "number 4: of a node that is not held".into(),
            );
            self.put(!known, "number 4: of a node from N up".into());
        }
    }

    fn preview(&mut self, asked: &Asked, outcome: &Outcome, world: &World, decided: &Outcome) {
        let mut put = |holds: bool, name: &str| self.put(holds, format!("preview: {name}"));
        let (answer, before) = (outcome.answer(), decided.answer());
        let (state, node) = (&world.state, asked.node);
        assert_eq!(state.phase, Phase::Gathering);
        let next = words::whole_words(&outcome.buffer);
        let whole = words::whole_words(&decided.state);
        match (answer, before) {
            (Answer::Plan, Answer::Plan) => {
                put(true, "a plan, and decide plans");
                let same = next[58..74] == whole[58..74];
                put(same, "a plan with the masks that decide gives");
                put(!same, "a plan with other masks");
                put(
                    state.termination.is_some(),
                    "a plan with a termination kept",
                );
            }
            (Answer::Plan, _) => put(true, "a plan, and decide waits"),
            (Answer::Wait(reason, _), Answer::Plan) => {
                put(true, &format!("wait {reason}, and decide plans"))
            }
            (Answer::Wait(reason, _), Answer::Wait(other, _)) => {
                put(reason != other, "a wait of another reason than decide's")
            }
            _ => {}
        }
        let shards = world.settings.shards as usize;
        let holder = before == Answer::Plan && whole[74..74 + shards].contains(&node);
        put(holder, "of a node that is a holder in decide's plan");
        let Some(view) = &state.kept else {
            return;
        };
        let own = |report: &&Contents| report.view == view.number;
        let reporters: Vec<&Contents> = world.reports.iter().filter(own).collect();
        let alone = |reporters: &[&Contents]| reporters.len() == 1 && reporters[0].node == node;
        put(
            alone(&reporters),
            "of the only node that reported the kept view",
        );
        let ended = |report: &&&Contents| !report.of_kind(TERMINATION).is_empty();
        let ended: Vec<&Contents> = reporters.iter().filter(ended).copied().collect();
        put(
            alone(&ended),
            "of the only node that reported the termination",
        );
        let older = reporters.iter().all(|report| report.node != node);
        put(older, "of a node that reported an older view");
        let carries = view.masks.iter().any(|&own| mask::has(own, node));
        put(!carries, "of a node that no shard of the kept view has");
        put(state.held == mask::only(node), "of the last held node");
        put(node == MOST_NODES - 1, "of node 31");
    }

    fn mask(&mut self, outcome: &Outcome, world: &World, decided: Answer, answers: &[Answer]) {
        let mut put = |holds: bool, name: &str| self.put(holds, format!("preview_all: {name}"));
        let (lost, held) = (words::whole_words(&outcome.buffer)[0], world.state.held);
        let plans = decided == Answer::Plan;
        put(lost == 0 && held == 0, "0, nobody held");
        put(lost == 0 && held != 0, "0, nodes held");
        put(lost != 0 && lost != held, "some of the held nodes");
        let all = lost != 0 && lost == held;
        put(all && plans, "all held nodes, and decide plans");
        put(all && !plans, "all held nodes, and decide waits");
        put(mask::has(lost, MOST_NODES - 1), "node 31");
        let reason = |answer: &Answer| match answer {
            Answer::Wait(reason, _) => Some(*reason),
            _ => None,
        };
        let reasons: BTreeSet<u32> = answers.iter().filter_map(reason).collect();
        put(reasons.len() > 1, "with nodes of two reasons");
        for reason in reasons {
            put(plans, &format!("a node of wait {reason}, and decide plans"));
        }
    }

    /// Prints all counts.
    pub fn print(&self) {
        for ((kind, answer), times) in &self.answers {
            println!("  {} {answer}: {times}", kind.name());
        }
        for (name, times) in &self.situations {
            println!("  {name}: {times}");
        }
    }

    fn of_kind(&self, kind: Kind) -> u64 {
        let own = self.answers.iter().filter(|((own, _), _)| *own == kind);
        own.map(|(_, times)| times).sum()
    }

    fn answered(&self, kind: Kind, answer: &str) -> u64 {
        let times = self.answers.get(&(kind, answer.to_string()));
        times.copied().unwrap_or(0)
    }

    /// What is too rare for the calls to show much.
    pub fn rare(&self) -> Vec<String> {
        let mut rare = Vec::new();
        let kinds = [Kind::Preview, Kind::PreviewAll];
        for kind in kinds {
            for answer in tally::wanted(kind) {
                let times = self.answered(kind, &answer);
                if times == 0 || times * COMMON < self.of_kind(kind) {
                    rare.push(format!("{} {answer}", kind.name()));
                }
            }
            for role in ROLES {
                let times = self.roles.get(&(kind, role)).copied().unwrap_or(0);
                if times < LEAST {
                    rare.push(format!("{} in role {role}", kind.name()));
                }
            }
        }
        let plans_and_waits = |(kind, answer): &(Kind, String)| {
            *kind == Kind::Preview && (answer == "plan" || answer.starts_with("wait"))
        };
        let own = self.answers.iter().filter(|(key, _)| plans_and_waits(key));
        let previews = own.map(|(_, times)| times).sum();
        let masks = self.answered(Kind::PreviewAll, "length");
        let phases = kinds
            .map(|kind| self.answered(kind, "number 4"))
            .iter()
            .sum();
        let mut judge = |name: String, least: u64, of: u64| {
            let times = self.situations.get(&name).copied().unwrap_or(0);
            if times == 0 || times * 1000 < least * of {
                rare.push(name);
            }
        };
        for (name, least) in OF_NODES {
            judge(format!("preview: {name}"), least, previews);
        }
        for (name, least) in OF_MASKS {
            judge(format!("preview_all: {name}"), least, masks);
        }
        for (name, least) in OF_PHASES {
            judge(format!("number 4: {name}"), least, phases);
        }
        rare
    }
}
