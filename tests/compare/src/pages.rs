//! The inputs of the `pages` program: the restarts of the `events` program, with
//! calls in every kind of role, pages of what each call is lent, damaged or not,
//! and pairs of worlds that agree on a subgroup.

use crate::calls::{self, Asked, Kind, Outcome, Pages, Table, BUFFER_BYTES};
use crate::events::{self, place};
use crate::lent::Place;
use crate::library::{Answer, Planner};
use crate::pairs::{self, World};
use crate::plans;
use crate::random::Random;
use reference::order::{self, Choice};
use reference::placement::Subgroup;
use reference::roles::{Role, PLANNER, WATCHER};
use reference::settings::{self, Settings, SUBGROUPS};
use reference::{soundness, words};
use std::collections::BTreeMap;

/// The words of roles that calls are made with: the planner's, the watchers',
/// and such as are nobody's.
pub const ROLES: [u32; 13] = [
    PLANNER,
    WATCHER,
    WATCHER + 1,
    WATCHER + 2,
    WATCHER + 3,
    WATCHER + 4,
    0,
    1,
    255,
    257,
    511,
    768,
    u32::MAX,
];
/// Every word up to this one is tried.
const FIRST_WORDS: u32 = 1030;
/// Subgroups that have no page.
const ABOVE: [u32; 8] = [4, 5, 7, 255, 256, 512, 1 << 31, u32::MAX];
/// A page of up to so many nodes is compared with the search through all
/// placements, if there are at most so many by a bound that leaves failure sets
/// out.
const FEW_NODES: u32 = 9;
const MOST_PLACEMENTS: u64 = 300;

/// A call at which planner and reference differ, or at which two worlds that
/// agree do.
pub struct Difference {
    pub what: String,
    pub asked: Asked,
    /// The call on the other world of a pair.
    pub other: Option<Asked>,
}

/// Plays restart `index` of a seed to its end or to the first difference.
pub fn play(
    planner: &Planner,
    pages: &mut Pages,
    seed: u64,
    index: u64,
    tally: &mut Tally,
) -> Result<(), Box<Difference>> {
    let random = &mut Random::of_input(!seed, index);
    let mut sequence = events::sequence(seed, index);
    while let Some(step) = sequence.step() {
        let mut asked = vec![in_a_role(random, &step.asked)];
        for _ in 0..random.pick(&[0, 1, 1, 2]) {
            asked.push(page(random, &step.asked));
        }
        for asked in asked {
            let outcome = compare(planner, pages, random, &asked, tally)?;
            let read = matches!(outcome.answer(), Answer::Length(_));
            let fault = !step.faults.is_empty() && asked.kind == Kind::Page;
            tally.put(fault && read, "page in spite of a fault");
        }
        let outcome = compare(planner, pages, random, &step.asked, tally)?;
        sequence.go_on(&step.asked, &outcome);
        let table = sequence.table();
        let often = match table.state[0] {
            0 => 4,
            _ => 12,
        };
        if random.chance(often) {
            pair(planner, pages, random, table, tally)?;
        }
    }
    Ok(())
}

/// Makes every call with each of the first words of a role, and with such as
/// have more bits, on what restart `index` ends with.
pub fn every_word(
    planner: &Planner,
    pages: &mut Pages,
    seed: u64,
    index: u64,
    tally: &mut Tally,
) -> Result<(), Box<Difference>> {
    let random = &mut Random::of_input(!seed, index);
    let mut sequence = events::sequence(seed, index);
    while let Some(step) = sequence.step() {
        sequence.go_on(&step.asked, &calls::expected(&step.asked));
    }
    let greater =
        (11..32).flat_map(|bit| [0, PLANNER, WATCHER, WATCHER + 3].map(|low| (1 << bit) + low));
    for role in (0..=FIRST_WORDS).chain(greater) {
        for kind in Kind::ALL {
            let asked = Asked {
                role,
                kind,
                table: sequence.table().clone(),
                message: Vec::new(),
                node: role % SUBGROUPS,
                buffer: vec![random.word() as u8; BUFFER_BYTES],
            };
            compare(planner, pages, random, &asked, tally)?;
        }
    }
    Ok(())
}

/// The call, or another one over the same, in any role.
fn in_a_role(random: &mut Random, asked: &Asked) -> Asked {
    let kind = match random.chance(30) {
        true => asked.kind,
        false => random.pick(&Kind::EVENTS),
    };
    Asked {
        role: random.pick(&ROLES),
        kind,
        ..asked.clone()
    }
}

/// A page of what a call is lent.
fn page(random: &mut Random, asked: &Asked) -> Asked {
    let subgroup = random.between(0, SUBGROUPS - 1);
    let other = random.between(0, SUBGROUPS - 1);
    let above = random.pick(&ABOVE);
    let any = random.pick(&ROLES);
    let (role, subgroup) = match random.between(0, 99) {
        0..=49 => (WATCHER + subgroup, subgroup),
        50..=69 => (PLANNER, subgroup),
        70..=79 => (WATCHER + other, subgroup),
        80..=91 => (any, subgroup),
        92..=95 => (PLANNER, above),
        _ => (any, above),
    };
    let mut buffer = vec![random.word() as u8; BUFFER_BYTES];
    if random.chance(3) {
        events::length(random, &mut buffer, "buffer's length");
    }
    Asked {
        role,
        kind: Kind::Page,
        table: asked.table.clone(),
        message: Vec::new(),
        node: subgroup,
        buffer,
    }
}

/// How the reference finds the placement of a page: where there are few, by the
/// search through all.
fn choice(asked: &Asked) -> Choice {
    let words = words::whole_words(&asked.table.settings);
    match settings::parse(&words) {
        Ok(settings) if asked.kind == Kind::Page && has_few(&settings, asked.node) => {
            order::exhaustive
        }
        _ => order::greedy,
    }
}

/// Whether a subgroup has few placements.
fn has_few(settings: &Settings, subgroup: u32) -> bool {
    let shards = settings.shards_of(subgroup);
    settings.nodes <= FEW_NODES
        && plans::placements(settings, &shards, settings.nodes) <= MOST_PLACEMENTS
}

/// Compares a call with the reference and counts it.
fn compare(
    planner: &Planner,
    pages: &mut Pages,
    random: &mut Random,
    asked: &Asked,
    tally: &mut Tally,
) -> Result<Outcome, Box<Difference>> {
    let places = [(); 5].map(|()| place(random));
    let expected = calls::expected_by(choice(asked), asked);
    let compared = calls::compare_with(&expected, planner, pages, asked, places);
    let outcome = compared.map_err(|what| {
        Box::new(Difference {
            what,
            asked: asked.clone(),
            other: None,
        })
    })?;
    tally.count(asked, &outcome);
    Ok(outcome)
}

/// Compares the watchers' pages of a world with those of other worlds that agree
/// with it, one for each subgroup.
fn pair(
    planner: &Planner,
    pages: &mut Pages,
    random: &mut Random,
    table: &Table,
    tally: &mut Tally,
) -> Result<(), Box<Difference>> {
    let Some(world) = pairs::world(table) else {
        return Ok(());
    };
    for subgroup in 0..SUBGROUPS {
        tally.partners.0 += 1;
        let Some(both) = both(random, table, &world, subgroup) else {
            tally.partners.1 += 1;
            continue;
        };
        let places = [(); 5].map(|()| place(random));
        same_page(planner, pages, &both, places)?;
        tally.pair(&world, &both[1]);
        for asked in &both {
            compare(planner, pages, random, asked, tally)?;
        }
    }
    Ok(())
}

/// The watcher's page of a world, and of another one that agrees with it, if one
/// is found.
fn both(random: &mut Random, table: &Table, world: &World, subgroup: u32) -> Option<[Asked; 2]> {
    let other = pairs::partner(random, world, subgroup)?;
    Some([table, &other].map(|table| Asked {
        role: WATCHER + subgroup,
        kind: Kind::Page,
        table: table.clone(),
        message: Vec::new(),
        node: subgroup,
        buffer: vec![random.word() as u8; BUFFER_BYTES],
    }))
}

/// Compares nothing but the pages of pairs of worlds along restart `index`, with
/// each other and not with the reference.
pub fn play_pairs(
    planner: &Planner,
    pages: &mut Pages,
    seed: u64,
    index: u64,
) -> Result<(), Box<Difference>> {
    let random = &mut Random::of_input(!seed, index);
    let mut sequence = events::sequence(seed, index);
    while let Some(step) = sequence.step() {
        sequence.go_on(&step.asked, &calls::expected(&step.asked));
        let world = pairs::world(sequence.table()).filter(|_| random.chance(15));
        for subgroup in 0..SUBGROUPS {
            let both = world
                .as_ref()
                .and_then(|world| both(random, sequence.table(), world, subgroup));
            if let Some(both) = both {
                same_page(planner, pages, &both, [Place::Last; 5])?;
            }
        }
    }
    Ok(())
}

/// Asks for two pages that must be the same, answer and all bytes.
pub fn same_page(
    planner: &Planner,
    pages: &mut Pages,
    both: &[Asked; 2],
    places: [Place; 5],
) -> Result<(), Box<Difference>> {
    let different = |what: String| {
        Box::new(Difference {
            what,
            asked: both[0].clone(),
            other: Some(both[1].clone()),
        })
    };
    let mut made = |asked: &Asked| calls::call(planner, pages, asked, places).map_err(different);
    let (one, other) = (made(&both[0])?, made(&both[1])?);
    if one.answer != other.answer {
        return Err(different(format!(
            "two worlds that agree on subgroup {} have the answers {} and {}",
            both[0].node,
            one.answer(),
            other.answer()
        )));
    }
    if one.buffer != other.buffer {
        let pages = [&one, &other].map(|outcome| words::whole_words(&outcome.buffer));
        let at = (0..pages[0].len()).find(|&at| pages[0][at] != pages[1][at]);
        return Err(different(format!(
            "two worlds that agree on subgroup {} have other pages, first at word {}",
            both[0].node,
            at.unwrap_or(0)
        )));
    }
    Ok(())
}

/// Counts of what the calls came to.
#[derive(Default)]
pub struct Tally {
    pub calls: u64,
    pub pages: u64,
    pub pairs: u64,
    /// Worlds for which another was looked for, and for which none was found.
    pub partners: (u64, u64),
    counts: BTreeMap<String, u64>,
    /// How often each call was made in each role with nothing amiss before 15.
    roles: BTreeMap<(Kind, u32), u64>,
}

/// From this many pages on, rare situations are a failure.
pub const JUDGED: u64 = 8000;
/// Every call comes at least so often in every role, with nothing amiss before
/// 15, and, where it is not allowed, with every answer.
const LEAST: u64 = 10;
/// What must be found among a thousand pages at least, and how often.
const WANTED: [(&str, u64); 27] = [
    ("page while Gathering", 100),
    ("page while Ordered", 30),
    ("page while Preparing", 8),
    ("page while Committed", 3),
    ("page of a subgroup without shards", 40),
    ("page without a kept view", 5),
    ("page of shards that lie between others", 50),
    ("page of shards that all have a holder", 50),
    ("page of shards of which some have a holder", 20),
    ("page of shards without a holder", 20),
    ("page without a holder though a termination is kept", 5),
    ("page with a holder that is not node 0", 50),
    ("page with a target that is not (0, 0)", 50),
    ("page without a placement", 20),
    ("page with moves", 50),
    ("page with a placement though decide waits 2", 5),
    ("page with a placement though decide waits 3", 2),
    ("page with a placement though decide waits 4", 5),
    ("page with a placement though decide waits 5", 1),
    ("page with other moves than the plan's total", 20),
    ("page with another placement than the best", 1),
    ("page by the search through all placements", 50),
    ("page in spite of a fault", 5),
    ("page of the planner", 50),
    ("page of a watcher", 100),
    ("number 15 of an unsound state", 5),
    ("number 3 of a watcher", 20),
];
/// What must be found among a thousand pairs, for each part in which they can
/// differ.
const PARTS: u64 = 20;
/// Pairs in each phase, and of a subgroup without shards, among a thousand.
const PAIRS: [(&str, u64); 5] = [
    ("pair while Gathering", 100),
    ("pair while Ordered", 50),
    ("pair while Preparing", 15),
    ("pair while Committed", 4),
    ("pair without shards", 50),
];

impl Tally {
    fn put(&mut self, holds: bool, name: &str) {
        if holds {
            *self.counts.entry(name.into()).or_default() += 1;
        }
    }

    fn count(&mut self, asked: &Asked, outcome: &Outcome) {
        self.calls += 1;
        let name = asked.kind.name();
        let number = outcome.answer().number().unwrap_or(0);
        if ![1, 2].contains(&number) {
            *self.roles.entry((asked.kind, asked.role)).or_default() += 1;
        }
        if !allowed(asked) {
            self.put(true, &format!("{name} not allowed: number {number}"));
        }
        if asked.kind != Kind::Page {
            return;
        }
        self.pages += 1;
        let words = words::whole_words(&asked.table.settings);
        let watcher = asked.role != PLANNER;
        match outcome.answer() {
            Answer::Length(_) => self.page(asked, outcome),
            Answer::Number(3) => self.put(watcher, "number 3 of a watcher"),
            Answer::Number(15) => {
                let unsound =
                    settings::parse(&words).is_ok() && pairs::world(&asked.table).is_none();
                self.put(unsound, "number 15 of an unsound state");
            }
            _ => {}
        }
    }

    /// What an accepted page shows.
    fn page(&mut self, asked: &Asked, outcome: &Outcome) {
        let Some(world) = pairs::world(&asked.table) else {
            return;
        };
        let page = words::whole_words(&outcome.buffer);
        let World {
            settings,
            state,
            reports,
            ..
        } = &world;
        self.put(true, &format!("page while {:?}", state.phase));
        let planner = asked.role == PLANNER;
        self.put(planner, "page of the planner");
        self.put(!planner, "page of a watcher");
        let (shards, known, found) = (page[2], page[3], page[4] == 1);
        self.put(shards == 0, "page of a subgroup without shards");
        self.put(state.kept.is_none(), "page without a kept view");
        let own = settings.shards_of(asked.node);
        let between = own.windows(2).any(|pair| pair[1] > pair[0] + 1);
        self.put(between, "page of shards that lie between others");
        if shards != 0 {
            self.put(known == shards, "page of shards that all have a holder");
            let some = known != 0 && known != shards;
            self.put(some, "page of shards of which some have a holder");
            self.put(known == 0, "page of shards without a holder");
            let terminated = state.termination.as_ref();
            let lost = |&shard: &u32| {
                let at = terminated.map_or(0, |all| all[shard as usize].k);
                known >> shard & 1 == 0 && at > 0
            };
            let lost = own.iter().any(lost);
            self.put(lost, "page without a holder though a termination is kept");
        }
        let above = page[8..24].iter().any(|&holder| holder > 0);
        self.put(above, "page with a holder that is not node 0");
        let target = page[24..56].iter().any(|&word| word > 0);
        self.put(target, "page with a target that is not (0, 0)");
        self.put(!found, "page without a placement");
        self.put(page[5] > 0, "page with moves");
        self.put(
            has_few(settings, asked.node),
            "page by the search through all placements",
        );
        let gathered = soundness::gathered(settings, state, reports);
        let Some(view) = &state.kept else {
            return;
        };
        let subgroup = Subgroup {
            settings,
            number: asked.node,
            held: state.held,
            old: &view.masks,
        };
        match &state.plan {
            Some(plan) => {
                let other = page[5] != plan.total;
                self.put(other, "page with other moves than the plan's total");
                let best = subgroup.first_best().unwrap_or_default();
                let another = own.iter().any(|&shard| {
                    let shard = shard as usize;
                    best.get(shard) != plan.masks.get(shard)
                });
                self.put(another, "page with another placement than the best");
            }
            None if found && shards != 0 => {
                let wait = match gathered.quorum() {
                    Err(wait) => wait.reason(),
                    Ok((view, _)) => match gathered.layout(view).each(order::greedy) {
                        Err(_) => 5,
                        Ok(_) => 0,
                    },
                };
                let name = format!("page with a placement though decide waits {wait}");
                self.put(wait > 0, &name);
            }
            None => {}
        }
    }

    fn pair(&mut self, world: &World, other: &Asked) {
        self.pairs += 1;
        let subgroup = other.node;
        let other = pairs::world(&other.table).expect("both worlds are sound");
        assert!(pairs::agree(world, &other, subgroup), "the worlds agree");
        for part in pairs::differing(world, &other) {
            self.put(true, &format!("pair with another {part}"));
        }
        self.put(true, &format!("pair while {:?}", world.state.phase));
        self.put(
            world.settings.shards_of(subgroup).is_empty(),
            "pair without shards",
        );
    }

    /// Prints all counts.
    pub fn print(&self) {
        for (name, times) in &self.counts {
            println!("  {name}: {times}");
        }
        let (looked, none) = self.partners;
        println!("  worlds for which no other that agrees was found: {none} of {looked}");
    }

    fn times(&self, name: &str) -> u64 {
        self.counts.get(name).copied().unwrap_or(0)
    }

    /// What is too rare for the calls to show much.
    pub fn rare(&self) -> Vec<String> {
        let mut rare = Vec::new();
        for (name, least) in WANTED {
            if self.times(name) * 1000 < self.pages * least {
                rare.push(name.to_string());
            }
        }
        let parts = pairs::PARTS.map(|part| (format!("pair with another {part}"), PARTS));
        let phases = PAIRS.map(|(name, least)| (name.to_string(), least));
        for (name, least) in parts.into_iter().chain(phases) {
            if self.times(&name) * 1000 < self.pairs * least {
                rare.push(name);
            }
        }
        for kind in Kind::EVENTS.into_iter().chain([Kind::Page]) {
            for role in ROLES {
                let times = self.roles.get(&(kind, role)).copied();
                if times.unwrap_or(0) < LEAST {
                    rare.push(format!("{} in role {role}", kind.name()));
                }
            }
            let numbers: &[u32] = match kind {
                Kind::Fresh => &[15],
                _ => &[1, 2, 15],
            };
            for number in numbers {
                let name = format!("{} not allowed: number {number}", kind.name());
                if self.times(&name) < LEAST {
                    rare.push(name);
                }
            }
        }
        if self.partners.1 * 20 > self.partners.0 {
            rare.push("another world that agrees".into());
        }
        rare
    }
}

/// Whether the role may do what it asks for.
fn allowed(asked: &Asked) -> bool {
    let role = Role::of(asked.role);
    match asked.kind {
        Kind::Page => role.may_read(asked.node),
        _ => role.may_plan(),
    }
}
