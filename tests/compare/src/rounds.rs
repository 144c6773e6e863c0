//! The inputs of the `rounds` program: the restarts of the `events` program and
//! layouts as the `plans` program has them, each decided by a number of improving
//! rounds, damaged or not. What is decided is compared with the reference, and
//! with decide of the planner itself; a course asks for every number of rounds
//! until nothing is bettered, and judges each round by the one before it.
//!
//! An input depends on the seed, its sort and its index alone.

use crate::calls::{self, Asked, Kind, Outcome, Pages, Table, BUFFER_BYTES};
use crate::events::{self, place};
use crate::lent::Place;
use crate::library::{Answer, Planner, PLAN};
use crate::pages::ROLES;
use crate::pairs::{self, World};
use crate::plans::{self, Size};
use crate::previews::{tight_settings, Sort};
use crate::random::Random;
use crate::tally;
use reference::order::Layout;
use reference::placement::Placement;
use reference::roles::PLANNER;
use reference::rounds::{self, Way, MOST_ROUNDS};
use reference::state::{Phase, View};
use reference::{mask, settings, words};
use std::collections::BTreeMap;

/// The state's word of the plan's moves, and the first of its masks.
const MOVES: usize = 57;
const MASKS: usize = 58;

/// Rounds beside small numbers.
const ROUNDS: [u32; 14] = [
    16,
    31,
    32,
    33,
    64,
    127,
    128,
    128,
    129,
    255,
    256,
    257,
    1 << 31,
    u32::MAX,
];

/// One in so many large layouts has its start far from the fewest moves.
const FAR: u64 = 100;
/// A course goes through all rounds where the start's gap is at most this, and
/// through some of them in a row elsewhere.
const NEAR: u32 = 24;

/// And wherever it is above this, there is a course.
const FARTHEST: u32 = 64;

/// A call at which the planner differs.
pub struct Difference {
    pub what: String,
    pub asked: Asked,
}

type Compared<T> = Result<T, Box<Difference>>;

/// What is known of a call beside what it is lent.
#[derive(Clone, Copy)]
struct About {
    /// Whether there is a fault in what is lent.
    faulty: bool,
    size: Size,
}

impl About {
    /// How the reference finds placements.
    fn way(self) -> Way {
        match self.size {
            Size::Small => rounds::EXHAUSTIVE,
            Size::Large => rounds::GREEDY,
        }
    }
}

/// A planner that is being compared.
pub struct Comparison<'a> {
    pub planner: &'a Planner,
    pub pages: &'a mut Pages,
    /// Whether it is compared with the reference, or only with itself.
    pub with_reference: bool,
    pub tally: &'a mut Tally,
}

impl Comparison<'_> {
    /// Compares input `index` of a sort under a seed.
    pub fn input(&mut self, seed: u64, sort: Sort, index: u64) -> Compared<()> {
        let case = match sort {
            Sort::Restart => return self.restart(seed, index),
            Sort::Small => plans::case(!seed, Size::Small, index),
            Sort::Large if index.is_multiple_of(FAR) => far(&mut Random::of_input(seed ^ 4, index)),
            Sort::Large => plans::case(!seed, Size::Large, index),
            Sort::Tight => {
                let random = &mut Random::of_input(seed ^ 2, index);
                let words = tight_settings(random);
                let often = random.pick(&[90, 97, 100, 100, 100]);
                plans::case_of(random, Size::Large, words, often)
            }
        };
        self.layout(&mut Random::of_input(seed ^ 3, index), &case)
    }

    /// Decisions along a restart. The restart itself goes on by the reference.
    fn restart(&mut self, seed: u64, index: u64) -> Compared<()> {
        let random = &mut Random::of_input(!seed, index);
        let mut sequence = events::sequence(seed, index);
        while let Some(step) = sequence.step() {
            let about = About {
                faulty: !step.faults.is_empty(),
                size: Size::Large,
            };
            let deciding = step.asked.kind == Kind::Decide;
            if random.chance(if deciding { 90 } else { 15 }) {
                let asked = within(random, &step.asked.table);
                self.one(random, about, &asked)?;
            }
            sequence.go_on(&step.asked, &calls::expected(&step.asked));
        }
        Ok(())
    }

    /// Decisions of one layout.
    fn layout(&mut self, random: &mut Random, case: &plans::Case) -> Compared<()> {
        let about = About {
            faulty: case.fault.is_some(),
            size: case.size,
        };
        let asked = within(random, &case.asked.table);
        let outcome = self.one(random, about, &asked)?;
        if outcome.answer().planned() {
            if random.chance(8) {
                self.goes_on(random, &asked, &outcome)?;
            }
            let far = self.gap_at_start(&asked.table)? > FARTHEST;
            let often = match case.size {
                Size::Small => 30,
                Size::Large => 15,
            };
            if far || random.chance(often) {
                self.course(random, about, &asked.table)?;
            }
        }
        Ok(())
    }

    /// Compares a decision in both ways, and counts it.
    fn one(&mut self, random: &mut Random, about: About, asked: &Asked) -> Compared<Outcome> {
        let places = [(); 5].map(|()| place(random));
        self.tally.calls += 1;
        let outcome = match self.with_reference {
            true => {
                let expected = calls::expected_within(about.way(), asked);
                calls::compare_with(&expected, self.planner, self.pages, asked, places)
                    .map_err(|what| format!("by the reference: {what}"))
            }
            false => calls::call(self.planner, self.pages, asked, places),
        };
        let outcome = outcome.map_err(|what| different(asked, what))?;
        let decided = self.decided(asked)?;
        by_decide(asked, &outcome, &decided).map_err(|what| different(asked, what))?;
        if outcome.answer().planned() {
            self.sound(asked, &outcome)?;
        }
        self.tally.count(about, asked, &outcome, &decided);
        Ok(outcome)
    }

    /// The gap that the planner tells of no rounds.
    fn gap_at_start(&mut self, table: &Table) -> Compared<u32> {
        let outcome = self.call(&as_planner(table, 0))?;
        Ok(outcome.answer.saturating_sub(PLAN))
    }

    fn call(&mut self, asked: &Asked) -> Compared<Outcome> {
        let called = calls::call(self.planner, self.pages, asked, [Place::Last; 5]);
        called.map_err(|what| different(asked, what))
    }

    /// What the planner's own decide leaves.
    fn decided(&mut self, asked: &Asked) -> Compared<Outcome> {
        self.call(&Asked {
            kind: Kind::Decide,
            ..asked.clone()
        })
    }

    /// The state that a plan leaves is sound to the planner itself.
    fn sound(&mut self, asked: &Asked, outcome: &Outcome) -> Compared<()> {
        let checked = self.call(&after(asked, outcome, Kind::CheckState, 0))?;
        match checked.answer {
            0 => Ok(()),
            _ => {
                let what = format!("the next state is checked with {}", checked.answer());
                Err(different(asked, what))
            }
        }
    }

    /// Orders, and marks of all nodes, up to committed.
    fn goes_on(&mut self, random: &mut Random, asked: &Asked, outcome: &Outcome) -> Compared<()> {
        let mut state = outcome.clone();
        let nodes = mask::nodes(words::whole_words(&outcome.state)[52]);
        for kind in [Kind::Order, Kind::Fetched, Kind::Prepared] {
            for &node in &nodes {
                let next = after(asked, &state, kind, node);
                let left = match self.with_reference && random.chance(20) {
                    true => calls::compare(self.planner, self.pages, &next, [Place::Last; 5])
                        .map_err(|what| different(&next, format!("afterwards: {what}")))?,
                    false => self.call(&next)?,
                };
                if left.answer().refused() {
                    let what = format!("afterwards it is refused with {}", left.answer());
                    return Err(different(&next, what));
                }
                self.tally.afterwards += 1;
                state = left;
            }
        }
        match words::whole_words(&state.state)[0] {
            3 => Ok(()),
            phase => Err(different(asked, format!("it ends in phase {phase}"))),
        }
    }

    /// Every number of rounds from 0 up, until nothing is bettered, and 128 and
    /// more. Each round is judged by the one before it, by decide, and by the
    /// reference's.
    fn course(&mut self, random: &mut Random, about: About, table: &Table) -> Compared<()> {
        let world = pairs::world(table).expect("what is planned is sound");
        let kept = world.state.kept.as_ref().expect("a plan has a kept view");
        let layout = Layout {
            settings: &world.settings,
            held: world.state.held,
            old: &kept.masks,
        };
        let at = |count: u32| as_planner(table, count);
        let decided = self.decided(&at(0))?;
        let best = masks(&decided, &world);
        let mut known = Known {
            masks: self.with_reference.then(|| {
                let start = rounds::reached(&layout, about.way(), 0);
                start.expect("where decide plans there is a placement")
            }),
            made: 0,
        };
        let mut before: Option<Placement> = None;
        let far = self.gap_at_start(table)? > NEAR;
        let some = random.between(1, MOST_ROUNDS - 2);
        for count in 0..=MOST_ROUNDS {
            if count > 0 {
                known.go_on(&layout, about.way());
            }
            let near = [1, some, MOST_ROUNDS - 1];
            if far && near.iter().all(|other| count.abs_diff(*other) > 1) {
                before = None;
                continue;
            }
            let outcome = self.call(&at(count))?;
            by_decide(&at(count), &outcome, &decided)
                .map_err(|what| different(&at(count), what))?;
            let reached = masks(&outcome, &world);
            self.tally.by_rounds += 1;
            if let Some(wanted) = known.masks.as_ref().filter(|masks| **masks != reached) {
                let what = format!("{count} rounds give {reached:x?}, the reference {wanted:x?}");
                return Err(different(&at(count), what));
            }
            match before.replace(reached.clone()) {
                None if count == 0 => self.tally.start(&layout, &reached, &best),
                None => {}
                Some(last) if last == reached && !far => break,
                Some(last) if last == reached => {}
                Some(last) => {
                    let round = round(&layout, &last, &reached, &best);
                    let told = |what| different(&at(count), format!("round {count}: {what}"));
                    self.tally.round(round.map_err(told)?);
                }
            }
        }
        self.tally.ended(known.made);
        let last = before.expect("there is a start");
        if layout.moves(&last) != layout.moves(&best) {
            let what = "it has ended, and not with the fewest moves".to_string();
            return Err(different(&at(MOST_ROUNDS), what));
        }
        for count in [MOST_ROUNDS, MOST_ROUNDS + 1, 256, u32::MAX] {
            let outcome = self.call(&at(count))?;
            if masks(&outcome, &world) != last {
                let what = format!("with {count} rounds it is not where it ended");
                return Err(different(&at(count), what));
            }
        }
        Ok(())
    }
}

/// Four subgroups of four shards that need all of 32 nodes, each shard's old
/// members being those that the start gives to another: up to 32 moves each.
fn far(random: &mut Random) -> plans::Case {
    let mut sets: Vec<u32> = (0..32).map(|node| node / 2).collect();
    if random.chance(50) {
        random.shuffle(&mut sets);
    }
    let mut words = vec![32, 16, 1, 16];
    words.extend(sets);
    words.extend((0..16).map(|shard| shard % 4 * 256 + 8));
    let settings = settings::parse(&words).expect("these settings are good");
    let layout = Layout {
        settings: &settings,
        held: u32::MAX,
        old: &[0; 16],
    };
    let start = rounds::reached(&layout, rounds::GREEDY, 0);
    let mut masks = start.expect("every set has two nodes, a shard one of each of 8");
    masks.rotate_left(4 * random.between(1, 3) as usize);
    let view = View {
        number: 7,
        members: u32::MAX,
        masks,
    };
    plans::case_with(random, Size::Large, words, view, 100)
}

/// What the reference has reached in a course, if it is asked.
struct Known {
    masks: Option<Placement>,
    /// So many rounds have bettered something.
    made: u32,
}

impl Known {
    fn go_on(&mut self, layout: &Layout, way: Way) {
        let better = self.masks.as_ref();
        let better = better.and_then(|masks| rounds::round(layout, way, masks));
        if better.is_some() {
            self.masks = better;
            self.made += 1;
        }
    }
}

/// A round of a course.
#[derive(Clone, Copy)]
struct Round {
    subgroup: u32,
    saved: u32,
}

/// Judges one round by the placements before and after it, where `best` has the
/// least moves in every subgroup.
fn round(layout: &Layout, last: &[u32], reached: &[u32], best: &[u32]) -> Result<Round, String> {
    let changed = |number: &u32| {
        let own = layout.settings.shards_of(*number).into_iter();
        own.into_iter()
            .any(|s| last[s as usize] != reached[s as usize])
    };
    let all: Vec<u32> = (0..4).filter(changed).collect();
    let [subgroup] = all[..] else {
        return Err(format!("it changes the subgroups {all:?}"));
    };
    let moves = |number: u32, masks: &[u32]| layout.subgroup(number).moves(masks);
    let (now, before) = (moves(subgroup, reached), moves(subgroup, last));
    if now >= before {
        return Err(format!("it goes from {before} moves to {now}"));
    }
    let lower = (0..subgroup).find(|&number| moves(number, last) > moves(number, best));
    match lower {
        Some(lower) => Err(format!(
            "it betters subgroup {subgroup}, and subgroup {lower} has fewer moves"
        )),
        None => Ok(Round {
            subgroup,
            saved: before - now,
        }),
    }
}

/// Judges a decision by rounds by decide's: the same refusals and waits; of a plan
/// all words but masks and moves, which are valid, as told, and not above
/// decide's by more than the gap.
fn by_decide(asked: &Asked, outcome: &Outcome, decided: &Outcome) -> Result<(), String> {
    let answer = outcome.answer();
    if decided.answer() != Answer::Plan {
        return match outcome == decided {
            true => Ok(()),
            false => Err(format!(
                "by decide: the answer is {answer}, or something was changed, where decide says {}",
                decided.answer()
            )),
        };
    }
    if !answer.planned() {
        return Err(format!("by decide: the answer is {answer}, decide plans"));
    }
    let mut own = words::whole_words(&outcome.state);
    let mut full = words::whole_words(&decided.state);
    let world = pairs::world(&asked.table).ok_or("by decide: a plan of what is unsound")?;
    let kept = world.state.kept.as_ref();
    let kept = kept.ok_or("by decide: a plan without a kept view")?;
    let layout = Layout {
        settings: &world.settings,
        held: world.state.held,
        old: &kept.masks,
    };
    let reached = masks(outcome, &world);
    let (moves, least) = (own[MOVES], full[MOVES]);
    let gap = outcome.answer - PLAN;
    if !layout.valid(&reached) {
        return Err(format!("by decide: the masks {reached:x?} are not valid"));
    }
    if moves != layout.moves(&reached) {
        return Err(format!("by decide: {moves} moves are told of the masks"));
    }
    if moves > least + gap || moves < least {
        return Err(format!(
            "by decide: {moves} moves, gap {gap}, decide {least}"
        ));
    }
    if gap != rounds::gap(&layout, &reached) {
        return Err(format!(
            "by decide: the gap {gap} is not the moves less the floor"
        ));
    }
    if asked.node >= MOST_ROUNDS && moves != least {
        return Err(format!(
            "by decide: {moves} moves after all rounds, decide {least}"
        ));
    }
    for words in [&mut own, &mut full] {
        words[MOVES..MASKS + world.settings.shards as usize].fill(0);
    }
    match own == full && outcome.desk == decided.desk {
        true => Ok(()),
        false => Err("by decide: the rest of the state is another, or the desk".into()),
    }
}

/// The masks of a plan.
fn masks(outcome: &Outcome, world: &World) -> Placement {
    let words = words::whole_words(&outcome.state);
    words[MASKS..MASKS + world.settings.shards as usize].to_vec()
}

fn different(asked: &Asked, what: String) -> Box<Difference> {
    let asked = asked.clone();
    Box::new(Difference { what, asked })
}

/// Another call over what a call left.
fn after(asked: &Asked, outcome: &Outcome, kind: Kind, node: u32) -> Asked {
    Asked {
        role: PLANNER,
        kind,
        table: Table {
            state: outcome.state.clone(),
            ..asked.table.clone()
        },
        message: Vec::new(),
        node,
        buffer: vec![0xEE; BUFFER_BYTES],
    }
}

fn as_planner(table: &Table, count: u32) -> Asked {
    Asked {
        role: PLANNER,
        kind: Kind::DecideWithin,
        table: table.clone(),
        message: Vec::new(),
        node: count,
        buffer: Vec::new(),
    }
}

/// In any role now and then, with few rounds or with many.
fn within(random: &mut Random, table: &Table) -> Asked {
    let few = random.between(0, 12);
    let any = random.between(0, 140);
    let special = random.pick(&ROUNDS);
    let count = random.pick(&[0, 1, 2, few, few, few, any, special, special]);
    let role = match random.chance(7) {
        true => random.pick(&ROLES),
        false => PLANNER,
    };
    Asked {
        role,
        ..as_planner(table, count)
    }
}

/// Counts of what the calls came to.
#[derive(Default)]
pub struct Tally {
    pub calls: u64,
    /// Calls of courses, and events after a plan.
    pub by_rounds: u64,
    pub afterwards: u64,
    courses: u64,
    answers: BTreeMap<String, u64>,
    situations: BTreeMap<String, u64>,
    roles: BTreeMap<u32, u64>,
}

/// From this many calls on, rare answers are a failure.
pub const JUDGED: u64 = 6_000;
/// Every answer is at least one in so many.
const COMMON: u64 = 300;
/// The call comes at least so often in every role, with nothing amiss before 15.
const LEAST: u64 = 5;

/// What must be found at least so often among a thousand plans.
const OF_PLANS: [(&str, u64); 19] = [
    ("with 0 rounds", 80),
    ("with 1 round", 60),
    ("with 2 to 126 rounds", 200),
    ("with 127 rounds", 1),
    ("with 128 rounds", 10),
    ("with more than 128 rounds", 50),
    ("with 256 or 257 rounds", 10),
    ("with the greatest word of rounds", 5),
    ("with more moves than decide's", 100),
    ("with decide's masks", 100),
    ("with decide's moves and other masks", 30),
    ("with gap 0", 50),
    ("with the fewest moves and a gap", 1),
    ("with a gap above 16", 20),
    ("with a gap above 64", 0),
    ("with old members that are not held", 100),
    ("with every node held", 50),
    ("in spite of a fault", 2),
    ("by the search through all placements", 100),
];
/// And among a thousand courses.
const OF_COURSES: [(&str, u64); 10] = [
    ("the start has the fewest moves", 20),
    ("the start has more moves", 300),
    ("a round in subgroup 0", 1000),
    ("a round in subgroup 1", 200),
    ("a round in subgroup 2", 100),
    ("a round in subgroup 3", 100),
    ("a round that saves two moves or more", 50),
    ("8 rounds or more", 100),
    ("32 rounds or more", 5),
    ("64 rounds or more", 2),
];
/// And among a thousand refusals with number 4.
const OF_PHASES: [(&str, u64); 3] = [
    ("while Ordered", 100),
    ("while Preparing", 40),
    ("while Committed", 20),
];

impl Tally {
    fn put(&mut self, holds: bool, name: impl Into<String>) {
        if holds {
            *self.situations.entry(name.into()).or_default() += 1;
        }
    }

    fn count(&mut self, about: About, asked: &Asked, outcome: &Outcome, decided: &Outcome) {
        let answer = outcome.answer();
        *self.answers.entry(tally::class(answer)).or_default() += 1;
        if ![1, 2].contains(&answer.number().unwrap_or(0)) {
            *self.roles.entry(asked.role).or_default() += 1;
        }
        let Some(world) = pairs::world(&asked.table) else {
            return;
        };
        if answer == Answer::Number(4) {
            assert_ne!(world.state.phase, Phase::Gathering);
            return self.put(true, format!("number 4: while {:?}", world.state.phase));
        }
        if answer.planned() {
            self.plan(about, asked, outcome, decided, &world);
        }
    }

    fn plan(
        &mut self,
        about: About,
        asked: &Asked,
        outcome: &Outcome,
        decided: &Outcome,
        world: &World,
    ) {
        let mut put = |holds: bool, name: &str| self.put(holds, format!("plan: {name}"));
        let count = asked.node;
        put(count == 0, "with 0 rounds");
        put(count == 1, "with 1 round");
        put((2..127).contains(&count), "with 2 to 126 rounds");
        put(count == 127, "with 127 rounds");
        put(count == 128, "with 128 rounds");
        put(count > 128, "with more than 128 rounds");
        put([256, 257].contains(&count), "with 256 or 257 rounds");
        put(count == u32::MAX, "with the greatest word of rounds");
        let moves = |outcome: &Outcome| words::whole_words(&outcome.state)[MOVES];
        let same = masks(outcome, world) == masks(decided, world);
        let (own, least) = (moves(outcome), moves(decided));
        let gap = outcome.answer - PLAN;
        put(own > least, "with more moves than decide's");
        put(same, "with decide's masks");
        put(own == least && !same, "with decide's moves and other masks");
        put(gap == 0, "with gap 0");
        put(own == least && gap > 0, "with the fewest moves and a gap");
        put(gap > 16, "with a gap above 16");
        put(gap > 64, "with a gap above 64");
        let held = world.state.held;
        let absent = |view: &View| view.masks.iter().any(|own| own & !held != 0);
        let absent = world.state.kept.as_ref().is_some_and(absent);
        put(absent, "with old members that are not held");
        let all = mask::below(world.settings.nodes);
        put(held == all, "with every node held");
        put(about.faulty, "in spite of a fault");
        put(
            about.size == Size::Small,
            "by the search through all placements",
        );
    }

    fn start(&mut self, layout: &Layout, start: &[u32], best: &[u32]) {
        self.courses += 1;
        let least = layout.moves(start) == layout.moves(best);
        self.put(least, "course: the start has the fewest moves");
        self.put(!least, "course: the start has more moves");
    }

    fn round(&mut self, round: Round) {
        let name = format!("course: a round in subgroup {}", round.subgroup);
        self.put(true, name);
        self.put(
            round.saved > 1,
            "course: a round that saves two moves or more",
        );
    }

    fn ended(&mut self, made: u32) {
        for many in [8, 32, 64] {
            self.put(made >= many, format!("course: {many} rounds or more"));
        }
    }

    /// Prints all counts.
    pub fn print(&self) {
        for (answer, times) in &self.answers {
            println!("  {answer}: {times}");
        }
        println!("  courses: {}", self.courses);
        for (name, times) in &self.situations {
            println!("  {name}: {times}");
        }
    }

    /// What is too rare for the calls to show much.
    pub fn rare(&self) -> Vec<String> {
        let mut rare = Vec::new();
        let answered = |answer: &str| self.answers.get(answer).copied().unwrap_or(0);
        let all: u64 = self.answers.values().sum();
        for answer in tally::wanted(Kind::DecideWithin) {
            if answered(&answer) * COMMON < all {
                rare.push(answer);
            }
        }
        for role in ROLES {
            if self.roles.get(&role).copied().unwrap_or(0) < LEAST {
                rare.push(format!("role {role}"));
            }
        }
        let plans = answered("plan") + answered("plan with gap");
        let mut judge = |name: String, least: u64, of: u64| {
            let times = self.situations.get(&name).copied().unwrap_or(0);
            if times == 0 || times * 1000 < least * of {
                rare.push(name);
            }
        };
        for (name, least) in OF_PLANS {
            judge(format!("plan: {name}"), least, plans);
        }
        for (name, least) in OF_COURSES {
            judge(format!("course: {name}"), least, self.courses);
        }
        for (name, least) in OF_PHASES {
            judge(format!("number 4: {name}"), least, answered("number 4"));
        }
        rare
    }
}
