//! The cases of the `plans` program: decisions whose plan must be the first of
//! least moves and then most stays, mask for mask. Small ones are compared with
//! the search through all placements, large ones with the greedy method over the
//! flow.
//!
//! A case depends on the seed, its size and its index alone.

use crate::calls::{self, Asked, Kind, Outcome, Pages, Table, DESK_BYTES};
use crate::events::{in_words, length, place};
use crate::lent::Place;
use crate::library::{Answer, Planner, PLAN};
use crate::random::Random;
use crate::world::{self, World};
use crate::{damage, generate, unsound};
use reference::desk::SLOT_WORDS;
use reference::log::Position;
use reference::order::{self, Choice, Layout};
use reference::roles::PLANNER;
use reference::settings::{self, Settings, SUBGROUPS};
use reference::state::{self, State, View};
use reference::{mask, words};
use std::collections::{BTreeMap, BTreeSet};

/// A small case has at most so many placements of a subgroup, by a bound that
/// leaves failure sets out.
const MOST_PLACEMENTS: u64 = 3000;
/// In so many of a hundred cases shards are to have caps above m.
const WIDE: u32 = 75;
/// Up to so many placements over all shards are gone through at once.
const MOST_WHOLE: usize = 1500;

#[derive(Clone, Copy, Debug, PartialEq, Eq, PartialOrd, Ord)]
pub enum Size {
    /// Up to 9 nodes.
    Small,
    /// Up to 32 nodes and 16 shards.
    Large,
}

impl Size {
    pub fn name(self) -> &'static str {
        match self {
            Size::Small => "small",
            Size::Large => "large",
        }
    }

    fn most_nodes(self) -> u32 {
        match self {
            Size::Small => 9,
            Size::Large => 32,
        }
    }

    /// How the reference finds a placement of this size.
    pub fn choice(self) -> Choice {
        match self {
            Size::Small => order::exhaustive,
            Size::Large => order::greedy,
        }
    }
}

/// A decision to be asked for.
pub struct Case {
    pub size: Size,
    pub asked: Asked,
    pub places: [Place; 5],
    /// The name of the fault in what is lent, if there is one.
    pub fault: Option<&'static str>,
}

/// Case `index` of this size under a seed.
pub fn case(seed: u64, size: Size, index: u64) -> Case {
    let seed = match size {
        Size::Small => seed,
        Size::Large => !seed,
    };
    let random = &mut Random::of_input(seed, index);
    let words = match size {
        Size::Small => small_settings(random),
        Size::Large => large_settings(random),
    };
    let often = random.pick(&[60, 75, 90, 90, 100]);
    case_of(random, size, words, often)
}

/// A case of these settings, where so many nodes of a hundred are held.
pub fn case_of(random: &mut Random, size: Size, words: Vec<u32>, often: u32) -> Case {
    let settings = settings::parse(&words).expect("generated settings are good");
    let view = view(random, &settings);
    case_with(random, size, words, view, often)
}

/// A case of these settings and this kept view.
pub fn case_with(random: &mut Random, size: Size, words: Vec<u32>, view: View, often: u32) -> Case {
    let settings = settings::parse(&words).expect("generated settings are good");
    let world = world(random, words, &view);
    let (held, stale) = held(random, &settings, &view, often);
    let mut asked = Asked {
        role: PLANNER,
        kind: Kind::Decide,
        table: table(random, &world, &view, held, stale),
        message: Vec::new(),
        node: 0,
        buffer: Vec::new(),
    };
    let fault = random
        .chance(6)
        .then(|| put_fault(random, &world, held, &mut asked.table));
    Case {
        size,
        asked,
        places: [(); 5].map(|()| place(random)),
        fault,
    }
}

/// Up to 9 nodes and 8 shards.
fn small_settings(random: &mut Random) -> Vec<u32> {
    let wide = random.chance(WIDE);
    loop {
        let nodes = random.pick(&[1, 2, 3, 4, 5, 6, 7, 8, 8, 9, 9, 9, 9, 9]);
        let sets = random.between(1, nodes).max(random.between(1, nodes));
        let shards = random.between(1, 8).min(nodes);
        let mut words = settings_of(random, nodes, sets, shards, 3);
        generate::put_caps(random, wide, &mut words);
        let settings = settings::parse(&words).expect("generated settings are good");
        let few = |number| {
            let shards = settings.shards_of(number);
            placements(&settings, &shards, settings.nodes) <= MOST_PLACEMENTS
        };
        if (0..SUBGROUPS).all(few) {
            return words;
        }
    }
}

/// How many placements `left` nodes have in some shards if each node is a
/// failure set.
pub fn placements(settings: &Settings, shards: &[u32], left: u32) -> u64 {
    let Some((&shard, others)) = shards.split_first() else {
        return 1;
    };
    let sizes = settings.need(shard)..=settings.cap(shard).min(left);
    sizes
        .map(|size| ways(left, size) * placements(settings, others, left - size))
        .sum()
}

/// How many ways there are to take `size` of `left`.
fn ways(left: u32, size: u32) -> u64 {
    (1..=u64::from(size)).fold(1, |ways, taken| {
        ways * (u64::from(left) + 1 - taken) / taken
    })
}

/// 20 to 32 nodes and up to 16 shards.
fn large_settings(random: &mut Random) -> Vec<u32> {
    let nodes = random.pick(&[20, 24, 27, 31, 32, 32, 32]);
    let sets = random.between(4, 16);
    let shards = random.between(2, 16).max(random.between(2, 16));
    let mut words = settings_of(random, nodes, sets, shards, sets);
    let wide = random.chance(WIDE);
    generate::put_caps(random, wide, &mut words);
    words
}

/// Settings whose shards, of up to four subgroups that lie between one another,
/// need about what the nodes can give, `most` at most.
fn settings_of(random: &mut Random, nodes: u32, sets: u32, shards: u32, most: u32) -> Vec<u32> {
    let mut words = vec![nodes, sets, random.between(1, nodes / 2 + 1), shards];
    let even = random.chance(60);
    words.extend((0..nodes).map(|node| match even {
        true => node % sets,
        false => random.between(0, sets - 1),
    }));
    let subgroups = random.pick(&[1, 2, 3, 4, 4]);
    let in_turn = random.chance(40);
    let of_shard: Vec<u32> = (0..shards)
        .map(|shard| match in_turn {
            true => shard % subgroups,
            false => random.between(0, subgroups - 1),
        })
        .collect();
    let tight = random.pick(&[0, 0, 0, 1]);
    for &subgroup in &of_shard {
        let beside = of_shard.iter().filter(|&&other| other == subgroup).count() as u32;
        let fair = (nodes / beside + tight).clamp(1, sets.min(most));
        words.push(subgroup * 256 + random.between(1, fair));
    }
    words
}

/// The kept view.
fn view(random: &mut Random, settings: &Settings) -> View {
    let members = generate::members(random, settings);
    let node = random.pick(&mask::nodes(members));
    let mut masks = generate::shard_masks(random, settings, members, node);
    if random.chance(25) {
        crowd(random, settings, members, &mut masks);
    }
    View {
        number: random.pick(&[2, 7, 100, u32::MAX - 1]),
        members,
        masks,
    }
}

/// In each subgroup of several shards one that needs most has one member, and
/// all other nodes are members of the others, so that it takes from them.
fn crowd(random: &mut Random, settings: &Settings, members: u32, masks: &mut [u32]) {
    for number in 0..SUBGROUPS {
        let mut shards = settings.shards_of(number);
        if shards.len() < 2 {
            continue;
        }
        random.shuffle(&mut shards);
        shards.sort_by_key(|&shard| settings.need(shard));
        let poor = shards.pop().unwrap_or(0);
        let mut nodes = mask::nodes(members);
        random.shuffle(&mut nodes);
        masks[poor as usize] = nodes.pop().map_or(0, mask::only);
        shards.iter().for_each(|&shard| masks[shard as usize] = 0);
        for (index, node) in nodes.into_iter().enumerate() {
            let shard = match shards.get(index) {
                Some(&shard) => shard,
                None => random.pick(&shards),
            };
            masks[shard as usize] |= mask::only(node);
        }
    }
}

/// The group with that view and an older one of all nodes.
fn world(random: &mut Random, words: Vec<u32>, view: &View) -> World {
    let settings = settings::parse(&words).expect("generated settings are good");
    let members = mask::below(settings.nodes);
    let older = View {
        number: view.number - 1,
        members,
        masks: generate::shard_masks(random, &settings, members, 0),
    };
    world::of_views(random, words, vec![older, view.clone()])
}

/// The held nodes, and those of them that report the older view. Mostly a
/// majority is held, and of each shard a member that reports the kept view.
fn held(random: &mut Random, settings: &Settings, view: &View, often: u32) -> (u32, u32) {
    let mut held = 0;
    for node in 0..settings.nodes {
        if random.chance(often) {
            held |= mask::only(node);
        }
    }
    let mut reporters = 0;
    if random.chance(97) {
        for &own in &view.masks {
            reporters |= mask::only(random.pick(&mask::nodes(own)));
        }
        let mut members = mask::nodes(view.members);
        random.shuffle(&mut members);
        held |= reporters;
        for node in members {
            if 2 * mask::count(held & view.members) <= mask::count(view.members) {
                held |= mask::only(node);
            }
        }
    }
    let mut stale = held & !view.members;
    for node in mask::nodes(held & !reporters) {
        if random.chance(6) {
            stale |= mask::only(node);
        }
    }
    (held, stale)
}

/// Settings, state and desk with the held nodes' reports.
fn table(random: &mut Random, world: &World, view: &View, held: u32, stale: u32) -> Table {
    let filling = random.pick(&[0, 1, u32::MAX]);
    let mut desk = vec![filling; DESK_BYTES / 4];
    let mut terminated = false;
    let mut remembered = [0; 32];
    for node in mask::nodes(held) {
        let number = view.number - u32::from(mask::has(stale, node));
        remembered[node as usize] = number;
        let report = world.report_of(random, node, number);
        let report = report.expect("the older view has all nodes");
        let has = !report.of_kind(reference::message::TERMINATION).is_empty();
        terminated |= has && number == view.number;
        let message = generate::message(random, &report);
        let first = node as usize * SLOT_WORDS;
        let slot = &mut desk[first..first + SLOT_WORDS];
        slot.copy_from_slice(&words::padded(&message, SLOT_WORDS));
    }
    let position = |&(view, k): &(u32, u32)| Position::new(view, k);
    let termination = world.last_termination().filter(|_| terminated);
    let state = State {
        kept: Some(view.clone()),
        termination: termination.map(|all| all.iter().map(position).collect()),
        held,
        remembered,
        ..state::fresh()
    };
    Table {
        settings: words::to_bytes(&world.words),
        state: words::to_bytes(&state::encode(&state)),
        desk: words::to_bytes(&desk),
    }
}

/// Puts a fault into what is lent and names it.
fn put_fault(random: &mut Random, world: &World, held: u32, table: &mut Table) -> &'static str {
    match random.between(0, 9) {
        0 => length(random, &mut table.desk, "desk's length"),
        1 => length(random, &mut table.state, "state's length"),
        2 => length(random, &mut table.settings, "settings' length"),
        3 => in_words(&mut table.settings, |words| {
            damage::settings(random, words);
            "settings"
        }),
        4..=6 => in_words(&mut table.state, |words| {
            unsound::state(random, &world.settings, words)
        }),
        _ => in_words(&mut table.desk, |words| {
            unsound::desk(random, world, held, words)
        }),
    }
}

/// What the planner left, which is as it must be.
pub struct Compared {
    outcome: Outcome,
    /// Whether the plan was compared over all shards at once, too.
    whole: bool,
}

/// Asks the planner and compares all that it leaves. Gives that, or what
/// differs.
pub fn compare(planner: &Planner, pages: &mut Pages, case: &Case) -> Result<Compared, String> {
    let expected = calls::expected_by(case.size.choice(), &case.asked);
    let outcome = calls::compare_with(&expected, planner, pages, &case.asked, case.places)?;
    let small = case.size == Size::Small && outcome.answer == PLAN;
    let whole = small && compare_whole(&case.asked, &outcome)?;
    Ok(Compared { outcome, whole })
}

/// Compares a plan with the first over all shards at once, where there are few
/// placements. Says whether there are.
fn compare_whole(asked: &Asked, outcome: &Outcome) -> Result<bool, String> {
    let (settings, state) = planned(asked, outcome);
    let (layout, masks) = layout(&settings, &state);
    let all = layout.subgroups().map(|subgroup| subgroup.all().len());
    if all.product::<usize>() > MOST_WHOLE {
        return Ok(false);
    }
    let first = layout.first_best();
    if first.as_ref() != Some(masks) {
        return Err(format!(
            "the masks are {masks:x?}, over all shards the first are {first:x?}"
        ));
    }
    Ok(true)
}

/// The settings and the state of a plan that the planner left.
fn planned(asked: &Asked, outcome: &Outcome) -> (Settings, State) {
    let settings = settings::parse(&words::whole_words(&asked.table.settings));
    let settings = settings.expect("a plan has good settings");
    let state = state::decode(&settings, &words::whole_words(&outcome.state));
    (settings, state.expect("a plan's state"))
}

/// What was placed, and how.
fn layout<'a>(settings: &'a Settings, state: &'a State) -> (Layout<'a>, &'a Vec<u32>) {
    let kept = state.kept.as_ref().expect("a plan's view");
    let plan = state.plan.as_ref().expect("a plan");
    let layout = Layout {
        settings,
        held: state.held,
        old: &kept.masks,
    };
    (layout, &plan.masks)
}

/// Counts of what the cases of a size came to.
#[derive(Default)]
pub struct Tally {
    pub cases: u64,
    pub plans: u64,
    counts: BTreeMap<String, u64>,
}

/// What must be found among a hundred plans at least, and how often.
const WANTED: [(&str, u64); 11] = [
    ("plans with moves", 30),
    ("plans of as many nodes as there can be", 15),
    ("plans of two subgroups or more", 30),
    ("plans of four subgroups", 5),
    (
        "plans of shards that lie between those of another subgroup",
        20,
    ),
    ("plans with another placement of equal moves and stays", 25),
    ("plans with a cap above m", 50),
    ("plans with caps at m alone", 15),
    ("plans that keep more members than are needed", 15),
    ("plans that leave out a held member for a cap above m", 2),
    ("plans where a set is twice in a shard", 10),
];
/// And of small ones.
const WANTED_SMALL: (&str, u64) = ("plans compared over all shards at once", 50);
/// And of all cases, in a thousand.
const WANTED_CASES: [(&str, u64); 6] = [
    ("wait 4", 2),
    ("wait 5", 5),
    ("refused for a fault", 10),
    ("a plan in spite of a fault", 1),
    ("a plan with every node held", 30),
    ("a plan with a node absent", 100),
];
/// And of large ones.
const WANTED_LARGE: (&str, u64) = (
    "plans with as good a placement by lists of other lengths",
    10,
);

impl Tally {
    fn put(&mut self, holds: bool, name: &str) {
        if holds {
            *self.counts.entry(name.into()).or_default() += 1;
        }
    }

    pub fn count(&mut self, case: &Case, compared: &Compared) {
        self.cases += 1;
        match compared.outcome.answer() {
            Answer::Plan => {
                self.put(case.fault.is_some(), "a plan in spite of a fault");
                self.put(compared.whole, WANTED_SMALL.0);
                let (settings, state) = planned(&case.asked, &compared.outcome);
                self.plan(case.size, &settings, &state);
            }
            Answer::Wait(reason, _) => self.put(true, &format!("wait {reason}")),
            _ => self.put(true, "refused for a fault"),
        }
    }

    fn plan(&mut self, size: Size, settings: &Settings, state: &State) {
        let (layout, masks) = layout(settings, state);
        self.plans += 1;
        let all = state.held == mask::below(settings.nodes);
        self.put(all, "a plan with every node held");
        self.put(!all, "a plan with a node absent");
        self.put(layout.moves(masks) > 0, "plans with moves");
        let most = settings.nodes == size.most_nodes();
        self.put(most, "plans of as many nodes as there can be");
        let used = |&number: &u32| !settings.shards_of(number).is_empty();
        let subgroups = (0..SUBGROUPS).filter(used).count();
        self.put(subgroups > 1, "plans of two subgroups or more");
        self.put(subgroups == 4, "plans of four subgroups");
        let between = (0..SUBGROUPS).any(|number| {
            let own = settings.shards_of(number);
            own.windows(2).any(|pair| pair[1] > pair[0] + 1)
        });
        self.put(
            between,
            "plans of shards that lie between those of another subgroup",
        );
        let equal = exchangeable(&layout, masks);
        self.put(
            equal,
            "plans with another placement of equal moves and stays",
        );
        let other = shifted(&layout, masks);
        self.put(other, WANTED_LARGE.0);
        self.caps(&layout, masks);
    }

    fn caps(&mut self, layout: &Layout, masks: &[u32]) {
        let settings = layout.settings;
        let any = |holds: &dyn Fn(u32, u32) -> bool| {
            (0..settings.shards).any(|shard| holds(shard, masks[shard as usize]))
        };
        let wide = |shard: u32, _: u32| settings.cap(shard) > settings.need(shard);
        self.put(any(&wide), "plans with a cap above m");
        self.put(!any(&wide), "plans with caps at m alone");
        let more = |shard: u32, own: u32| mask::count(own) > settings.need(shard);
        self.put(any(&more), "plans that keep more members than are needed");
        let full = |shard: u32, own: u32| {
            let out = layout.old[shard as usize] & layout.held & !own;
            wide(shard, own) && mask::count(own) == settings.cap(shard) && out != 0
        };
        self.put(
            any(&full),
            "plans that leave out a held member for a cap above m",
        );
        let twice = |_: u32, own: u32| {
            let sets = mask::nodes(own).into_iter().map(|node| settings.set(node));
            sets.collect::<BTreeSet<u32>>().len() < mask::count(own) as usize
        };
        self.put(any(&twice), "plans where a set is twice in a shard");
    }

    /// Prints all counts.
    pub fn print(&self, size: Size) {
        println!(
            "  {}: {} cases, {} plans",
            size.name(),
            self.cases,
            self.plans
        );
        for (name, times) in &self.counts {
            println!("    {name}: {times}");
        }
    }

    /// What is too rare for the cases to show much.
    pub fn rare(&self, size: Size) -> Vec<&'static str> {
        let times = |name: &str| self.counts.get(name).copied().unwrap_or(0);
        let wanted_small = (size == Size::Small).then_some(&WANTED_SMALL);
        let of_plans = WANTED
            .iter()
            .chain(wanted_small)
            .filter(|(name, least)| times(name) * 100 < self.plans * least);
        let wanted_large = (size == Size::Large).then_some(&WANTED_LARGE);
        let of_cases = WANTED_CASES
            .iter()
            .chain(wanted_large)
            .filter(|(name, least)| times(name) * 1000 < self.cases * least);
        of_plans.chain(of_cases).map(|&(name, _)| name).collect()
    }
}

/// Whether a placement is valid and has the moves and stays of a plan.
fn as_good(layout: &Layout, masks: &[u32], other: &[u32]) -> bool {
    layout.moves(other) == layout.moves(masks)
        && layout.stays(other) == layout.stays(masks)
        && layout.valid(other)
}

/// Whether one node for another, or two nodes of two shards for each other, give
/// as good a placement.
fn exchangeable(layout: &Layout, masks: &[u32]) -> bool {
    let equal = |other: &[u32]| as_good(layout, masks, other);
    for shard in 0..layout.settings.shards {
        let own = masks[shard as usize];
        for out in mask::nodes(own) {
            for node in mask::nodes(layout.held & !own) {
                if equal(&exchanged(layout.settings, masks, shard, [out, node])) {
                    return true;
                }
            }
        }
    }
    false
}

/// Whether one node that moved can go back to a shard that has room, and a node
/// that stays in a third shard move in its place, for as good a placement.
fn shifted(layout: &Layout, masks: &[u32]) -> bool {
    let settings = layout.settings;
    let pairs = |own: fn(u32, u32) -> u32| {
        let nodes =
            |shard: u32| mask::nodes(own(masks[shard as usize], layout.old[shard as usize]));
        let of_shard = move |shard: u32| nodes(shard).into_iter().map(move |node| (shard, node));
        (0..settings.shards).flat_map(of_shard).collect::<Vec<_>>()
    };
    let (moved, stays) = (pairs(|own, old| own & !old), pairs(|own, old| own & old));
    for &(shard, node) in &moved {
        let beside = settings.shards_of(settings.subgroup(shard)).into_iter();
        let home = |&home: &u32| mask::has(layout.old[home as usize], node);
        for home in beside.filter(home) {
            for &(third, other) in stays.iter().filter(|&&(third, _)| third != home) {
                let mut masks_of = masks.to_vec();
                masks_of[shard as usize] ^= mask::only(node) | mask::only(other);
                masks_of[home as usize] |= mask::only(node);
                masks_of[third as usize] ^= mask::only(other);
                if as_good(layout, masks, &masks_of) {
                    return true;
                }
            }
        }
    }
    false
}

/// The masks with a shard's node out for another one, which takes its place if
/// it is in another shard of the subgroup.
fn exchanged(settings: &Settings, masks: &[u32], shard: u32, nodes: [u32; 2]) -> Vec<u32> {
    let mut masks = masks.to_vec();
    let both = mask::only(nodes[0]) | mask::only(nodes[1]);
    for other in settings.shards_of(settings.subgroup(shard)) {
        let mask = &mut masks[other as usize];
        if other == shard || mask::has(*mask, nodes[1]) {
            *mask ^= both;
        }
    }
    masks
}
