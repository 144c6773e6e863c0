//! Seeded restarts of a given size: all nodes report the same view, with as
//! many runs as wanted, and a plan exists.

use differential::expected::contents_words;
use differential::generate;
use differential::random::Random;
use reference::desk::DESK_WORDS;
use reference::events::{self, Decision};
use reference::message::{encode, Contents, Form, Triple, MEMBERS, RUN, TERMINATION};
use reference::roles::Role;
use reference::{mask, message, settings, state, words};

const SEED: u64 = 1;
const VIEW: u32 = 1000;

#[derive(Clone, Copy, Debug)]
pub struct Size {
    pub nodes: u32,
    pub shards: u32,
    /// Runs in each report, at most as many as fit.
    pub runs: u32,
}

/// The greatest size: 128 records in every report.
pub const FULL: Size = Size {
    nodes: 32,
    shards: 16,
    runs: 111,
};

/// Small, with long reports and with short ones.
pub const SMALL: Size = Size {
    nodes: 7,
    shards: 3,
    runs: 111,
};
pub const SHORT: Size = Size { runs: 4, ..SMALL };

/// A restart with its states in the three phases that take events.
pub struct Input {
    pub nodes: u32,
    pub settings: Vec<u32>,
    pub messages: Vec<Vec<u32>>,
    pub desk: Vec<u32>,
    pub gathered: Vec<u32>,
    pub ordered: Vec<u32>,
    pub preparing: Vec<u32>,
    /// The contents of the first node's report and of its order.
    pub report_contents: Vec<u32>,
    pub order: Vec<u32>,
    pub order_contents: Vec<u32>,
}

/// Input `index` of a size.
pub fn input(size: Size, index: u64) -> Input {
    let random = &mut Random::of_input(SEED, index);
    let settings = settings_words(random, size);
    let masks = old_masks(random, &settings);
    input_of(random, size, settings, &masks, index)
}

/// The members of each shard in the kept view: any.
pub fn old_masks(random: &mut Random, settings: &[u32]) -> Vec<u32> {
    let settings = settings::parse(settings).expect("good settings");
    let members = mask::below(settings.nodes);
    generate::shard_masks(random, &settings, members, 0)
}

/// Input `index` of a size with these settings, and these members of each shard
/// in the kept view.
pub fn input_of(
    random: &mut Random,
    size: Size,
    settings: Vec<u32>,
    masks: &[u32],
    index: u64,
) -> Input {
    let messages = reports(random, size, masks, index % 2 == 1);
    let mut gathered = state::encode(&state::fresh());
    let mut desk = vec![0; DESK_WORDS];
    for message in &messages {
        let next = events::report(Role::Planner, &settings, &gathered, &desk, message);
        (gathered, desk) = next.expect("a good report");
    }
    let (decision, ordered) =
        events::decide(Role::Planner, &settings, &gathered, &desk).expect("a good state");
    assert_eq!(decision, Decision::Plan);
    let mut preparing = ordered.clone();
    for node in 0..size.nodes {
        let next = events::fetched(Role::Planner, &settings, &preparing, &desk, node);
        preparing = next.expect("a held node");
    }
    let order =
        events::order(Role::Planner, &settings, &ordered, &desk, 0, 512).expect("a held node");
    let contents = |form, words: &[u32]| {
        let contents = message::read(form, &settings, words);
        contents_words(&contents.expect("a good message"))
    };
    Input {
        nodes: size.nodes,
        report_contents: contents(Form::Report, &messages[0]),
        order_contents: contents(Form::Order, &order),
        settings,
        messages,
        desk,
        gathered,
        ordered,
        preparing,
        order,
    }
}

/// What the program `restart` reads: the settings, the reports of all nodes and
/// `more` of them again, each with its word count before it.
pub fn blocks(input: &Input, more: u64) -> Vec<u8> {
    let all = input.messages.len() + more as usize;
    let reports = input.messages.iter().cycle().take(all);
    let blocks = [&input.settings].into_iter().chain(reports);
    let words = blocks.flat_map(|block| [&[block.len() as u32], block.as_slice()].concat());
    words::to_bytes(&words.collect::<Vec<u32>>())
}

/// Four subgroups; each shard needs three quarters of its share of the nodes.
fn settings_words(random: &mut Random, size: Size) -> Vec<u32> {
    let Size { nodes, shards, .. } = size;
    let sets = (nodes / 2).clamp(1, 16);
    let share = nodes / shards.div_ceil(4);
    let need = (share * 3 / 4).clamp(1, sets);
    let mut words = vec![nodes, sets, nodes / 2 + 1, shards];
    let mut of_node: Vec<u32> = (0..nodes).map(|node| node % sets).collect();
    random.shuffle(&mut of_node);
    words.extend(of_node);
    words.extend((0..shards).map(|shard| shard % 4 * 256 + need));
    words
}

/// The messages of all nodes.
fn reports(random: &mut Random, size: Size, masks: &[u32], terminated: bool) -> Vec<Vec<u32>> {
    let members = mask::below(size.nodes);
    let beside = 1 + size.shards * (1 + u32::from(terminated));
    let runs = size.runs.min(128 - beside);
    let report = |random: &mut Random, node: u32| {
        let mut records = Vec::new();
        for (shard, &own) in (0..).zip(masks) {
            records.push(Triple::new(MEMBERS, shard, own, 0));
        }
        if terminated {
            for shard in 0..size.shards {
                let (view, k) = last_run(size.shards, runs, shard);
                records.push(Triple::new(TERMINATION, shard, view, k));
            }
        }
        for shard in 0..size.shards {
            add_runs(random, &mut records, size.shards, runs, shard);
        }
        encode(&Contents {
            node,
            view: VIEW,
            members,
            records,
        })
    };
    (0..size.nodes).map(|node| report(random, node)).collect()
}

/// How many of the runs a shard has.
fn share(shards: u32, runs: u32, shard: u32) -> u32 {
    runs / shards + u32::from(shard < runs % shards)
}

/// The position that every node has last, for sure.
fn last_run(shards: u32, runs: u32, shard: u32) -> (u32, u32) {
    match share(shards, runs, shard) {
        0 => (0, 0),
        _ => (VIEW, 1),
    }
}

/// Runs in the views up to the last; the last one's count is any.
fn add_runs(random: &mut Random, records: &mut Vec<Triple>, shards: u32, runs: u32, shard: u32) {
    let own = share(shards, runs, shard);
    for index in 0..own {
        let view = VIEW - (own - 1 - index);
        let count = random.between(1, 1000);
        records.push(Triple::new(RUN, shard, view, count));
    }
}
