//! Restarts that are hard to place: nearly every held node is needed, and old
//! members crowd into few sets, so that shards have to exchange nodes. Some
//! shards may have more nodes than they need. No log holds anything. The last
//! node is no member of the view. Some faults that other inputs seldom have are
//! put into them.

use differential::calls::{self, Asked, Kind, Pages, Table, DESK_BYTES, STATE_BYTES};
use differential::lent::Place;
use differential::library::Planner;
use differential::random::Random;
use reference::message::{encode, Contents, Triple, MEMBERS};
use reference::roles::PLANNER;
use reference::words;

const VIEW: u32 = 7;

/// Words of the state.
const KEPT_MASKS: usize = 4;
const HELD: usize = 52;
const PLAN_MOVES: usize = 57;
const PLAN_MASKS: usize = 58;
const LATEST: usize = 122;

struct Layout {
    nodes: u32,
    settings: Vec<u32>,
    /// The old members of each shard.
    masks: Vec<u32>,
    held: u32,
}

/// The decide of a layout: all held nodes have reported to the planner.
pub fn decide(planner: &Planner, pages: &mut Pages, random: &mut Random) -> Asked {
    let layout = layout(random);
    let mut asked = Asked {
        role: PLANNER,
        kind: Kind::Report,
        table: Table {
            settings: words::to_bytes(&layout.settings),
            state: vec![0; STATE_BYTES],
            desk: vec![0; DESK_BYTES],
        },
        message: Vec::new(),
        node: 0,
        buffer: Vec::new(),
    };
    for node in (0..layout.nodes).filter(|node| layout.held >> node & 1 == 1) {
        asked.message = words::to_bytes(&report(&layout, node));
        let taken = calls::call(planner, pages, &asked, [Place::First; 5]);
        let taken = taken.expect("nothing else changes");
        assert_eq!(taken.answer, 0, "a good report");
        asked.table.state = taken.state;
        asked.table.desk = taken.desk;
    }
    asked.kind = Kind::Decide;
    asked
}

/// The last report of a layout, its last record naming one behind the message.
pub fn report_too_short(decide: &Asked) -> Asked {
    let mut message = words::whole_words(&decide.message);
    let words = message.len();
    message[words - 1] = words as u32 / 4;
    Asked {
        kind: Kind::Report,
        message: words::to_bytes(&message),
        ..decide.clone()
    }
}

/// A layout where the last node is held too, with a report of the view that
/// does not have it.
pub fn with_stranger(decide: &Asked) -> Asked {
    let settings = words::whole_words(&decide.table.settings);
    let mut state = words::whole_words(&decide.table.state);
    let mut desk = words::whole_words(&decide.table.desk);
    let node = settings[0] as usize - 1;
    let report = words::whole_words(&decide.message);
    desk[512 * node..512 * node + report.len()].copy_from_slice(&report);
    desk[512 * node] = node as u32;
    state[HELD] |= 1 << node;
    state[LATEST + node] = VIEW;
    with_table(decide, &state, &desk)
}

/// A plan with another member of some shard, one more or one less, and its moves
/// counted anew.
pub fn with_other_member(random: &mut Random, decide: &Asked, state: &[u8]) -> Asked {
    let settings = words::whole_words(&decide.table.settings);
    let mut state = words::whole_words(state);
    let shard = random.below(settings[3] as usize);
    let mut pick = |from: u32| {
        let nodes = reference::mask::nodes(from);
        nodes.get(random.below(nodes.len().max(1))).copied()
    };
    let (own, old) = (state[PLAN_MASKS + shard], state[KEPT_MASKS + shard]);
    if let (Some(out), Some(into)) = (pick(own), pick(state[HELD] & !own)) {
        let next = random.pick(&[
            own & !(1 << out) | 1 << into,
            own | 1 << into,
            own & !(1 << out),
        ]);
        state[PLAN_MOVES] += (next & !old).count_ones();
        state[PLAN_MOVES] -= (own & !old).count_ones();
        state[PLAN_MASKS + shard] = next;
    }
    with_table(decide, &state, &words::whole_words(&decide.table.desk))
}

/// The check of another state and desk.
fn with_table(decide: &Asked, state: &[u32], desk: &[u32]) -> Asked {
    Asked {
        kind: Kind::CheckState,
        table: Table {
            settings: decide.table.settings.clone(),
            state: words::to_bytes(state),
            desk: words::to_bytes(desk),
        },
        ..decide.clone()
    }
}

fn report(layout: &Layout, node: u32) -> Vec<u32> {
    let masks = (0..).zip(&layout.masks);
    let records = masks.map(|(shard, &own)| Triple::new(MEMBERS, shard, own, 0));
    encode(&Contents {
        node,
        view: VIEW,
        members: members(layout.nodes),
        records: records.collect(),
    })
}

/// All nodes but the last.
fn members(nodes: u32) -> u32 {
    reference::mask::below(nodes - 1)
}

fn layout(random: &mut Random) -> Layout {
    let nodes = random.pick(&[6, 8, 12, 16, 24, 32]);
    let sets = random.between(2, 16.min(nodes));
    let of_node: Vec<u32> = (0..nodes)
        .map(|node| {
            let any = random.between(0, sets - 1);
            random.pick(&[node % sets, node % sets, any])
        })
        .collect();
    let shards = random.between(2, 16.min(nodes / 2));
    let groups: Vec<u32> = (0..shards).map(|_| random.pick(&[0, 0, 0, 3])).collect();
    let masks = old_members(random, &of_node, &groups);
    let held = held(random, nodes, &masks);
    let needs = needs(random, sets, held.count_ones(), &groups);
    let capped = random.chance(60);
    let mut settings = vec![nodes, sets, 1, shards];
    settings.extend(&of_node);
    for (group, need) in groups.iter().zip(needs) {
        let cap = random.pick(&[0, need, need + 1, need + 2, 16]).min(16);
        settings.push(65536 * if capped { cap } else { 0 } + 256 * group + need);
    }
    Layout {
        nodes,
        settings,
        masks,
        held,
    }
}

/// Every shard has a member; in each subgroup the other nodes join a shard that
/// goes with their set, any, or none.
fn old_members(random: &mut Random, of_node: &[u32], groups: &[u32]) -> Vec<u32> {
    let mut masks = vec![0; groups.len()];
    for group in [0, 3] {
        let own: Vec<usize> = (0..groups.len()).filter(|&s| groups[s] == group).collect();
        let mut order: Vec<u32> = (0..of_node.len() as u32 - 1).collect();
        random.shuffle(&mut order);
        for (place, node) in order.into_iter().enumerate() {
            let with_set = own.get(of_node[node as usize] as usize % own.len().max(1));
            let chosen = match own.get(place) {
                Some(first) => Some(first),
                None if own.is_empty() || random.chance(15) => None,
                None if random.chance(60) => with_set,
                None => Some(&own[random.below(own.len())]),
            };
            if let Some(&shard) = chosen {
                masks[shard] |= 1 << node;
            }
        }
    }
    masks
}

/// Most nodes; each shard has a held old member.
fn held(random: &mut Random, nodes: u32, masks: &[u32]) -> u32 {
    let mut held = members(nodes);
    for _ in 0..random.between(0, nodes / 4) {
        let without = held & !(1 << random.between(0, nodes - 1));
        if masks.iter().all(|own| own & without != 0) {
            held = without;
        }
    }
    held
}

/// In each subgroup nearly as much is needed as is held, or half of it.
fn needs(random: &mut Random, sets: u32, held: u32, groups: &[u32]) -> Vec<u32> {
    let mut needs = vec![1; groups.len()];
    for group in [0, 3] {
        let own: Vec<usize> = (0..groups.len()).filter(|&s| groups[s] == group).collect();
        let few = random.between(0, 4);
        let spare = random.pick(&[few, few, held / 2]);
        for _ in 0..(held.saturating_sub(own.len() as u32 + spare)) {
            if own.is_empty() {
                break;
            }
            let need = &mut needs[own[random.below(own.len())]];
            *need = (*need + 1).min(sets);
        }
    }
    needs
}
