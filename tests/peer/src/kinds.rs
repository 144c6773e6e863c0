//! Kinds of layouts of 32 nodes: many where nobody is needed, and such where
//! every node is, or each node of some failure sets.

use crate::inputs::{input_of, old_masks, Input, Size};
use differential::random::Random;

const SEED: u64 = 2;
pub const NODES: u32 = 32;
/// The words of a state with its plan's masks.
const PLAN_MASKS: usize = 58;

/// A kind of layout, all nodes held.
struct Layout {
    name: &'static str,
    /// How many nodes each failure set has.
    sets: &'static [u32],
    /// For each subgroup what its shards need.
    needs: &'static [&'static [u32]],
    /// Whether every shard may have up to two nodes more than it needs.
    capped: bool,
    /// The number of nodes whose loss means waiting.
    needed: u32,
}

const PAIRS: &[u32] = &[2; 16];
const FOURS: &[u32] = &[4; 8];
const EIGHTS: &[u32] = &[8; 4];
const SIXES: &[&[u32]] = &[&[6; 4], &[6; 4], &[6; 4], &[6; 4]];
const MIXED: &[&[u32]] = &[&[2, 3, 4, 5], &[3, 4, 5, 7], &[7, 6, 5, 4], &[2, 2, 7, 7]];

const LAYOUTS: [Layout; 15] = [
    Layout {
        name: "16 shards in 4 subgroups, 6 of 8 nodes each, 16 sets",
        sets: PAIRS,
        needs: SIXES,
        capped: false,
        needed: 0,
    },
    Layout {
        name: "16 shards in 4 subgroups, 6 of 8 nodes each, 16 sets, caps",
        sets: PAIRS,
        needs: SIXES,
        capped: true,
        needed: 0,
    },
    Layout {
        name: "16 shards in 4 subgroups, needs 2 to 7, 8 sets",
        sets: FOURS,
        needs: MIXED,
        capped: false,
        needed: 0,
    },
    Layout {
        name: "16 shards in 4 subgroups, needs 2 to 7, 8 sets, caps",
        sets: FOURS,
        needs: MIXED,
        capped: true,
        needed: 0,
    },
    Layout {
        name: "16 shards in one subgroup, one node each, 4 sets",
        sets: EIGHTS,
        needs: &[&[1; 16]],
        capped: false,
        needed: 0,
    },
    Layout {
        name: "one shard of 16 sets",
        sets: PAIRS,
        needs: &[&[16]],
        capped: false,
        needed: 0,
    },
    Layout {
        name: "one node to spare, 4 subgroups of 4 shards",
        sets: PAIRS,
        needs: &[&[8, 8, 8, 7], &[8, 8, 8, 7], &[8, 8, 8, 7], &[8, 8, 8, 7]],
        capped: false,
        needed: 0,
    },
    Layout {
        name: "one node to spare, one subgroup of 16 shards",
        sets: EIGHTS,
        needs: &[&[2, 2, 2, 2, 2, 2, 2, 2, 2, 2, 2, 2, 2, 2, 2, 1]],
        capped: false,
        needed: 0,
    },
    Layout {
        name: "every node needed, 4 subgroups of 4 shards",
        sets: PAIRS,
        needs: &[&[8; 4], &[8; 4], &[8; 4], &[8; 4]],
        capped: false,
        needed: 32,
    },
    Layout {
        name: "every node needed by the last of 4 subgroups, caps",
        sets: PAIRS,
        needs: &[&[6; 4], &[6; 4], &[6; 4], &[8; 4]],
        capped: true,
        needed: 32,
    },
    Layout {
        name: "every node needed, one subgroup of 4 shards",
        sets: PAIRS,
        needs: &[&[8; 4]],
        capped: false,
        needed: 32,
    },
    Layout {
        name: "every node needed, one subgroup of 16 shards",
        sets: EIGHTS,
        needs: &[&[2; 16]],
        capped: false,
        needed: 32,
    },
    Layout {
        name: "each of 16 nodes needed for its set, 2 shards",
        sets: &[2, 2, 2, 2, 2, 2, 2, 2, 16],
        needs: &[&[9; 2]],
        capped: false,
        needed: 16,
    },
    Layout {
        name: "each of 16 nodes needed for its set, 4 shards, caps",
        sets: &[4, 4, 4, 4, 16],
        needs: &[&[5; 4]],
        capped: true,
        needed: 16,
    },
    Layout {
        name: "each of 15 nodes needed for its set, 4 subgroups",
        sets: &[1, 1, 1, 1, 1, 1, 1, 1, 1, 1, 1, 1, 1, 1, 1, 17],
        needs: &[&[16], &[16], &[16], &[16]],
        capped: false,
        needed: 15,
    },
];

/// What the reports of a kind have.
struct Reports {
    name: &'static str,
    runs: u32,
    /// Whether the kept view is laid out as decide would, or in any way.
    placed: bool,
}

const REPORTS: [Reports; 3] = [
    Reports {
        name: "empty logs",
        runs: 0,
        placed: false,
    },
    Reports {
        name: "empty logs, nobody moves",
        runs: 0,
        placed: true,
    },
    Reports {
        name: "full reports",
        runs: 111,
        placed: false,
    },
];

/// What each kind is.
pub fn names() -> Vec<String> {
    let of_layout = |layout: &Layout| {
        REPORTS
            .each_ref()
            .map(|reports| format!("{}; {}", layout.name, reports.name))
    };
    LAYOUTS.iter().flat_map(of_layout).collect()
}

/// Input `index` of a kind.
pub fn input(kind: usize, index: u64) -> Input {
    let layout = &LAYOUTS[kind / REPORTS.len()];
    let Reports { runs, placed, .. } = REPORTS[kind % REPORTS.len()];
    let random = &mut Random::of_input(SEED, index);
    let mut of_node = Vec::new();
    for (set, &count) in (0..).zip(layout.sets) {
        of_node.extend((0..count).map(|_| set));
    }
    assert_eq!(of_node.len(), NODES as usize);
    random.shuffle(&mut of_node);
    let shards: u32 = layout.needs.iter().map(|own| own.len() as u32).sum();
    let mut settings = vec![NODES, layout.sets.len() as u32, 1, shards];
    settings.extend(of_node);
    for (subgroup, needs) in (0..).zip(layout.needs) {
        for &need in *needs {
            let cap = if layout.capped { (need + 2).min(16) } else { 0 };
            settings.push(65536 * cap + 256 * subgroup + need);
        }
    }
    let size = Size {
        nodes: NODES,
        shards,
        runs,
    };
    let masks = old_masks(random, &settings);
    let input = input_of(random, size, settings, &masks, index);
    match placed {
        false => input,
        true => {
            let plan = &input.ordered[PLAN_MASKS..PLAN_MASKS + shards as usize];
            input_of(random, size, input.settings.clone(), plan, index)
        }
    }
}

/// How many nodes of a kind are needed, those not counted that alone have a log.
pub fn needed(kind: usize) -> u32 {
    LAYOUTS[kind / REPORTS.len()].needed
}
