//! The state and its words for C callers (restart(7), State).

use crate::log::Position;
use crate::settings::{Settings, MOST_NODES};

/// The length of a state in words.
pub const STATE_WORDS: usize = 160;

#[derive(Clone, Copy, Debug, PartialEq, Eq)]
pub enum Phase {
    Gathering,
    Ordered,
    Preparing,
    Committed,
}

const PHASES: [Phase; 4] = [
    Phase::Gathering,
    Phase::Ordered,
    Phase::Preparing,
    Phase::Committed,
];

/// A view: its number, its members, and the members of each shard.
#[derive(Clone, Debug, PartialEq, Eq)]
pub struct View {
    pub number: u32,
    pub members: u32,
    pub masks: Vec<u32>,
}

/// What decide lays down, with an entry for each shard.
#[derive(Clone, Debug, PartialEq, Eq)]
pub struct Plan {
    /// The new view's number.
    pub number: u32,
    pub members: u32,
    /// The total of moves.
    pub total: u32,
    pub masks: Vec<u32>,
    pub holders: Vec<u32>,
    pub targets: Vec<Position>,
}

#[derive(Clone, Debug, PartialEq, Eq)]
pub struct State {
    pub phase: Phase,
    pub kept: Option<View>,
    /// The kept termination: a position for each shard.
    pub termination: Option<Vec<Position>>,
    pub held: u32,
    pub fetched: u32,
    pub prepared: u32,
    /// There is a plan outside gathering.
    pub plan: Option<Plan>,
    /// Each node's greatest reported view; 0 if none is remembered.
    pub remembered: [u32; MOST_NODES as usize],
}

/// Gathering, with the rest empty. It remembers nothing.
pub fn fresh() -> State {
    State {
        phase: Phase::Gathering,
        kept: None,
        termination: None,
        held: 0,
        fetched: 0,
        prepared: 0,
        plan: None,
        remembered: [0; MOST_NODES as usize],
    }
}

/// The words of a state:
///
/// | words | meaning |
/// |---|---|
/// | 0 | phase: 0 gathering, 1 ordered, 2 preparing, 3 committed |
/// | 1, 2 | kept view's number (0 none), members |
/// | 3 | termination kept: 0 or 1 |
/// | 4–19 | kept view's shard masks |
/// | 20–51 | kept termination, (view, k) for each shard |
/// | 52, 53, 54 | held, fetched, prepared |
/// | 55, 56, 57 | plan: number, members, total moves |
/// | 58–73 | plan: shard masks |
/// | 74–89 | plan: holders |
/// | 90–121 | plan: targets, (view, k) for each shard |
/// | 122–153 | each node's greatest reported view (0 none) |
/// | 154–159 | zero |
///
/// What the state doesn't have is zero, and so is what belongs to a shard from
/// S up or to a node from N up.
pub fn encode(state: &State) -> Vec<u32> {
    let mut words = vec![0; STATE_WORDS];
    words[0] = state.phase as u32;
    if let Some(view) = &state.kept {
        words[1] = view.number;
        words[2] = view.members;
        put(&mut words[4..20], &view.masks);
    }
    if let Some(positions) = &state.termination {
        words[3] = 1;
        put(&mut words[20..52], &flat(positions));
    }
    put(
        &mut words[52..55],
        &[state.held, state.fetched, state.prepared],
    );
    if let Some(plan) = &state.plan {
        put(&mut words[55..58], &[plan.number, plan.members, plan.total]);
        put(&mut words[58..74], &plan.masks);
        put(&mut words[74..90], &plan.holders);
        put(&mut words[90..122], &flat(&plan.targets));
    }
    put(&mut words[122..154], &state.remembered);
    words
}

/// The state that words say under these settings. Words that are not a state's,
/// or not zero where a state has nothing, say none.
pub fn decode(settings: &Settings, words: &[u32]) -> Option<State> {
    if words.len() != STATE_WORDS || words[0] > 3 || words[3] > 1 {
        return None;
    }
    let (shards, nodes) = (settings.shards as usize, settings.nodes as usize);
    let mut remembered = [0; MOST_NODES as usize];
    put(&mut remembered, &words[122..122 + nodes]);
    let phase = PHASES[words[0] as usize];
    let view = View {
        number: words[1],
        members: words[2],
        masks: words[4..4 + shards].to_vec(),
    };
    let plan = Plan {
        number: words[55],
        members: words[56],
        total: words[57],
        masks: words[58..58 + shards].to_vec(),
        holders: words[74..74 + shards].to_vec(),
        targets: positions(&words[90..90 + 2 * shards]),
    };
    let state = State {
        phase,
        kept: (view.number != 0).then_some(view),
        termination: (words[3] == 1).then(|| positions(&words[20..20 + 2 * shards])),
        held: words[52],
        fetched: words[53],
        prepared: words[54],
        plan: (phase != Phase::Gathering).then_some(plan),
        remembered,
    };
    // Only what a state has can be in its words.
    (encode(&state) == words).then_some(state)
}

fn put(words: &mut [u32], values: &[u32]) {
    words[..values.len()].copy_from_slice(values);
}

fn flat(positions: &[Position]) -> Vec<u32> {
    positions.iter().flat_map(|p| [p.view, p.k]).collect()
}

fn positions(words: &[u32]) -> Vec<Position> {
    words
        .chunks_exact(2)
        .map(|pair| Position::new(pair[0], pair[1]))
        .collect()
}

#[cfg(test)]
mod tests {
    use super::*;
    use crate::settings;

    fn run_settings() -> Settings {
        settings::parse(&[7, 3, 4, 3, 0, 0, 1, 1, 1, 2, 2, 2, 3, 1]).unwrap()
    }

    fn full_state() -> State {
        let mut remembered = [0; 32];
        remembered[..7].copy_from_slice(&[7, 7, 7, 6, 7, 7, 4]);
        State {
            remembered,
            phase: Phase::Preparing,
            kept: Some(View {
                number: 7,
                members: 127,
                masks: vec![5, 82, 32],
            }),
            termination: Some(vec![
                Position::new(0, 0),
                Position::new(7, 5),
                Position::new(6, 1),
            ]),
            held: 63,
            fetched: 63,
            prepared: 1,
            plan: Some(Plan {
                number: 8,
                members: 63,
                total: 2,
                masks: vec![5, 50, 8],
                holders: vec![0, 1, 5],
                targets: vec![
                    Position::new(0, 0),
                    Position::new(7, 5),
                    Position::new(6, 1),
                ],
            }),
        }
    }

    #[test]
    fn words_and_back() {
        for state in [fresh(), full_state()] {
            let words = encode(&state);
            assert_eq!(decode(&run_settings(), &words), Some(state));
        }
        assert_eq!(encode(&fresh()), vec![0; 160]);
        let words = encode(&full_state());
        assert_eq!(words[122..130], [7, 7, 7, 6, 7, 7, 4, 0]);
    }

    /// A node's word is its own, whether or not it is held.
    #[test]
    fn remembered_views() {
        let settings = run_settings();
        for node in 0..7 {
            let mut words = encode(&fresh());
            words[122 + node] = u32::MAX;
            let state = decode(&settings, &words).unwrap();
            assert_eq!(state.remembered[node], u32::MAX);
        }
    }

    /// Every word after the last shard's, and every word of a part that is not
    /// there, must be zero.
    #[test]
    fn dead_words_are_zero() {
        let settings = run_settings();
        let with = |state: &State, index: usize, word: u32| {
            let mut words = encode(state);
            words[index] = word;
            decode(&settings, &words)
        };
        for index in [7, 19, 26, 51, 61, 73, 77, 89, 96, 121, 129, 153, 154, 159] {
            assert_eq!(with(&full_state(), index, 1), None, "word {index}");
        }
        for index in [2, 4, 20, 55, 56, 57, 58, 74, 90] {
            assert_eq!(with(&fresh(), index, 1), None, "word {index}");
        }
        assert_eq!(with(&fresh(), 0, 4), None);
        assert_eq!(with(&full_state(), 3, 2), None);
        assert_eq!(decode(&settings, &[0; 159]), None);
        assert_eq!(decode(&settings, &[0; 161]), None);
    }
}
