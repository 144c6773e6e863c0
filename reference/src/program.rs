//! What the program `restart` does (restart(1)).

use crate::desk::DESK_WORDS;
use crate::events::{self, Decision};
use crate::mask;
use crate::number::Refusal;
use crate::quorum::Wait;
use crate::roles::Role;
use crate::settings::{self, Settings};
use crate::state::{self, Plan, State};
use crate::words;

pub mod sheet;

/// Reads blocks of words, each preceded by its word count.
struct Blocks<'a> {
    left: &'a [u8],
}

impl Blocks<'_> {
    /// The next block. A block cut short is its whole words; a cut count ends
    /// the input.
    fn next(&mut self) -> Option<Vec<u32>> {
        let (count, rest) = self.left.split_first_chunk::<4>()?;
        let bytes = 4 * u64::from(u32::from_le_bytes(*count));
        let there = bytes.min(rest.len() as u64) as usize;
        let (block, left) = rest.split_at(there);
        self.left = left;
        Some(words::whole_words(block))
    }
}

/// Settings, state and desk after the last block.
pub struct Reported {
    pub settings: Vec<u32>,
    pub state: Vec<u32>,
    pub desk: Vec<u32>,
}

/// How a run ends if nothing is refused.
pub struct Ended {
    pub settings: Settings,
    pub decision: Decision,
    /// The state after the decision.
    pub state: State,
}

/// What is printed for this standard input.
pub fn run(input: &[u8]) -> String {
    printed(&decide(input))
}

/// What is printed for this end of a run.
pub fn printed(ended: &Result<Ended, Refusal>) -> String {
    match ended {
        Err(refusal) => format!("{refusal}\n"),
        Ok(ended) => match (ended.decision, &ended.state.plan) {
            (Decision::Wait(wait), _) => wait_line(wait),
            (Decision::Plan, plan) => plan_lines(plan.as_ref().expect("decide leaves a plan")),
        },
    }
}

/// Reports all messages from the fresh state.
pub fn reported(input: &[u8]) -> Result<Reported, Refusal> {
    let mut blocks = Blocks { left: input };
    let settings = blocks.next().unwrap_or_default();
    let mut state = state::encode(&state::fresh());
    let mut desk = vec![0; DESK_WORDS];
    while let Some(message) = blocks.next() {
        (state, desk) = events::report(Role::Planner, &settings, &state, &desk, &message)?;
    }
    Ok(Reported {
        settings,
        state,
        desk,
    })
}

/// Reports all messages from the fresh state and decides after the last block.
pub fn decide(input: &[u8]) -> Result<Ended, Refusal> {
    let Reported {
        settings: words,
        state,
        desk,
    } = reported(input)?;
    let (decision, state) = events::decide(Role::Planner, &words, &state, &desk)?;
    let settings = settings::parse(&words)?;
    let state = state::decode(&settings, &state).expect("decide leaves a state");
    Ok(Ended {
        settings,
        decision,
        state,
    })
}

/// The reason, then its shard or subgroup if any.
fn wait_line(wait: Wait) -> String {
    match wait.value() {
        Some(value) => format!("wait {} {value}\n", wait.reason()),
        None => format!("wait {}\n", wait.reason()),
    }
}

/// New view; total moves; and for each shard its holder, the target's view and
/// k, and its members ascending.
fn plan_lines(plan: &Plan) -> String {
    let mut lines = format!("view {}\nmoves {}\n", plan.number, plan.total);
    for (shard, holder) in plan.holders.iter().enumerate() {
        let target = plan.targets[shard];
        let members = mask::nodes(plan.masks[shard]).into_iter();
        let members: String = members.map(|node| format!(" {node}")).collect();
        lines += &format!(
            "shard {shard} holder {holder} target {} {} members{members}\n",
            target.view, target.k
        );
    }
    lines
}

#[cfg(test)]
mod tests;
