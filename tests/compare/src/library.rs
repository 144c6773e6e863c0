//! The C interface of the proved library: its functions, as tables (see
//! `functions`), and its answers. Every answer is a word whose highest byte is
//! its class, see `Answer`.

pub use crate::functions::{Arguments, Convert, Game, Library, Planner};
use std::fmt;

/// Added to the length of what was accepted.
pub const ACCEPTED: u32 = 16_777_216;
/// A plan stands in the state. Its gap is added, where it was made by rounds.
pub const PLAN: u32 = 2 * ACCEPTED;
/// The greatest gap.
pub const MOST_GAP: u32 = 128;
/// Added to 256 times the reason of a wait and to its shard or subgroup.
pub const WAIT: u32 = 3 * ACCEPTED;
/// Added to what is found of an open view.
pub const VIEW: u32 = 4 * ACCEPTED;
/// The crew can force the win of a game; added to what the outage begins with.
pub const GAME: u32 = 5 * ACCEPTED;
/// Where the outage wins, it begins with a node or with this, for passing.
pub const PASSING: u32 = 32;

/// The numbers that have the index of a record, which lies below 128.
pub const LOCATED: [u32; 4] = [8, 9, 16, 17];

/// What an answer word says.
#[derive(Clone, Copy, Debug, PartialEq, Eq, PartialOrd, Ord)]
pub enum Answer {
    Accepted,
    /// Accepted, with a length in words.
    Length(u32),
    Plan,
    /// A plan made by rounds, with a gap above 0.
    PlanWithin(u32),
    /// The reason, and its shard or subgroup or 0.
    Wait(u32, u32),
    /// What is found of an open view, 1 to 4.
    View(u32),
    /// The crew can force the win.
    Crew,
    /// The outage can, beginning with this node or with `PASSING`.
    Outage(u32),
    Number(u32),
    /// A number that has the index of a record.
    Located(u32, u32),
    /// No answer has this word.
    Other(u32),
}

impl Answer {
    pub fn of(word: u32) -> Answer {
        let rest = word % ACCEPTED;
        match word / ACCEPTED {
            0 if rest == 0 => Answer::Accepted,
            0 if LOCATED.contains(&(rest % 256)) && rest / 256 < 128 => {
                Answer::Located(rest % 256, rest / 256)
            }
            0 if rest < 256 => Answer::Number(rest),
            1 => Answer::Length(rest),
            2 if rest == 0 => Answer::Plan,
            2 if rest <= MOST_GAP => Answer::PlanWithin(rest),
            3 if rest < 65536 => Answer::Wait(rest / 256, rest % 256),
            4 if (1..=4).contains(&rest) => Answer::View(rest),
            5 if rest == 0 => Answer::Crew,
            5 if (256..=256 + PASSING).contains(&rest) => Answer::Outage(rest - 256),
            _ => Answer::Other(word),
        }
    }

    pub fn refused(self) -> bool {
        matches!(
            self,
            Answer::Number(_) | Answer::Located(_, _) | Answer::Other(_)
        )
    }

    /// Whether a plan was made, by rounds or not.
    pub fn planned(self) -> bool {
        matches!(self, Answer::Plan | Answer::PlanWithin(_))
    }

    /// The number of a refusal.
    pub fn number(self) -> Option<u32> {
        match self {
            Answer::Number(number) | Answer::Located(number, _) => Some(number),
            _ => None,
        }
    }
}

impl fmt::Display for Answer {
    fn fmt(&self, f: &mut fmt::Formatter) -> fmt::Result {
        match *self {
            Answer::Accepted => write!(f, "accepted"),
            Answer::Length(length) => write!(f, "length {length}"),
            Answer::Plan => write!(f, "plan"),
            Answer::PlanWithin(gap) => write!(f, "plan with gap {gap}"),
            Answer::Wait(reason @ (4 | 5), value) => write!(f, "wait {reason} {value}"),
            Answer::Wait(reason, 0) => write!(f, "wait {reason}"),
            Answer::Wait(reason, value) => write!(f, "wait {reason} with value {value}"),
            Answer::View(finding) => write!(f, "open view {finding}"),
            Answer::Crew => write!(f, "the crew"),
            Answer::Outage(PASSING) => write!(f, "the outage by passing"),
            Answer::Outage(node) => write!(f, "the outage by node {node}"),
            Answer::Number(number) => write!(f, "number {number}"),
            Answer::Located(number, index) => write!(f, "number {number} {index}"),
            Answer::Other(word) => write!(f, "word {word}"),
        }
    }
}

/// The proved library's functions.
#[cfg(linked)]
mod proved {
    use crate::functions::{Game, Library, Planner};
    use crate::{game_functions, library_functions, linked_functions, planner_functions};

    library_functions! { linked_functions settings "restart_" "" }
    planner_functions! { linked_functions events "restart_" "" }
    game_functions! { linked_functions games "restart_" "" }

    macro_rules! filled {
        ($table:ident $module:ident $($kind:ident $name:ident($($given:tt)*);)*) => {
            $table { $($name: $module::$name,)* }
        };
    }

    pub fn library() -> Library {
        library_functions! { filled Library settings }
    }

    pub fn planner() -> Planner {
        planner_functions! { filled Planner events }
    }

    pub fn game() -> Game {
        games::game
    }
}

/// Without the library, the reference stands in.
#[cfg(not(linked))]
mod proved {
    use crate::functions::{Game, Library, Planner};
    use crate::mock::{self, Faithful};

    pub fn library() -> Library {
        mock::library::<Faithful>()
    }

    pub fn planner() -> Planner {
        mock::planner::<Faithful>()
    }

    pub fn game() -> Game {
        mock::game::<Faithful>()
    }
}

/// The functions that are tested.
pub use proved::{game as tested_game, library as tested, planner as tested_planner};

/// The name of what is tested, for the programs' first line.
pub fn tested_name() -> &'static str {
    if cfg!(linked) {
        "the library"
    } else {
        "the reference itself"
    }
}

#[cfg(test)]
mod tests {
    use super::*;

    #[test]
    fn answer_words() {
        let words = [
            (0, "accepted"),
            (14, "number 14"),
            (9 + 256 * 3, "number 9 3"),
            (17, "number 17 0"),
            (8 + 256 * 127, "number 8 127"),
            (16 + 256 * 128, "word 32784"),
            (10 + 256, "word 266"),
            (256, "word 256"),
            (16_777_216 + 60, "length 60"),
            (33_554_432, "plan"),
            (33_554_433, "plan with gap 1"),
            (33_554_432 + 128, "plan with gap 128"),
            (33_554_432 + 129, "word 33554561"),
            (50_331_648 + 256, "wait 1"),
            (50_331_648 + 256 * 4, "wait 4 0"),
            (50_331_648 + 256 * 5 + 3, "wait 5 3"),
            (50_331_648 + 256 * 2 + 1, "wait 2 with value 1"),
            (67_108_864 + 1, "open view 1"),
            (67_108_864 + 4, "open view 4"),
            (67_108_864 + 5, "word 67108869"),
            (4 * 16_777_216, "word 67108864"),
            (5 * 16_777_216, "the crew"),
            (5 * 16_777_216 + 256, "the outage by node 0"),
            (5 * 16_777_216 + 256 + 9, "the outage by node 9"),
            (5 * 16_777_216 + 256 + 32, "the outage by passing"),
            (5 * 16_777_216 + 256 + 33, "word 83886369"),
            (5 * 16_777_216 + 1, "word 83886081"),
            (6 * 16_777_216, "word 100663296"),
        ];
        for (word, text) in words {
            assert_eq!(Answer::of(word).to_string(), text);
        }
    }
}
