//! The numbers of refusals (restart(7), NUMBERS).

use std::fmt;

/// The number of the first row whose condition holds.
#[derive(Clone, Copy, Debug, PartialEq, Eq)]
pub struct Number(pub u32);

/// A refusal: its number and, with 8, 9, 16 and 17, the index of the record
/// looked at.
#[derive(Clone, Copy, Debug, PartialEq, Eq)]
pub struct Refusal {
    pub number: Number,
    pub index: Option<u32>,
}

impl Refusal {
    /// The answer to a C caller: the number + 256 times the index.
    pub fn word(self) -> u32 {
        self.number.0 + 256 * self.index.unwrap_or(0)
    }
}

impl From<Number> for Refusal {
    fn from(number: Number) -> Refusal {
        Refusal {
            number,
            index: None,
        }
    }
}

impl fmt::Display for Refusal {
    /// What `restart` prints: the index after the number, if there is one.
    fn fmt(&self, f: &mut fmt::Formatter) -> fmt::Result {
        write!(f, "number {}", self.number.0)?;
        match self.index {
            Some(index) => write!(f, " {index}"),
            None => Ok(()),
        }
    }
}

/// Row 1: the desk or a buffer to be written has the wrong length.
pub const LENT_LENGTH: Number = Number(1);
/// Row 2: the settings.
pub const SETTINGS: Number = Number(2);
/// After row 2: an operation or a page that is not allowed to the
/// role, or a subgroup above 3.
pub const ROLE: Number = Number(15);
/// Row 3: the state is unsound.
pub const STATE: Number = Number(3);
/// Row 4: the event is not in its phase.
pub const PHASE: Number = Number(4);
/// Row 5: the message's length.
pub const LENGTH: Number = Number(5);
/// Row 6: a node not below N.
pub const NODE: Number = Number(6);
/// Row 7: the view's number or the members mask.
pub const VIEW: Number = Number(7);
/// Row 8: a next index.
pub const NEXT: Number = Number(8);
/// Row 9: a kind that the message cannot have, or a word 2 that should be zero.
pub const KIND: Number = Number(9);
/// After row 9: a shard from S up.
pub const SHARD_NUMBER: Number = Number(16);
/// After row 16: wrong sequence, a repeat, a missing or a surplus
/// record.
pub const SEQUENCE: Number = Number(17);
/// Row 10: a shard's members mask.
pub const SHARD: Number = Number(10);
/// Row 11: a position, a run or a holder.
pub const POSITION: Number = Number(11);
/// After row 11: a smaller view than the node reported earlier.
pub const WENT_BACK: Number = Number(18);
/// Row 12: the kept number with other masks.
pub const OTHER_MASKS: Number = Number(12);
/// Row 13: another termination of the kept view.
pub const OTHER_TERMINATION: Number = Number(13);
/// Row 14: a node that is not held, or is marked already.
pub const NOT_HELD: Number = Number(14);
/// Before row 5: a flat length that its counts do not explain, or
/// a termination word above 1.
pub const FLAT_LENGTH: Number = Number(19);
/// After row 19: a triple with count 0.
pub const ZERO_COUNT: Number = Number(20);
/// After row 20: a result over 128 records.
pub const TOO_MANY: Number = Number(21);
/// Games and sheets, after row 4: more nodes or rounds than there may
/// be, or a held bit from N up.
pub const TOO_LARGE: Number = Number(22);
/// After row 22: no kept view, or a slot that would not be
/// sound if its node were held.
pub const NOT_READY: Number = Number(23);
/// mondays: a line of the moves file out of sequence or cut short.
pub const LINE: Number = Number(24);
/// mondays: more moves than a restart has.
pub const MOVES: Number = Number(25);

/// Refuses with `number` if the row's condition `bad` holds.
pub fn refuse_if(bad: bool, number: Number) -> Result<(), Number> {
    if bad {
        Err(number)
    } else {
        Ok(())
    }
}

/// Refuses with `number` at a record, if there is a bad one.
pub fn refuse_at(index: Option<usize>, number: Number) -> Result<(), Refusal> {
    match index {
        None => Ok(()),
        Some(index) => Err(Refusal {
            number,
            index: Some(index as u32),
        }),
    }
}
