//! A stand-in for the library, made of the reference. Its faithful form tests
//! the harness; the tests put unfaithful forms in its place, to show that the
//! harness finds them.

use crate::calls::{self, Asked, Kind, Outcome, Table};
use crate::expected::{self, Expected};
use crate::functions::{Arguments, BehindGames, BehindLibrary, BehindPlanner};
use crate::functions::{Game, Games, Library, Planner};
use crate::open_views::{self, Question};
use crate::{games, planner_functions};
use reference::message::Form;
use std::marker::PhantomData;
use std::slice::{from_raw_parts, from_raw_parts_mut};

/// What a stand-in does. `buffer` is the length in bytes.
pub trait Behaviour {
    fn check_settings(settings: &[u8]) -> u32 {
        expected::check_settings(settings)
    }
    fn read(form: Form, settings: &[u8], message: &[u8], buffer: usize) -> Expected {
        expected::read(form, settings, message, buffer)
    }
    fn write(form: Form, settings: &[u8], contents: &[u8], buffer: usize) -> Expected {
        expected::write(form, settings, contents, buffer)
    }
    fn from_flat(settings: &[u8], flat: &[u8], buffer: usize) -> Expected {
        expected::from_flat(settings, flat, buffer)
    }
    fn to_flat(settings: &[u8], message: &[u8], buffer: usize) -> Expected {
        expected::to_flat(settings, message, buffer)
    }
    fn open_view(question: &Question) -> u32 {
        open_views::expected(question)
    }
    fn event(asked: &Asked) -> Outcome {
        calls::expected(asked)
    }
    fn game(asked: &games::Asked) -> u32 {
        games::expected(asked)
    }
}

/// Does what the reference does.
pub struct Faithful;

impl Behaviour for Faithful {}

/// What stands behind a stand-in's functions.
struct Behind<B>(PhantomData<B>);

/// The table of functions of a stand-in.
pub fn library<B: Behaviour>() -> Library {
    Library::of::<Behind<B>>()
}

/// The table of a stand-in's events.
pub fn planner<B: Behaviour>() -> Planner {
    Planner::of::<Behind<B>>()
}

/// A stand-in's game.
pub fn game<B: Behaviour>() -> Game {
    Games::of::<Behind<B>>().game
}

/// The bytes lent to a call at a place.
unsafe fn lent<'a>(at: *const u8, length: usize) -> &'a [u8] {
    from_raw_parts(at, length)
}

/// A call of a reader, writer or converter: by settings, what is read and the
/// length of what may be written.
unsafe fn converted(given: &Arguments, by: impl Fn(&[u8], &[u8], usize) -> Expected) -> u32 {
    let settings = lent(given.settings, given.settings_len);
    let input = lent(given.message, given.message_len);
    let expected = by(settings, input, given.buffer_len);
    if let Some(output) = expected.output {
        from_raw_parts_mut(given.buffer, output.len()).copy_from_slice(&output);
    }
    expected.answer
}

impl<B: Behaviour> BehindLibrary for Behind<B> {
    unsafe fn check_settings(given: &Arguments) -> u32 {
        B::check_settings(lent(given.settings, given.settings_len))
    }
    unsafe fn read_report(given: &Arguments) -> u32 {
        converted(given, |s, i, b| B::read(Form::Report, s, i, b))
    }
    unsafe fn read_order(given: &Arguments) -> u32 {
        converted(given, |s, i, b| B::read(Form::Order, s, i, b))
    }
    unsafe fn write_report(given: &Arguments) -> u32 {
        converted(given, |s, i, b| B::write(Form::Report, s, i, b))
    }
    unsafe fn write_order(given: &Arguments) -> u32 {
        converted(given, |s, i, b| B::write(Form::Order, s, i, b))
    }
    unsafe fn from_flat(given: &Arguments) -> u32 {
        converted(given, B::from_flat)
    }
    unsafe fn to_flat(given: &Arguments) -> u32 {
        converted(given, B::to_flat)
    }
    unsafe fn open_view(given: &Arguments) -> u32 {
        B::open_view(&Question {
            members: given.members,
            known: given.known,
            have: given.have,
            lack: given.lack,
            passed: given.passed,
        })
    }
}

/// The settings, state and desk of a call.
unsafe fn table(given: &Arguments) -> Table {
    Table {
        settings: lent(given.settings, given.settings_len).to_vec(),
        state: lent(given.state, given.state_len).to_vec(),
        desk: lent(given.desk, given.desk_len).to_vec(),
    }
}

unsafe fn event<B: Behaviour>(kind: Kind, given: &Arguments) -> u32 {
    let asked = Asked {
        role: given.role,
        kind,
        table: table(given),
        message: lent(given.message, given.message_len).to_vec(),
        node: given.number,
        buffer: lent(given.buffer, given.buffer_len).to_vec(),
    };
    let outcome = B::event(&asked);
    leave(given.state, &asked.table.state, &outcome.state);
    leave(given.desk, &asked.table.desk, &outcome.desk);
    leave(given.buffer, &asked.buffer, &outcome.buffer);
    outcome.answer
}

/// Writes what has changed. Only an unfaithful stand-in changes what it may
/// only read.
unsafe fn leave(at: *mut u8, before: &[u8], after: &[u8]) {
    if before != after {
        std::ptr::copy_nonoverlapping(after.as_ptr(), at, after.len());
    }
}

macro_rules! events {
    ($($kind:ident $name:ident($($given:tt)*);)*) => {
        impl<B: Behaviour> BehindPlanner for Behind<B> {
            $(
                unsafe fn $name(given: &Arguments) -> u32 {
                    event::<B>(Kind::$kind, given)
                }
            )*
        }
    };
}

planner_functions!(events);

impl<B: Behaviour> BehindGames for Behind<B> {
    unsafe fn game(given: &Arguments) -> u32 {
        B::game(&games::Asked {
            role: given.role,
            table: table(given),
            held: given.number,
            rounds: given.rounds,
        })
    }
}
