//! One call of an event with all that is lent to it: what the reference says of
//! it, the call itself, and the comparison of the two.

use crate::lent::{Lent, Place};
use crate::library::{Answer, Arguments, Planner, ACCEPTED, PLAN, WAIT};
use reference::desk::DESK_WORDS;
use reference::events::{self, Decision};
use reference::message::MOST_WORDS;
use reference::number::{self, refuse_if, Refusal};
use reference::order::{self, Choice};
use reference::page;
use reference::preview;
use reference::roles::Role;
use reference::rounds::{self, Way};
use reference::state::STATE_WORDS;
use reference::words;

pub const STATE_BYTES: usize = 4 * STATE_WORDS;
pub const DESK_BYTES: usize = 4 * DESK_WORDS;
pub const BUFFER_BYTES: usize = 4 * MOST_WORDS;

#[derive(Clone, Copy, Debug, PartialEq, Eq, PartialOrd, Ord)]
pub enum Kind {
    Fresh,
    CheckState,
    Report,
    Drop,
    Decide,
    Order,
    Fetched,
    Prepared,
    Page,
    Preview,
    PreviewAll,
    DecideWithin,
}

impl Kind {
    /// The operations that a restart is made of, which are the planner's.
    pub const EVENTS: [Kind; 8] = [
        Kind::Fresh,
        Kind::CheckState,
        Kind::Report,
        Kind::Drop,
        Kind::Decide,
        Kind::Order,
        Kind::Fetched,
        Kind::Prepared,
    ];

    /// Every call.
    pub const ALL: [Kind; 12] = [
        Kind::Fresh,
        Kind::CheckState,
        Kind::Report,
        Kind::Drop,
        Kind::Decide,
        Kind::Order,
        Kind::Fetched,
        Kind::Prepared,
        Kind::Page,
        Kind::Preview,
        Kind::PreviewAll,
        Kind::DecideWithin,
    ];

    /// Whether the call changes neither state nor desk.
    pub fn reads(self) -> bool {
        matches!(
            self,
            Kind::CheckState | Kind::Order | Kind::Page | Kind::Preview | Kind::PreviewAll
        )
    }

    /// Whether the call takes a node, a page's subgroup, or rounds.
    pub fn takes_node(self) -> bool {
        matches!(
            self,
            Kind::Drop
                | Kind::Order
                | Kind::Fetched
                | Kind::Prepared
                | Kind::Page
                | Kind::Preview
                | Kind::DecideWithin
        )
    }
}

/// Settings, state and desk as bytes.
#[derive(Clone, Debug, PartialEq, Eq)]
pub struct Table {
    pub settings: Vec<u8>,
    pub state: Vec<u8>,
    pub desk: Vec<u8>,
}

/// A call. What its kind does not take stays unused.
#[derive(Clone, Debug)]
pub struct Asked {
    /// The word of the caller's role.
    pub role: u32,
    pub kind: Kind,
    pub table: Table,
    pub message: Vec<u8>,
    /// The node, the subgroup of a page, or the rounds of decide_within.
    pub node: u32,
    /// What the buffer holds before the call.
    pub buffer: Vec<u8>,
}

/// What a call answers, and what is lent to be written afterwards.
#[derive(Clone, Debug, PartialEq, Eq)]
pub struct Outcome {
    pub answer: u32,
    pub state: Vec<u8>,
    pub desk: Vec<u8>,
    pub buffer: Vec<u8>,
}

impl Outcome {
    /// Nothing changes.
    pub fn unchanged(asked: &Asked, answer: u32) -> Outcome {
        Outcome {
            answer,
            state: asked.table.state.clone(),
            desk: asked.table.desk.clone(),
            buffer: asked.buffer.clone(),
        }
    }

    pub fn answer(&self) -> Answer {
        Answer::of(self.answer)
    }
}

/// The answer word of a wait.
pub fn wait_word(reason: u32, value: Option<u32>) -> u32 {
    WAIT + 256 * reason + value.unwrap_or(0)
}

/// The answer word of a decision.
fn decision_word(decision: Decision) -> u32 {
    match decision {
        Decision::Plan => PLAN,
        Decision::Wait(wait) => wait_word(wait.reason(), wait.value()),
    }
}

/// What the reference says of a call.
pub fn expected(asked: &Asked) -> Outcome {
    expected_by(order::greedy, asked)
}

/// What the reference says of a call, where `choice` finds each subgroup's
/// placement.
pub fn expected_by(choice: Choice, asked: &Asked) -> Outcome {
    let mut outcome = Outcome::unchanged(asked, 0);
    if let Err(refusal) = put_expected(choice, asked, &mut outcome) {
        outcome.answer = refusal.word();
    }
    outcome
}

/// What the reference says of a decision by rounds, where `way` finds the
/// placements.
pub fn expected_within(way: Way, asked: &Asked) -> Outcome {
    let mut outcome = Outcome::unchanged(asked, 0);
    if let Err(refusal) = put_within(way, asked, &mut outcome) {
        outcome.answer = refusal.word();
    }
    outcome
}

fn put_within(way: Way, asked: &Asked, outcome: &mut Outcome) -> Result<(), Refusal> {
    let Table {
        settings,
        state,
        desk,
    } = &asked.table;
    let (settings, state, desk) = (&whole(settings), &whole(state), &whole(desk));
    let role = Role::of(asked.role);
    let reached = rounds::rounds_by(way, role, settings, state, desk, asked.node)?;
    outcome.answer = decision_word(reached.decision) + reached.gap;
    outcome.state = words::to_bytes(&reached.state);
    Ok(())
}

/// A part word makes a length wrong, and so do no words: the reference gets
/// none instead.
fn whole(bytes: &[u8]) -> Vec<u32> {
    words::from_bytes(bytes).unwrap_or_default()
}

fn put_expected(choice: Choice, asked: &Asked, outcome: &mut Outcome) -> Result<(), Refusal> {
    let role = Role::of(asked.role);
    let settings = &whole(&asked.table.settings);
    let state = &whole(&asked.table.state);
    let desk = &whole(&asked.table.desk);
    let next = match asked.kind {
        Kind::Fresh => events::fresh(role, state.len())?,
        Kind::CheckState => return Ok(events::check(role, settings, state, desk)?),
        Kind::Report => {
            let message = whole(&asked.message);
            let (state, desk) = events::report(role, settings, state, desk, &message)?;
            outcome.desk = words::to_bytes(&desk);
            state
        }
        Kind::Drop => events::drop_node(role, settings, state, desk, asked.node)?,
        Kind::Fetched => events::fetched(role, settings, state, desk, asked.node)?,
        Kind::Prepared => events::prepared(role, settings, state, desk, asked.node)?,
        Kind::Order => {
            let buffer = whole(&asked.buffer).len();
            let order = events::order(role, settings, state, desk, asked.node, buffer)?;
            outcome.answer = ACCEPTED + order.len() as u32;
            outcome.buffer = words::to_bytes(&words::padded(&order, MOST_WORDS));
            return Ok(());
        }
        Kind::Page => {
            let buffer = whole(&asked.buffer).len();
            let page = page::page_by(choice, role, settings, state, desk, asked.node, buffer)?;
            outcome.answer = ACCEPTED + page.len() as u32;
            outcome.buffer = words::to_bytes(&words::padded(&page, MOST_WORDS));
            return Ok(());
        }
        Kind::Preview => {
            let buffer = whole(&asked.buffer).len();
            refuse_if(buffer != MOST_WORDS, number::LENT_LENGTH)?;
            let (decision, copy) =
                preview::preview_by(choice, role, settings, state, desk, asked.node)?;
            outcome.answer = decision_word(decision);
            outcome.buffer = words::to_bytes(&words::padded(&copy, MOST_WORDS));
            return Ok(());
        }
        Kind::PreviewAll => {
            let buffer = whole(&asked.buffer).len();
            refuse_if(buffer != MOST_WORDS, number::LENT_LENGTH)?;
            let lost = preview::losses_by(choice, role, settings, state, desk)?;
            outcome.answer = ACCEPTED + 1;
            outcome.buffer = words::to_bytes(&words::padded(&[lost], MOST_WORDS));
            return Ok(());
        }
        Kind::DecideWithin => return put_within(rounds::GREEDY, asked, outcome),
        Kind::Decide => {
            let (decision, state) = events::decide_by(choice, role, settings, state, desk)?;
            outcome.answer = decision_word(decision);
            state
        }
    };
    outcome.state = words::to_bytes(&next);
    Ok(())
}

/// The pages from which a call's memory is lent.
pub struct Pages {
    settings: Lent,
    state: Lent,
    desk: Lent,
    message: Lent,
    buffer: Lent,
    /// Whether what a call may only read is made unwritable and pieces lie
    /// against the ends of their pages, so that a fault ends the program. Else
    /// faults are found afterwards by looking at the bytes.
    strict: bool,
}

impl Pages {
    pub fn new(strict: bool) -> Pages {
        Pages {
            settings: Lent::new(4096),
            state: Lent::new(4096),
            desk: Lent::new(DESK_BYTES + 4096),
            message: Lent::new(8192),
            buffer: Lent::new(4096),
            strict,
        }
    }

    fn all(&mut self) -> [&mut Lent; 5] {
        let Pages {
            settings,
            state,
            desk,
            message,
            buffer,
            ..
        } = self;
        [settings, state, desk, message, buffer]
    }

    fn put(&mut self, asked: &Asked, places: [Place; 5]) {
        let Table {
            settings,
            state,
            desk,
        } = &asked.table;
        let given = [settings, state, desk, &asked.message, &asked.buffer];
        let strict = self.strict;
        for ((lent, bytes), place) in self.all().into_iter().zip(given).zip(places) {
            lent.put(bytes, if strict { place } else { Place::After(13) });
        }
    }

    /// What the call may only read.
    fn constant(&mut self, kind: Kind) -> Vec<&mut Lent> {
        let [settings, state, desk, message, _] = self.all();
        let mut constant = vec![settings, message];
        if kind.reads() {
            constant.push(state);
        }
        if kind != Kind::Report {
            constant.push(desk);
        }
        constant
    }
}

/// Calls the planner. Gives its answer and what it left, or says that something
/// else was changed.
pub fn call(
    planner: &Planner,
    pages: &mut Pages,
    asked: &Asked,
    places: [Place; 5],
) -> Result<Outcome, String> {
    pages.put(asked, places);
    let strict = pages.strict;
    if strict {
        let constant = pages.constant(asked.kind);
        constant.into_iter().for_each(Lent::seal);
    }
    let answer = call_lent(planner, pages, asked);
    if strict {
        let constant = pages.constant(asked.kind);
        constant.into_iter().for_each(Lent::unseal);
    }
    for lent in pages.all() {
        if !lent.guards_whole() {
            lent.mend();
            return Err("bytes outside the ends were changed".into());
        }
    }
    let outcome = Outcome {
        answer,
        state: pages.state.bytes().to_vec(),
        desk: pages.desk.bytes().to_vec(),
        buffer: pages.buffer.bytes().to_vec(),
    };
    let settings_same = pages.settings.bytes() == asked.table.settings;
    if !settings_same || pages.message.bytes() != asked.message {
        return Err("settings or message were changed".into());
    }
    Ok(outcome)
}

fn call_lent(planner: &Planner, pages: &mut Pages, asked: &Asked) -> u32 {
    let [settings, state, desk, message, buffer] =
        pages.all().map(|lent| (lent.pointer(), lent.length()));
    let arguments = Arguments {
        role: asked.role,
        settings: settings.0,
        settings_len: settings.1,
        state: state.0,
        state_len: state.1,
        desk: desk.0,
        desk_len: desk.1,
        message: message.0,
        message_len: message.1,
        number: asked.node,
        buffer: buffer.0,
        buffer_len: buffer.1,
        ..Arguments::NOTHING
    };
    // SAFETY: the pointers are to lent memory of those lengths, disjoint.
    unsafe { planner.call(asked.kind, &arguments) }
}

/// Compares one call with the reference: answer, state, desk, buffer and all
/// that may not change. Gives what the planner left, or what differs.
pub fn compare(
    planner: &Planner,
    pages: &mut Pages,
    asked: &Asked,
    places: [Place; 5],
) -> Result<Outcome, String> {
    compare_with(&expected(asked), planner, pages, asked, places)
}

/// Compares one call with what is expected of it.
pub fn compare_with(
    expected: &Outcome,
    planner: &Planner,
    pages: &mut Pages,
    asked: &Asked,
    places: [Place; 5],
) -> Result<Outcome, String> {
    let outcome = call(planner, pages, asked, places)?;
    if outcome.answer != expected.answer {
        return Err(format!(
            "the answer is {}, the reference says {}",
            outcome.answer(),
            expected.answer()
        ));
    }
    if outcome.state != expected.state {
        return Err(differing("state", &outcome.state, &expected.state));
    }
    if outcome.desk != expected.desk {
        return Err(differing("desk", &outcome.desk, &expected.desk));
    }
    if outcome.buffer != expected.buffer {
        return Err(differing("buffer", &outcome.buffer, &expected.buffer));
    }
    Ok(outcome)
}

/// Says where two pieces of the same length differ first.
fn differing(name: &str, left: &[u8], wanted: &[u8]) -> String {
    let at = (0..left.len()).find(|&index| left[index] != wanted[index]);
    let word = at.unwrap_or(0) / 4;
    let value = |bytes: &[u8]| words::whole_words(bytes).get(word).copied().unwrap_or(0);
    let (is, wanted) = (value(left), value(wanted));
    format!("word {word} of the {name} is {is}, the reference says {wanted}")
}
