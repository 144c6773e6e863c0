//! The calls that are measured, each ready to be made again and again.

use differential::calls::Kind;
use differential::library::{self, Arguments, Library, Planner};
use peer::inputs::Input;
use reference::message::{self, Form};
use reference::roles::{Role, PLANNER};
use reference::{events, page, preview, rounds, settings, words};
use std::hint::black_box;

#[derive(Clone, Copy, Debug, PartialEq, Eq)]
pub enum Call {
    Fresh,
    CheckState,
    Report,
    Drop,
    Decide,
    Order,
    Fetched,
    Prepared,
    Preview,
    PreviewAll,
    DecideWithin,
    /// check_state of what decide meets.
    CheckGathered,
    Page,
    CheckSettings,
    ReadReport,
    ReadOrder,
    WriteReport,
    WriteOrder,
}

impl Call {
    pub const EVENTS: [Call; 7] = [
        Call::CheckState,
        Call::Report,
        Call::Drop,
        Call::Decide,
        Call::Order,
        Call::Fetched,
        Call::Prepared,
    ];
    pub const PREVIEWS: [Call; 2] = [Call::Preview, Call::PreviewAll];
    pub const MESSAGES: [Call; 5] = [
        Call::CheckSettings,
        Call::ReadReport,
        Call::ReadOrder,
        Call::WriteReport,
        Call::WriteOrder,
    ];

    pub fn all() -> Vec<Call> {
        let mut all = vec![Call::Fresh];
        all.extend(Call::EVENTS);
        all.extend(Call::PREVIEWS);
        all.push(Call::DecideWithin);
        all.push(Call::Page);
        all.extend(Call::MESSAGES);
        all
    }

    /// The planner's function; none of a reader, a writer or the settings' check.
    fn kind(self) -> Option<Kind> {
        match self {
            Call::Fresh => Some(Kind::Fresh),
            Call::CheckState | Call::CheckGathered => Some(Kind::CheckState),
            Call::Report => Some(Kind::Report),
            Call::Drop => Some(Kind::Drop),
            Call::Decide => Some(Kind::Decide),
            Call::Order => Some(Kind::Order),
            Call::Fetched => Some(Kind::Fetched),
            Call::Prepared => Some(Kind::Prepared),
            Call::Preview => Some(Kind::Preview),
            Call::PreviewAll => Some(Kind::PreviewAll),
            Call::DecideWithin => Some(Kind::DecideWithin),
            Call::Page => Some(Kind::Page),
            _ => None,
        }
    }

    /// The name of the C function, without its prefix.
    pub fn name(self) -> &'static str {
        match self {
            Call::CheckGathered => "check_gathered",
            Call::CheckSettings => "check_settings",
            Call::ReadReport => "read_report",
            Call::ReadOrder => "read_order",
            Call::WriteReport => "write_report",
            Call::WriteOrder => "write_order",
            event => event.kind().map_or("", Kind::name),
        }
    }

    /// The state that the call meets.
    fn state(self, input: &Input) -> &[u32] {
        match self {
            Call::CheckState | Call::Order | Call::Fetched => &input.ordered,
            Call::Prepared => &input.preparing,
            _ => &input.gathered,
        }
    }

    /// The message of a reader or of the report event, the contents of a writer.
    fn given(self, input: &Input, node: u32) -> &[u32] {
        match self {
            Call::Report => &input.messages[node as usize],
            Call::ReadReport => &input.messages[0],
            Call::ReadOrder => &input.order,
            Call::WriteReport => &input.report_contents,
            Call::WriteOrder => &input.order_contents,
            _ => &[],
        }
    }
}

/// How many calls can be made one after another before their states are
/// restored.
pub const CALLS: usize = 8;

/// A call of a planner with memory of its own.
pub struct Ready {
    call: Call,
    /// The node, the subgroup of a page, or the rounds of decide_within.
    node: u32,
    planner: Planner,
    library: Library,
    settings: Vec<u8>,
    before: Vec<u8>,
    states: [Vec<u8>; CALLS],
    desk: Vec<u8>,
    given: Vec<u8>,
    buffer: Vec<u8>,
}

impl Ready {
    pub fn new(call: Call, input: &Input, node: u32) -> Ready {
        Ready::of(library::tested_planner(), call, input, node)
    }

    /// An event of some planner.
    pub fn of(planner: Planner, call: Call, input: &Input, node: u32) -> Ready {
        let state = words::to_bytes(call.state(input));
        Ready {
            call,
            node,
            planner,
            library: library::tested(),
            settings: words::to_bytes(&input.settings),
            states: [(); CALLS].map(|()| state.clone()),
            before: state,
            desk: words::to_bytes(&input.desk),
            given: words::to_bytes(call.given(input, node)),
            buffer: vec![0; 2048],
        }
    }

    /// The same after a drop of the node.
    pub fn without_node(mut self) -> Ready {
        let call = std::mem::replace(&mut self.call, Call::Drop);
        assert_eq!(self.make(), 0, "a held node");
        self.call = call;
        self.before.clone_from(&self.states[0]);
        self.restore();
        self
    }

    /// Makes the states what they were. A report leaves the desk as it is, for
    /// it brings what the slot has.
    pub fn restore(&mut self) {
        for state in &mut self.states {
            state.copy_from_slice(&self.before);
        }
    }

    pub fn desk(&self) -> &[u8] {
        &self.desk
    }

    /// Whether the last call was accepted. A preview may wait, and so may a decide
    /// without the node.
    pub fn accepted(&self, answer: u32) -> bool {
        let most = match self.call {
            Call::Preview | Call::Decide => library::VIEW,
            _ => library::WAIT,
        };
        answer == 0 || (library::ACCEPTED..most).contains(&answer)
    }

    /// The first word of the buffer.
    pub fn first_word(&self) -> u32 {
        words::whole_words(&self.buffer)[0]
    }

    pub fn make(&mut self) -> u32 {
        self.make_on(0)
    }

    /// Makes the call once on each state and gives the last answer.
    pub fn make_all(&mut self) -> u32 {
        let answers = (0..CALLS).map(|index| self.make_on(index));
        answers.last().unwrap_or(0)
    }

    fn make_on(&mut self, index: usize) -> u32 {
        let state = &mut self.states[index];
        let given = Arguments {
            role: PLANNER,
            settings: self.settings.as_ptr(),
            settings_len: self.settings.len(),
            state: state.as_mut_ptr(),
            state_len: state.len(),
            desk: self.desk.as_mut_ptr(),
            desk_len: self.desk.len(),
            message: self.given.as_ptr(),
            message_len: self.given.len(),
            buffer: self.buffer.as_mut_ptr(),
            buffer_len: self.buffer.len(),
            number: self.node,
            ..Arguments::NOTHING
        };
        // SAFETY: the pointers are to this value's own memory of those lengths.
        unsafe {
            match self.call.kind() {
                Some(kind) => self.planner.call(kind, &given),
                None => self.message(&given),
            }
        }
    }

    /// Reads or writes a message, or checks the settings.
    unsafe fn message(&self, given: &Arguments) -> u32 {
        let library = &self.library;
        let convert = match self.call {
            Call::ReadReport => library.read_report,
            Call::ReadOrder => library.read_order,
            Call::WriteReport => library.write_report,
            Call::WriteOrder => library.write_order,
            _ => return (library.check_settings)(given.settings, given.settings_len),
        };
        let (message, buffer) = (given.message, given.buffer);
        convert(
            given.settings,
            given.settings_len,
            message,
            given.message_len,
            buffer,
            given.buffer_len,
        )
    }
}

/// The same by the reference, on words.
pub fn by_reference(call: Call, input: &Input, node: u32) {
    let (settings, state, desk) = (&input.settings, call.state(input), &input.desk);
    let given = call.given(input, node);
    let role = Role::Planner;
    let read = |form| drop(black_box(message::read(form, settings, given)));
    let write = |form| {
        let contents = differential::expected::words_contents(given).expect("contents");
        drop(black_box(message::write(form, settings, &contents, 512)));
    };
    match call {
        Call::Fresh => drop(black_box(reference::state::fresh())),
        Call::CheckState => drop(black_box(events::check(role, settings, state, desk))),
        Call::CheckGathered => drop(black_box(events::check(role, settings, state, desk))),
        Call::Report => drop(black_box(events::report(
            role, settings, state, desk, given,
        ))),
        Call::Drop => drop(black_box(events::drop_node(
            role, settings, state, desk, node,
        ))),
        Call::Decide => drop(black_box(events::decide(role, settings, state, desk))),
        Call::Order => drop(black_box(events::order(
            role, settings, state, desk, node, 512,
        ))),
        Call::Fetched => drop(black_box(events::fetched(
            role, settings, state, desk, node,
        ))),
        Call::Prepared => drop(black_box(events::prepared(
            role, settings, state, desk, node,
        ))),
        Call::Preview => drop(black_box(preview::preview(
            role, settings, state, desk, node,
        ))),
        Call::PreviewAll => drop(black_box(preview::losses(role, settings, state, desk))),
        Call::DecideWithin => drop(black_box(rounds::rounds(role, settings, state, desk, node))),
        Call::Page => {
            let page = page::page(role, settings, state, desk, node, 512);
            drop(black_box(page));
        }
        Call::CheckSettings => drop(black_box(settings::parse(settings))),
        Call::ReadReport => read(Form::Report),
        Call::ReadOrder => read(Form::Order),
        Call::WriteReport => write(Form::Report),
        Call::WriteOrder => write(Form::Order),
    }
}
