//! The library's C functions, each once: its name and its parameters.
//!
//! A table hands its rows, after what it is given, to a macro that makes
//! something of them: types (here), the proved library's functions
//! (`library::tested`), a stand-in's (`mock`), the peer's (../../peer). Every
//! slice is a pointer and then a length in bytes.

use crate::calls::Kind;
use std::ptr::{dangling, dangling_mut};

/// The planner's events, pages, previews and decisions by rounds. `number` is a
/// node, the subgroup of a page, or rounds.
#[macro_export]
macro_rules! planner_functions {
    ($then:ident $($given:tt)*) => {
        $then! {
            $($given)*
            Fresh fresh(role: u32, state: *mut u8, state_len: usize);
            CheckState check_state(
                role: u32, settings: *const u8, settings_len: usize,
                state: *const u8, state_len: usize, desk: *const u8, desk_len: usize,
            );
            Report report(
                role: u32, settings: *const u8, settings_len: usize,
                state: *mut u8, state_len: usize, desk: *mut u8, desk_len: usize,
                message: *const u8, message_len: usize,
            );
            Drop drop(
                role: u32, settings: *const u8, settings_len: usize,
                state: *mut u8, state_len: usize, desk: *const u8, desk_len: usize,
                number: u32,
            );
            Decide decide(
                role: u32, settings: *const u8, settings_len: usize,
                state: *mut u8, state_len: usize, desk: *const u8, desk_len: usize,
            );
            Order order(
                role: u32, settings: *const u8, settings_len: usize,
                state: *const u8, state_len: usize, desk: *const u8, desk_len: usize,
                number: u32, buffer: *mut u8, buffer_len: usize,
            );
            Fetched fetched(
                role: u32, settings: *const u8, settings_len: usize,
                state: *mut u8, state_len: usize, desk: *const u8, desk_len: usize,
                number: u32,
            );
            Prepared prepared(
                role: u32, settings: *const u8, settings_len: usize,
                state: *mut u8, state_len: usize, desk: *const u8, desk_len: usize,
                number: u32,
            );
            Page page(
                role: u32, settings: *const u8, settings_len: usize,
                state: *const u8, state_len: usize, desk: *const u8, desk_len: usize,
                number: u32, buffer: *mut u8, buffer_len: usize,
            );
            Preview preview(
                role: u32, settings: *const u8, settings_len: usize,
                state: *const u8, state_len: usize, desk: *const u8, desk_len: usize,
                number: u32, buffer: *mut u8, buffer_len: usize,
            );
            PreviewAll preview_all(
                role: u32, settings: *const u8, settings_len: usize,
                state: *const u8, state_len: usize, desk: *const u8, desk_len: usize,
                buffer: *mut u8, buffer_len: usize,
            );
            DecideWithin decide_within(
                role: u32, settings: *const u8, settings_len: usize,
                state: *mut u8, state_len: usize, desk: *const u8, desk_len: usize,
                number: u32,
            );
        }
    };
}

/// The functions on settings, messages and open views. `message` is what is
/// read: a message, contents or a flat report.
#[macro_export]
macro_rules! library_functions {
    ($then:ident $($given:tt)*) => {
        $then! {
            $($given)*
            CheckSettings check_settings(settings: *const u8, settings_len: usize);
            ReadReport read_report(
                settings: *const u8, settings_len: usize, message: *const u8, message_len: usize,
                buffer: *mut u8, buffer_len: usize,
            );
            ReadOrder read_order(
                settings: *const u8, settings_len: usize, message: *const u8, message_len: usize,
                buffer: *mut u8, buffer_len: usize,
            );
            WriteReport write_report(
                settings: *const u8, settings_len: usize, message: *const u8, message_len: usize,
                buffer: *mut u8, buffer_len: usize,
            );
            WriteOrder write_order(
                settings: *const u8, settings_len: usize, message: *const u8, message_len: usize,
                buffer: *mut u8, buffer_len: usize,
            );
            FromFlat from_flat(
                settings: *const u8, settings_len: usize, message: *const u8, message_len: usize,
                buffer: *mut u8, buffer_len: usize,
            );
            ToFlat to_flat(
                settings: *const u8, settings_len: usize, message: *const u8, message_len: usize,
                buffer: *mut u8, buffer_len: usize,
            );
            OpenView open_view(members: u32, known: u32, have: u32, lack: u32, passed: u32);
        }
    };
}

/// Outage against crew: `number` is the mask of held nodes.
#[macro_export]
macro_rules! game_functions {
    ($then:ident $($given:tt)*) => {
        $then! {
            $($given)*
            Game game(
                role: u32, settings: *const u8, settings_len: usize,
                state: *const u8, state_len: usize, desk: *const u8, desk_len: usize,
                number: u32, rounds: u32,
            );
        }
    };
}

/// All that a call may be given. What its function does not take stays unused.
#[derive(Clone, Copy, Debug)]
pub struct Arguments {
    pub role: u32,
    pub settings: *const u8,
    pub settings_len: usize,
    pub state: *mut u8,
    pub state_len: usize,
    pub desk: *mut u8,
    pub desk_len: usize,
    pub message: *const u8,
    pub message_len: usize,
    pub buffer: *mut u8,
    pub buffer_len: usize,
    pub number: u32,
    pub rounds: u32,
    pub members: u32,
    pub known: u32,
    pub have: u32,
    pub lack: u32,
    pub passed: u32,
}

impl Arguments {
    pub const NOTHING: Arguments = Arguments {
        role: 0,
        settings: dangling(),
        settings_len: 0,
        state: dangling_mut(),
        state_len: 0,
        desk: dangling_mut(),
        desk_len: 0,
        message: dangling(),
        message_len: 0,
        buffer: dangling_mut(),
        buffer_len: 0,
        number: 0,
        rounds: 0,
        members: 0,
        known: 0,
        have: 0,
        lack: 0,
        passed: 0,
    };
}

/// No call of the library answers with this word.
pub const ABSENT: u32 = u32::MAX;

/// A table of functions, what stands behind such a table, and the table of that.
macro_rules! table {
    (
        $(#[$about:meta])* $table:ident of $behind:ident
        $($kind:ident $name:ident($($given:ident: $type:ty),* $(,)?);)*
    ) => {
        $(#[$about])*
        #[derive(Clone, Copy)]
        pub struct $table {
            $(pub $name: unsafe extern "C" fn($($type),*) -> u32,)*
        }

        /// What stands behind such functions; what it does not do is absent.
        pub trait $behind {
            $(
                /// # Safety
                /// The pointers are to memory of those lengths.
                unsafe fn $name(_: &Arguments) -> u32 {
                    ABSENT
                }
            )*
        }

        impl $table {
            pub fn of<B: $behind>() -> $table {
                $(
                    unsafe extern "C" fn $name<B: $behind>($($given: $type),*) -> u32 {
                        B::$name(&Arguments {
                            $($given: $given as _,)*
                            ..Arguments::NOTHING
                        })
                    }
                )*
                $table {
                    $($name: $name::<B>,)*
                }
            }
        }
    };
}

planner_functions! { table
    /// The planner's events, previews, decisions by rounds and the pages of
    /// subgroups.
    Planner of BehindPlanner
}

library_functions! { table
    /// The functions on settings, messages and open views.
    Library of BehindLibrary
}

game_functions! { table
    /// Outage against crew.
    Games of BehindGames
}

macro_rules! called {
    ($($kind:ident $name:ident($($given:ident: $type:ty),* $(,)?);)*) => {
        impl Planner {
            /// Makes a call.
            ///
            /// # Safety
            /// The pointers are to memory of those lengths.
            #[inline]
            pub unsafe fn call(&self, kind: Kind, arguments: &Arguments) -> u32 {
                match kind {
                    $(Kind::$kind => (self.$name)($(arguments.$given),*),)*
                }
            }
        }

        impl Kind {
            /// The name of the C function, without its prefix.
            pub fn name(self) -> &'static str {
                match self {
                    $(Kind::$kind => stringify!($name),)*
                }
            }
        }
    };
}

planner_functions!(called);

macro_rules! types {
    ($($kind:ident $name:ident($($given:ident: $type:ty),* $(,)?);)*) => {
        $(
            #[doc = concat!("The function `", stringify!($name), "`.")]
            pub type $kind = unsafe extern "C" fn($($type),*) -> u32;
        )*
    };
}

game_functions!(types);

/// A function of settings, an input and a buffer to be written.
pub type Convert = unsafe extern "C" fn(*const u8, usize, *const u8, usize, *mut u8, usize) -> u32;

/// The functions of a linked library whose names begin and end in some way, as a
/// module. Those that are not there must not be used.
#[macro_export]
macro_rules! linked_functions {
    (
        $module:ident $begin:literal $end:literal
        $($kind:ident $name:ident($($given:ident: $type:ty),* $(,)?);)*
    ) => {
        #[allow(dead_code)]
        mod $module {
            extern "C" {
                $(
                    #[link_name = concat!($begin, stringify!($name), $end)]
                    pub fn $name($($given: $type),*) -> u32;
                )*
            }
        }
    };
}
