//! The installed library from Rust: a restart of two machines, as in outside.c, whose lines this prints too.

use std::ffi::{c_char, CStr};

extern "C" {
    fn restart_version_text() -> *const c_char;
    fn restart_reason_text(reason: u32) -> *const c_char;
    fn restart_is_wait(answer: u32) -> i32;
    fn restart_reason_of(answer: u32) -> u32;
    fn restart_get_word(bytes: *const u8, index: usize) -> u32;
    fn restart_open_view(members: u32, known: u32, have: u32, lack: u32, passed: u32) -> u32;
    fn restart_view_of(answer: u32) -> u32;
    fn restart_watcher(subgroup: u32) -> u32;
    fn restart_length_of(answer: u32) -> u32;
    fn restart_gap_of(answer: u32) -> u32;
    fn restart_fresh(role: u32, state: *mut u8, state_len: usize) -> u32;
    fn restart_report(
        role: u32,
        settings: *const u8,
        settings_len: usize,
        state: *mut u8,
        state_len: usize,
        desk: *mut u8,
        desk_len: usize,
        message: *const u8,
        message_len: usize,
    ) -> u32;
    fn restart_decide(
        role: u32,
        settings: *const u8,
        settings_len: usize,
        state: *mut u8,
        state_len: usize,
        desk: *const u8,
        desk_len: usize,
    ) -> u32;
    fn restart_decide_within(
        role: u32,
        settings: *const u8,
        settings_len: usize,
        state: *mut u8,
        state_len: usize,
        desk: *const u8,
        desk_len: usize,
        rounds: u32,
    ) -> u32;
    fn restart_preview(
        role: u32,
        settings: *const u8,
        settings_len: usize,
        state: *const u8,
        state_len: usize,
        desk: *const u8,
        desk_len: usize,
        node: u32,
        buffer: *mut u8,
        buffer_len: usize,
    ) -> u32;
    fn restart_preview_all(
        role: u32,
        settings: *const u8,
        settings_len: usize,
        state: *const u8,
        state_len: usize,
        desk: *const u8,
        desk_len: usize,
        buffer: *mut u8,
        buffer_len: usize,
    ) -> u32;
    fn restart_game(
        role: u32,
        settings: *const u8,
        settings_len: usize,
        state: *const u8,
        state_len: usize,
        desk: *const u8,
        desk_len: usize,
        held: u32,
        rounds: u32,
    ) -> u32;
    fn restart_first_of(answer: u32) -> u32;
    fn restart_page(
        role: u32,
        settings: *const u8,
        settings_len: usize,
        state: *const u8,
        state_len: usize,
        desk: *const u8,
        desk_len: usize,
        subgroup: u32,
        buffer: *mut u8,
        buffer_len: usize,
    ) -> u32;
}

const PLANNER: u32 = 256;

/// The text that the library gives.
fn text(found: *const c_char) -> String {
    // The library's texts are constant, end with a zero and are never null.
    unsafe { CStr::from_ptr(found) }
        .to_str()
        .expect("a text of ASCII")
        .to_string()
}

fn bytes(words: &[u32]) -> Vec<u8> {
    words.iter().flat_map(|word| word.to_le_bytes()).collect()
}

fn main() {
    let settings = bytes(&[2, 2, 1, 1, 0, 1, 1]);
    let mut state = [0u8; 640];
    let mut desk = vec![0u8; 65536];
    let mut page = [0u8; 2048];
    // Every piece is lent with its own length, and none overlaps another.
    unsafe {
        assert_eq!(text(restart_version_text()), env!("RESTART_VERSION"));
        assert_eq!(text(restart_reason_text(1)), "no machine has reported");
        assert_eq!(restart_view_of(restart_open_view(7, 0, 5, 2, 0)), 2);
        assert_eq!(restart_fresh(PLANNER, state.as_mut_ptr(), state.len()), 0);
        for node in 0..2 {
            let message = bytes(&[node, 3, 3, 1, 256, 3, 0, 0]);
            let taken = restart_report(
                PLANNER,
                settings.as_ptr(),
                settings.len(),
                state.as_mut_ptr(),
                state.len(),
                desk.as_mut_ptr(),
                desk.len(),
                message.as_ptr(),
                message.len(),
            );
            let all = restart_preview_all(
                PLANNER,
                settings.as_ptr(),
                settings.len(),
                state.as_ptr(),
                state.len(),
                desk.as_ptr(),
                desk.len(),
                page.as_mut_ptr(),
                page.len(),
            );
            let (length, stay) = (restart_length_of(all), restart_get_word(page.as_ptr(), 0));
            let without = restart_preview(
                PLANNER,
                settings.as_ptr(),
                settings.len(),
                state.as_ptr(),
                state.len(),
                desk.as_ptr(),
                desk.len(),
                node,
                page.as_mut_ptr(),
                page.len(),
            );
            let reason = restart_reason_of(without);
            print!("report {taken}, {length} word, must stay {stay}, reason {reason}, ");
            let game = restart_game(
                PLANNER,
                settings.as_ptr(),
                settings.len(),
                state.as_ptr(),
                state.len(),
                desk.as_ptr(),
                desk.len(),
                3,
                1,
            );
            assert_eq!(restart_first_of(game), [32, 0][node as usize]);
            let mut copy = state;
            let within = restart_decide_within(
                PLANNER,
                settings.as_ptr(),
                settings.len(),
                copy.as_mut_ptr(),
                copy.len(),
                desk.as_ptr(),
                desk.len(),
                0,
            );
            print!("gap {}, ", restart_gap_of(within));
            let answer = restart_decide(
                PLANNER,
                settings.as_ptr(),
                settings.len(),
                state.as_mut_ptr(),
                state.len(),
                desk.as_ptr(),
                desk.len(),
            );
            match restart_is_wait(answer) {
                0 => println!("plan {}", restart_get_word(state.as_ptr(), 55)),
                _ => println!("wait {}", restart_reason_of(answer)),
            }
        }
        let mut read = |role: u32, subgroup: u32| {
            restart_page(
                role,
                settings.as_ptr(),
                settings.len(),
                state.as_ptr(),
                state.len(),
                desk.as_ptr(),
                desk.len(),
                subgroup,
                page.as_mut_ptr(),
                page.len(),
            )
        };
        assert_eq!(read(restart_watcher(0), 1), 15);
        assert_eq!(read(0, 0), 15);
        let length = restart_length_of(read(restart_watcher(0), 0));
        println!(
            "page of {length} words, placed {}",
            restart_get_word(page.as_ptr(), 56)
        );
    }
}
