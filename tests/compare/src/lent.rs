//! Memory lent to the library.
//!
//! Each piece lies in pages of its own between two pages that nobody may touch.
//! The rest of its pages holds guard bytes. A piece is put against the page
//! before, against the page after or in between: reading or writing one byte
//! outside ends the program with a message, and writing anywhere else in the
//! pages is found by looking at the guard bytes.
//!
//! Pieces of more than 4 GiB are lent for reading alone and take no room.

use std::ffi::{c_int, c_long, c_void};
use std::sync::atomic::{AtomicU64, Ordering};

const PAGE: usize = 4096;
const GUARD: u8 = 0xA5;

extern "C" {
    fn mmap(
        at: *mut c_void,
        len: usize,
        prot: c_int,
        flags: c_int,
        fd: c_int,
        o: c_long,
    ) -> *mut c_void;
    fn mprotect(at: *mut c_void, len: usize, prot: c_int) -> c_int;
    fn munmap(at: *mut c_void, len: usize) -> c_int;
    fn signal(number: c_int, handler: usize) -> usize;
    fn write(fd: c_int, bytes: *const c_void, len: usize) -> isize;
    fn _exit(status: c_int) -> !;
}

const PROT_NONE: c_int = 0;
const PROT_READ: c_int = 1;
const PROT_READ_WRITE: c_int = 3;
const MAP_PRIVATE_ANONYMOUS: c_int = 0x22;
const SIGBUS: c_int = 7;
const SIGSEGV: c_int = 11;

/// Where a piece lies in its pages.
#[derive(Clone, Copy, Debug)]
pub enum Place {
    First,
    Last,
    /// This many bytes after the first.
    After(usize),
}

/// Pages from which one piece of memory is lent at a time.
pub struct Lent {
    pages: &'static mut [u8],
    begin: usize,
    length: usize,
}

impl Lent {
    /// Pages for pieces of up to `most` bytes.
    pub fn new(most: usize) -> Lent {
        let size = most.div_ceil(PAGE).max(1) * PAGE;
        let none = std::ptr::null_mut();
        // SAFETY: a fresh private mapping, of which only the inner pages are
        // made accessible and handed out, once.
        let pages = unsafe {
            let all = mmap(
                none,
                size + 2 * PAGE,
                PROT_NONE,
                MAP_PRIVATE_ANONYMOUS,
                -1,
                0,
            );
            assert!(all as isize != -1, "no memory to lend");
            let inner = all.cast::<u8>().add(PAGE);
            assert_eq!(mprotect(inner.cast(), size, PROT_READ_WRITE), 0);
            std::slice::from_raw_parts_mut(inner, size)
        };
        pages.fill(GUARD);
        Lent {
            pages,
            begin: 0,
            length: 0,
        }
    }

    /// Puts `bytes` into the pages.
    pub fn put(&mut self, bytes: &[u8], place: Place) {
        self.pages[self.begin..self.begin + self.length].fill(GUARD);
        let room = self.pages.len() - bytes.len();
        self.begin = match place {
            Place::First => 0,
            Place::Last => room,
            Place::After(offset) => offset.min(room),
        };
        self.length = bytes.len();
        self.pages[self.begin..self.begin + self.length].copy_from_slice(bytes);
    }

    pub fn pointer(&mut self) -> *mut u8 {
        self.pages[self.begin..].as_mut_ptr()
    }

    pub fn length(&self) -> usize {
        self.length
    }

    /// Until `unseal`, the pages can only be read: writing into them ends the
    /// program, even with the byte that is there already.
    pub fn seal(&mut self) {
        self.protect(PROT_READ);
    }

    pub fn unseal(&mut self) {
        self.protect(PROT_READ_WRITE);
    }

    fn protect(&mut self, access: c_int) {
        let (at, length) = (self.pages.as_mut_ptr(), self.pages.len());
        // SAFETY: the pages are this value's own; nobody writes while sealed.
        let status = unsafe { mprotect(at.cast(), length, access) };
        assert_eq!(status, 0, "the pages' access cannot be changed");
    }

    pub fn bytes(&self) -> &[u8] {
        &self.pages[self.begin..self.begin + self.length]
    }

    /// Whether no guard byte was changed.
    pub fn guards_whole(&self) -> bool {
        let (before, rest) = self.pages.split_at(self.begin);
        all_guard(before) && all_guard(&rest[self.length..])
    }

    /// Makes all guard bytes good again.
    pub fn mend(&mut self) {
        self.begin = 0;
        self.length = 0;
        self.pages.fill(GUARD);
    }
}

fn all_guard(bytes: &[u8]) -> bool {
    bytes.iter().fold(0, |all, &byte| all | byte ^ GUARD) == 0
}

/// A piece of any length, to be read only: some bytes, then zeros, which take
/// no room.
pub struct Sparse {
    at: *mut u8,
    length: usize,
}

impl Sparse {
    /// The bytes, and zeros to this length, which is not less than a page.
    pub fn new(bytes: &[u8], length: usize) -> Sparse {
        assert!(bytes.len() <= PAGE && PAGE <= length);
        let none = std::ptr::null_mut();
        // SAFETY: a fresh private mapping, whose first page is written and made
        // read-only like the rest.
        let at = unsafe {
            let all = mmap(none, length, PROT_READ, MAP_PRIVATE_ANONYMOUS, -1, 0);
            assert!(all as isize != -1, "no addresses to lend");
            assert_eq!(mprotect(all, PAGE, PROT_READ_WRITE), 0);
            std::ptr::copy_nonoverlapping(bytes.as_ptr(), all.cast(), bytes.len());
            assert_eq!(mprotect(all, PAGE, PROT_READ), 0);
            all.cast()
        };
        Sparse { at, length }
    }

    /// A pointer for a call that may not write, but may be lent what it would
    /// write.
    pub fn pointer(&self) -> *mut u8 {
        self.at
    }
}

impl Drop for Sparse {
    fn drop(&mut self) {
        // SAFETY: the mapping is this value's own.
        unsafe { munmap(self.at.cast(), self.length) };
    }
}

/// The bytes in hex, a space after each word.
pub fn hex(bytes: &[u8]) -> String {
    let word = |word: &[u8]| word.iter().map(|byte| format!("{byte:02x}")).collect();
    bytes.chunks(4).map(word).collect::<Vec<String>>().join(" ")
}

/// The input being compared, for the message of `watch_ends`.
static CURRENT: AtomicU64 = AtomicU64::new(0);

/// Says which input is being compared.
pub fn at_input(index: u64) {
    CURRENT.store(index, Ordering::Relaxed);
}

/// From now on, touching a byte outside the lent pages ends the program with
/// status 1 and a line that names the input.
pub fn watch_ends() {
    let handler = outside as extern "C" fn(c_int) as usize;
    // SAFETY: the handler only calls functions that a handler may call.
    unsafe {
        signal(SIGSEGV, handler);
        signal(SIGBUS, handler);
    }
}

extern "C" fn outside(_: c_int) {
    let text = b"memory was touched outside its ends at input ";
    let mut digits = [b'0'; 21];
    digits[20] = b'\n';
    let mut rest = CURRENT.load(Ordering::Relaxed);
    for digit in digits[..20].iter_mut().rev() {
        *digit = b'0' + (rest % 10) as u8;
        rest /= 10;
    }
    // SAFETY: `write` and `_exit` may be called in a handler; the pointers are
    // to live arrays of the given lengths.
    unsafe {
        write(2, text.as_ptr().cast(), text.len());
        write(2, digits.as_ptr().cast(), digits.len());
        _exit(1)
    }
}

#[cfg(test)]
mod tests {
    use super::*;

    #[test]
    fn a_piece_is_put_and_guarded() {
        let mut lent = Lent::new(5000);
        for place in [Place::First, Place::Last, Place::After(3)] {
            lent.put(&[1, 2, 3], place);
            assert_eq!(lent.bytes(), [1, 2, 3]);
            assert!(lent.guards_whole());
        }
        lent.put(&[1, 2, 3], Place::After(3));
        // SAFETY: byte 3 after the piece lies in the same pages.
        unsafe { *lent.pointer().add(3) = 0 };
        assert!(!lent.guards_whole());
        lent.mend();
        assert!(lent.guards_whole());
    }
}
