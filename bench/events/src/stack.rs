//! The deepest stack of each call: it is made on a thread whose whole stack was
//! painted before.

use crate::calls::{Call, Ready};
use peer::inputs::{input, FULL};
use std::ffi::{c_int, c_void};
use std::hint::black_box;

const SIZE: usize = 16 << 20;
const PAINT: u8 = 0xA5;

extern "C" {
    fn pthread_attr_init(attributes: *mut [u64; 8]) -> c_int;
    fn pthread_attr_setstack(attributes: *mut [u64; 8], stack: *mut c_void, size: usize) -> c_int;
    fn pthread_create(
        thread: *mut usize,
        attributes: *const [u64; 8],
        start: extern "C" fn(*mut c_void) -> *mut c_void,
        argument: *mut c_void,
    ) -> c_int;
    fn pthread_join(thread: usize, result: *mut *mut c_void) -> c_int;
}

/// What the thread does, and where its stack stood before.
struct Job<'a> {
    run: &'a mut dyn FnMut(),
    from: usize,
}

extern "C" fn start(argument: *mut c_void) -> *mut c_void {
    // SAFETY: the argument is the job that `depth` lends until it has joined.
    let job = unsafe { &mut *argument.cast::<Job>() };
    let here = 0u8;
    job.from = std::ptr::from_ref(black_box(&here)) as usize;
    (job.run)();
    std::ptr::null_mut()
}

/// How far below its start the stack was written to.
fn depth(run: &mut dyn FnMut()) -> usize {
    let mut memory: Vec<u128> = vec![u128::from_ne_bytes([PAINT; 16]); SIZE / 16];
    let stack = memory.as_mut_ptr();
    let mut job = Job { run, from: 0 };
    let (mut attributes, mut thread) = ([0; 8], 0);
    // SAFETY: the stack lives until the thread has joined and is used by it alone.
    unsafe {
        assert_eq!(pthread_attr_init(&mut attributes), 0);
        assert_eq!(
            pthread_attr_setstack(&mut attributes, stack.cast(), SIZE),
            0
        );
        let argument = (&raw mut job).cast();
        assert_eq!(pthread_create(&mut thread, &attributes, start, argument), 0);
        assert_eq!(pthread_join(thread, std::ptr::null_mut()), 0);
    }
    let painted = |word: &&u128| **word == u128::from_ne_bytes([PAINT; 16]);
    let lowest = memory.iter().take_while(painted).count();
    job.from - (memory.as_ptr() as usize + 16 * lowest)
}

/// Prints the deepest stack of each call at full size, over some inputs.
pub fn print(count: u64) {
    let nothing = depth(&mut || {});
    println!("| call | deepest stack, bytes |");
    println!("|---|---|");
    let inputs: Vec<_> = (0..count).map(|index| input(FULL, index)).collect();
    for call in Call::all() {
        let deepest = inputs.iter().map(|input| {
            let mut ready = Ready::new(call, input, 0);
            let deep = depth(&mut || {
                black_box(ready.make());
            });
            deep.saturating_sub(nothing)
        });
        println!("| {} | {} |", call.name(), deepest.max().unwrap_or(0));
    }
}
