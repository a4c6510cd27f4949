//! Memory between inaccessible pages, and what is said when a call steps on
//! one.

use crate::function::Function;
use std::sync::atomic::{AtomicU64, AtomicUsize, Ordering::Relaxed};

/// With what status the program ends when a call has stepped outside.
pub const STEPPED_OUTSIDE: i32 = 3;

/// Room for the longest buffer that is lent: 65,535 pages and cells.
const ROOM: usize = 1 << 22;

/// How far the fences reach: farther than any 32-bit bit address.
const FENCE: usize = 1 << 30;

mod c {
    extern "C" {
        pub fn mmap(
            at: *mut u8,
            len: usize,
            access: i32,
            kind: i32,
            file: i32,
            from: i64,
        ) -> *mut u8;
        pub fn mprotect(at: *mut u8, len: usize, access: i32) -> i32;
        pub fn signal(number: i32, handler: extern "C" fn(i32)) -> usize;
        pub fn _exit(status: i32) -> !;
    }
}

const NO_ACCESS: i32 = 0;
const READ_AND_WRITE: i32 = 3;
const PRIVATE_ANONYMOUS_UNRESERVED: i32 = 0x4022;
const SIGSEGV: i32 = 11;

/// Accessible memory with a fence on either side, for as long as the program
/// runs.
pub fn memory() -> &'static mut [u8] {
    unsafe {
        let nowhere = std::ptr::null_mut();
        let kind = PRIVATE_ANONYMOUS_UNRESERVED;
        let whole = c::mmap(nowhere, FENCE + ROOM + FENCE, NO_ACCESS, kind, -1, 0);
        assert!(whole as isize != -1, "no address space for fences");
        let inside = whole.add(FENCE);
        assert_eq!(c::mprotect(inside, ROOM, READ_AND_WRITE), 0);
        std::slice::from_raw_parts_mut(inside, ROOM)
    }
}

static CALLED: AtomicUsize = AtomicUsize::new(0);
static SEED: AtomicU64 = AtomicU64::new(0);

/// Notes what is being called, for the message.
pub fn calling(function: Function) {
    CALLED.store(function as usize, Relaxed);
}

/// Notes which seed is being played, for the message.
pub fn playing(seed: u64) {
    SEED.store(seed, Relaxed);
}

/// Lets a step onto a fence end the program with a message. AddressSanitizer
/// has a handler of its own.
pub fn watch() {
    if cfg!(not(feature = "heap")) {
        unsafe { c::signal(SIGSEGV, stepped_outside) };
    }
}

extern "C" fn stepped_outside(_: i32) {
    let function = Function::ALL[CALLED.load(Relaxed)];
    let seed = SEED.load(Relaxed);
    eprintln!("OUTSIDE: {function:?} reads or writes outside what it is lent (seed {seed})");
    unsafe { c::_exit(STEPPED_OUTSIDE) }
}
