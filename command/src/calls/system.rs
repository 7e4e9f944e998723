//! Which standard streams were open when the program began, whether it was interrupted since, and memory that may
//! not be had.
//!
//! Before `main`, Rust's start-up puts `/dev/null` in the place of a closed standard stream, and then
//! nobody can tell a plan that was printed from one that was lost. So the system is asked earlier, by
//! a function that the loader calls before that.

use std::alloc::{alloc_zeroed, Layout};
use std::ffi::c_int;
use std::sync::atomic::{AtomicBool, Ordering};

const F_GETFD: c_int = 1;
const SIGINT: c_int = 2;

/// The two answers to a signal that are no functions: what the system does, and nothing.
const BY_DEFAULT: usize = 0;
const IGNORED: usize = 1;

extern "C" {
    fn fcntl(descriptor: c_int, command: c_int, ...) -> c_int;
    fn signal(number: c_int, answer: usize) -> usize;
    fn raise(number: c_int) -> c_int;
}

static INPUT_CLOSED: AtomicBool = AtomicBool::new(false);
static OUTPUT_CLOSED: AtomicBool = AtomicBool::new(false);

#[used]
#[link_section = ".init_array"]
static AT_THE_START: extern "C" fn() = look;

extern "C" fn look() {
    // SAFETY: with F_GETFD fcntl takes no third argument and touches no memory; it fails where the
    // descriptor is not open.
    let is_closed = |descriptor| unsafe { fcntl(descriptor, F_GETFD) } < 0;
    INPUT_CLOSED.store(is_closed(0), Ordering::Relaxed);
    OUTPUT_CLOSED.store(is_closed(1), Ordering::Relaxed);
}

static INTERRUPTED: AtomicBool = AtomicBool::new(false);

extern "C" fn interrupted(_: c_int) {
    INTERRUPTED.store(true, Ordering::Relaxed);
}

/// From now on an interrupt is only noted, unless whoever began the program has it ignored.
pub fn listen_for_interrupts() {
    // SAFETY: the function that is named does nothing but store, which a signal may do anywhere.
    unsafe {
        if signal(SIGINT, interrupted as *const () as usize) == IGNORED {
            signal(SIGINT, IGNORED);
        }
    }
}

pub fn is_interrupted() -> bool {
    INTERRUPTED.load(Ordering::Relaxed)
}

/// Ends the program as the interrupt would have, so that its caller knows.
pub fn end_by_interrupt() -> ! {
    // SAFETY: both take numbers alone.
    unsafe {
        signal(SIGINT, BY_DEFAULT);
        raise(SIGINT);
    }
    std::process::abort()
}

/// So many zeros, of which the system gives a page only where it is touched; or nothing, where it has not so many.
/// Rust's own way to ask, and then to fill, touches all of them.
pub fn zeros(words: usize) -> Option<Vec<u64>> {
    if words == 0 {
        return Some(Vec::new());
    }
    let layout = Layout::array::<u64>(words).ok()?;
    // SAFETY: the layout is that of so many words and not empty; zeros are words; and what is given is kept by the
    // vector alone, which gives it back by the same layout.
    unsafe {
        let first = alloc_zeroed(layout).cast::<u64>();
        (!first.is_null()).then(|| Vec::from_raw_parts(first, words, words))
    }
}

pub fn input_was_closed() -> bool {
    INPUT_CLOSED.load(Ordering::Relaxed)
}

pub fn output_was_closed() -> bool {
    OUTPUT_CLOSED.load(Ordering::Relaxed)
}
