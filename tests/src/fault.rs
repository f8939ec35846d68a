//! Says what was being tried when a signal ends the process, as an access outside of lent memory does.

use std::cell::Cell;
use std::ffi::{c_int, c_uint, c_void};
use std::io::{Cursor, Write};
use std::ptr;
use std::sync::atomic::{AtomicU64, Ordering};

use crate::trial::Input;

/// `struct sigaction` of glibc on Linux.
#[repr(C)]
struct Action {
    handler: extern "C" fn(c_int),
    mask: [u64; 16],
    flags: c_int,
    restorer: usize,
}

extern "C" {
    fn sigaction(signal: c_int, action: *const Action, old: *mut c_void) -> c_int;
    fn write(file: c_int, bytes: *const u8, count: usize) -> isize;
    fn alarm(seconds: c_uint) -> c_uint;
    fn _exit(status: c_int) -> !;
}

/// SIGILL, SIGTRAP, SIGABRT, SIGBUS, SIGFPE and SIGSEGV.
const SIGNALS: [c_int; 6] = [4, 5, 6, 7, 8, 11];

/// SA_ONSTACK: the stack may be what is used up.
const ON_OTHER_STACK: c_int = 0x0800_0000;

const STANDARD_OUTPUT: c_int = 1;

/// What a thread is trying. The name is kept in place, for a handler can allocate nothing.
#[derive(Clone, Copy)]
struct Trying {
    check: [u8; 64],
    length: usize,
    case: usize,
    how: &'static str,
}

/// An input that is being tried, and how it is written out.
type Tried = (*const (), fn(*const ()) -> String);

thread_local! {
    static TRYING: Cell<Trying> = const { Cell::new(Trying { check: [0; 64], length: 0, case: 0, how: "" }) };
    static TRIED: Cell<Option<Tried>> = const { Cell::new(None) };
}

static SEED: AtomicU64 = AtomicU64::new(0);

/// Has a signal that ends the process say what was being tried, with this seed.
pub fn watch(seed: u64) {
    SEED.store(seed, Ordering::Relaxed);
    let action = Action { handler: say, mask: [0; 16], flags: ON_OTHER_STACK, restorer: 0 };
    for signal in SIGNALS {
        // SAFETY: the handler says what it has to say and ends the process.
        assert_eq!(unsafe { sigaction(signal, &action, ptr::null_mut()) }, 0, "signal {signal} is watched");
    }
}

/// This thread begins a check.
pub fn in_check(name: &str) {
    let mut check = [0; 64];
    let length = name.len().min(check.len());
    check[..length].copy_from_slice(&name.as_bytes()[..length]);
    TRYING.set(Trying { check, length, case: 0, how: "" });
}

/// This thread tries the case of this number of its check.
pub fn in_case(case: usize) {
    TRYING.set(Trying { case, how: "", ..TRYING.get() });
}

/// This thread tries its case in this way.
pub fn in_way(how: &'static str) {
    TRYING.set(Trying { how, ..TRYING.get() });
}

/// This thread tries an input.
pub fn on_input<I: Input, R>(input: &I, run: impl FnOnce(&I) -> R) -> R {
    // SAFETY: this is called only while the input is borrowed here.
    let show = |input: *const ()| unsafe { &*input.cast::<I>() }.show();
    TRIED.set(Some((ptr::from_ref(input).cast(), show)));
    let result = run(input);
    TRIED.set(None);
    result
}

extern "C" fn say(signal: c_int) {
    let mut line = [0; 256];
    let length = describe(&mut line, signal);
    print(&line[..length]);
    // To write the input out, memory is allocated. If the signal came amid an allocation this waits for ever, and so
    // another signal is set to end it.
    // SAFETY: nothing else waits for that signal, and nothing is left to be done in the end.
    unsafe {
        alarm(5);
        if let Some((input, show)) = TRIED.take() {
            print(format!("    on {}\n", show(input)).as_bytes());
        }
        _exit(1)
    }
}

fn print(bytes: &[u8]) {
    // SAFETY: so many bytes are there.
    unsafe { write(STANDARD_OUTPUT, bytes.as_ptr(), bytes.len()) };
}

/// Puts down what is being tried, and gives the length of it.
fn describe(line: &mut [u8], signal: c_int) -> usize {
    let Trying { check, length, case, how } = TRYING.get();
    let seed = SEED.load(Ordering::Relaxed);
    let mut line = Cursor::new(line);
    // What does not fit is left out.
    let _ = line.write_all(b"FAILED ");
    let _ = line.write_all(&check[..length]);
    let _ = writeln!(line, ": ended by signal {signal} in case {case}{how} (seed {seed})");
    line.position() as usize
}

#[cfg(test)]
mod tests {
    use super::*;

    #[test]
    fn the_check_and_the_case_are_named() {
        in_check("memory-f");
        in_case(7);
        in_way(", at the front");
        let mut line = [0; 256];
        let length = describe(&mut line, 11);
        assert_eq!(&line[..length], b"FAILED memory-f: ended by signal 11 in case 7, at the front (seed 0)\n");
        assert_eq!(describe(&mut line[..10], 11), 10);
    }
}
