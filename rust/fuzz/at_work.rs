//! The case that each thread is at, so that a call that is ended by a signal, or a panic, names it.

use crate::common::fuzzing::calls::Call;
use std::cell::Cell;
use std::io::Write;
use std::{fmt, panic, process, ptr};

/// One call on one case, or the making of the case.
#[derive(Clone, Copy)]
pub struct Step {
    what: &'static str,
    number: u64,
    seed: u64,
}

impl Step {
    pub fn of(call: Call, number: u64, seed: u64) -> Step {
        let what = call.name();
        Step { what, number, seed }
    }

    pub fn of_making(number: u64, seed: u64) -> Step {
        let what = "making the case";
        Step { what, number, seed }
    }
}

impl fmt::Display for Step {
    fn fmt(&self, f: &mut fmt::Formatter<'_>) -> fmt::Result {
        let Step { what, number, seed } = self;
        write!(f, "{what}, './fuzz case {number} {seed}'")
    }
}

thread_local! {
    static STEP: Cell<Option<Step>> = const { Cell::new(None) };
}

pub fn begin(step: Step) {
    STEP.set(Some(step));
}

/// What the C library takes: a function, the signals to be held back meanwhile, and how.
#[repr(C)]
struct Action {
    function: extern "C" fn(i32),
    held_back: [u64; 16],
    how: i32,
    restorer: usize,
}

extern "C" {
    fn sigaction(signal: i32, action: *const Action, before: *mut Action) -> i32;
    fn write(file: i32, bytes: *const u8, count: usize) -> isize;
    fn _exit(status: i32) -> !;
}

const STANDARD_ERROR: i32 = 2;

/// SIGILL, SIGABRT, SIGBUS, SIGFPE and SIGSEGV.
const CRASHES: [i32; 5] = [4, 6, 7, 8, 11];

/// On the stack that the Rust runtime sets aside for a thread, since its own may be full.
const ON_OTHER_STACK: i32 = 0x0800_0000;

pub fn name_the_case_at_a_crash() {
    let action = Action {
        function: name_and_exit,
        held_back: [0; 16],
        how: ON_OTHER_STACK,
        restorer: 0,
    };
    for signal in CRASHES {
        // SAFETY: the action is laid out as on x86-64 Linux, and its function does only what may be done there.
        let done = unsafe { sigaction(signal, &action, ptr::null_mut()) };
        assert_eq!(done, 0, "signal {signal} is taken");
    }
    panic::set_hook(Box::new(|panic| {
        match STEP.get() {
            Some(step) => eprintln!("fuzz: {panic}: {step}"),
            None => eprintln!("fuzz: {panic}"),
        }
        process::exit(1);
    }));
}

/// Nothing here asks for memory or takes a lock.
extern "C" fn name_and_exit(signal: i32) {
    let mut line = [0; 200];
    let mut rest = &mut line[..];
    let _ = match STEP.get() {
        Some(step) => writeln!(rest, "fuzz: signal {signal} in {step}"),
        None => writeln!(rest, "fuzz: signal {signal}"),
    };
    let left = rest.len();
    // SAFETY: so many bytes were written to the line.
    unsafe {
        write(STANDARD_ERROR, line.as_ptr(), line.len() - left);
        _exit(1)
    }
}
