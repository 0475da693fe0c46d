//! Whether a signal ends what is done, tried in a process of its own.

use std::panic::{catch_unwind, AssertUnwindSafe};

extern "C" {
    fn fork() -> i32;
    fn waitpid(process: i32, status: *mut i32, options: i32) -> i32;
    fn alarm(seconds: u32) -> u32;
    fn prctl(option: i32, ...) -> i32;
    fn _exit(status: i32) -> !;
}

/// The signal of an access to memory that does not allow it.
pub const SIGSEGV: i32 = 11;

/// The signal that ends a process that does this, or nothing if it comes to its end.
pub fn ended_by(what: impl FnOnce()) -> Option<i32> {
    const LONGEST: u32 = 20;
    const SIGNAL: i32 = 0x7f;
    /// Whether a signal leaves an image of the memory behind.
    const DUMPABLE: i32 = 4;
    let mut status = 0;
    // SAFETY: the new process has this thread alone, does this and nothing else, and ends in any case.
    unsafe {
        let process = fork();
        if process == 0 {
            alarm(LONGEST);
            prctl(DUMPABLE, 0_usize);
            let _ = catch_unwind(AssertUnwindSafe(what));
            _exit(0);
        }
        assert!(process > 0, "a new process");
        assert_eq!(waitpid(process, &mut status, 0), process);
    }
    let signal = status & SIGNAL;
    (signal != 0).then_some(signal)
}

/// What is done comes to its end.
pub fn assert_ends(what: impl FnOnce()) {
    assert_eq!(ended_by(what), None);
}

/// What is done touches memory that does not allow it.
pub fn assert_is_ended(what: impl FnOnce()) {
    assert_eq!(ended_by(what), Some(SIGSEGV));
}
