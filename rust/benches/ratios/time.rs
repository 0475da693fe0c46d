//! Times, of the processor as this thread has it, so that other programs in between do not count.

use crate::calls::Entry;

#[repr(C)]
struct Timespec {
    seconds: i64,
    nanoseconds: i64,
}

extern "C" {
    fn clock_gettime(clock: i32, now: *mut Timespec) -> i32;
}

const THREAD_CPU_TIME: i32 = 3;

fn seconds() -> f64 {
    let mut now = Timespec {
        seconds: 0,
        nanoseconds: 0,
    };
    // SAFETY: it is an exclusive reference to what x86-64 Linux has as a timespec.
    let status = unsafe { clock_gettime(THREAD_CPU_TIME, &mut now) };
    assert_eq!(status, 0, "the clock of the thread's processor time");
    now.seconds as f64 + now.nanoseconds as f64 * 1e-9
}

/// One call on one sheet, made by every entry in turn.
pub struct Race<'a, F> {
    pub title: &'static str,
    pub entries: &'a [Entry<F>],
    /// The least seconds that each entry took for a call.
    pub least: Vec<f64>,
    batch: usize,
    call: Box<dyn FnMut(F) + 'a>,
}

impl<'a, F: Copy> Race<'a, F> {
    pub fn new(
        title: &'static str,
        entries: &'a [Entry<F>],
        batch: usize,
        call: impl FnMut(F) + 'a,
    ) -> Race<'a, F> {
        Race {
            title,
            entries,
            least: vec![f64::INFINITY; entries.len()],
            batch,
            call: Box::new(call),
        }
    }

    /// Every entry makes a batch of calls, of which the mean is taken.
    pub fn run(&mut self) {
        for (entry, least) in self.entries.iter().zip(&mut self.least) {
            let begun = seconds();
            (0..self.batch).for_each(|_| (self.call)(entry.call));
            let mean = (seconds() - begun) / self.batch as f64;
            *least = least.min(mean);
        }
    }
}
