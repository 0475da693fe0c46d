//! Many cases, on all cores for some time, or one case again.

use crate::at_work::{begin, Step};
use crate::common::fuzzing::calls::{Call, PRODUCT};
use crate::common::fuzzing::case::Case;
use crate::common::fuzzing::compare::Memory;
use crate::common::fuzzing::counts::Counts;
use crate::common::rng::Rng;
use crate::report;
use std::path::Path;
use std::sync::atomic::{AtomicU64, Ordering::Relaxed};
use std::sync::Mutex;
use std::thread::{self, ScopedJoinHandle};
use std::time::{Duration, Instant};
use std::{fs, process};

/// Where the sheets and plans are kept for which something differed.
const FOLDER: &str = concat!(env!("CARGO_MANIFEST_DIR"), "/../target/fuzz");

/// No more differences than that are told and kept.
const MOST_TOLD: u64 = 20;

/// Cases from one look at the clock to the next.
const AT_ONCE: u64 = 50;

const BETWEEN_LINES: Duration = Duration::from_secs(10);
const BETWEEN_LOOKS: Duration = Duration::from_millis(50);

/// A case takes less than a second, so one that takes this long has met a call that does not end.
const TOO_LONG: Duration = Duration::from_secs(120);

/// What the threads share.
struct Run {
    seed: u64,
    began: Instant,
    time: Duration,
    next_case: AtomicU64,
    counts: Mutex<Counts>,
    told: AtomicU64,
}

/// Runs for so long, and prints what was met.
pub fn cases(time: Duration, seed: u64) -> Counts {
    let run = Run {
        seed,
        began: Instant::now(),
        time,
        next_case: AtomicU64::new(0),
        counts: Mutex::default(),
        told: AtomicU64::new(0),
    };
    let threads = thread::available_parallelism().map_or(1, usize::from);
    println!("seed {seed}, {threads} threads");
    let at: Vec<AtomicU64> = (0..threads).map(|_| AtomicU64::new(0)).collect();
    thread::scope(|scope| {
        let run = &run;
        let work = |at| scope.spawn(move || run.work(at));
        let workers: Vec<_> = at.iter().map(work).collect();
        run.watch(&at, &workers);
    });
    let counts = run.counts();
    report::table(run.began.elapsed(), &counts);
    counts
}

impl Run {
    fn counts(&self) -> Counts {
        self.counts.lock().expect("no thread panicked").clone()
    }

    /// Takes the next cases until the time is over, and says which one it is at.
    fn work(&self, at: &AtomicU64) {
        let mut memory = Memory::new();
        while self.began.elapsed() < self.time {
            let mut counts = Counts::default();
            let first = self.next_case.fetch_add(AT_ONCE, Relaxed);
            for number in first..first + AT_ONCE {
                at.store(number, Relaxed);
                self.try_case(number, &mut memory, &mut counts);
            }
            let mut all = self.counts.lock().expect("no thread panicked");
            all.add_all(&counts);
        }
    }

    fn try_case(&self, number: u64, memory: &mut Memory, counts: &mut Counts) {
        let seed = self.seed;
        let case = make(number, seed);
        for call in Call::ALL {
            let step = Step::of(call, number, seed);
            begin(step);
            let outcome = memory.compare(&PRODUCT, call, &case);
            counts.add(call, &case, &outcome);
            if let Err(difference) = outcome {
                if self.told.fetch_add(1, Relaxed) < MOST_TOLD {
                    println!("difference in {step}: {difference}");
                    keep(&case, number, seed);
                }
            }
        }
    }

    /// Prints progress until the threads have ended, and gives up where one stays at a case.
    fn watch(&self, at: &[AtomicU64], workers: &[ScopedJoinHandle<()>]) {
        let mut lines = 1;
        let mut seen: Vec<(u64, Instant)> = vec![(0, self.began); at.len()];
        while !workers.iter().all(|worker| worker.is_finished()) {
            thread::sleep(BETWEEN_LOOKS);
            if self.began.elapsed() >= lines * BETWEEN_LINES {
                report::progress(self.began.elapsed(), &self.counts());
                lines += 1;
            }
            for (at, seen) in at.iter().zip(&mut seen) {
                let number = at.load(Relaxed);
                if number != seen.0 {
                    *seen = (number, Instant::now());
                } else if seen.1.elapsed() > TOO_LONG {
                    let (seed, seconds) = (self.seed, TOO_LONG.as_secs());
                    eprintln!("fuzz: case {number} of seed {seed} has not ended in {seconds} s");
                    process::exit(1);
                }
            }
        }
    }
}

/// Runs one case again, which is kept first since a call may crash, and prints what each call gives.
pub fn one_case(number: u64, seed: u64) -> Counts {
    let case = make(number, seed);
    keep(&case, number, seed);
    report::lent(&case);
    let (mut memory, mut counts) = (Memory::new(), Counts::default());
    for call in Call::ALL {
        begin(Step::of(call, number, seed));
        let outcome = memory.compare(&PRODUCT, call, &case);
        counts.add(call, &case, &outcome);
        match outcome {
            Ok(answer) => println!("{}: {answer}", call.name()),
            Err(difference) => println!("{}: difference: {difference}", call.name()),
        }
    }
    counts
}

/// A case is determined by its number and the seed.
fn make(number: u64, seed: u64) -> Case {
    begin(Step::of_making(number, seed));
    Case::new(Rng::new(seed).next().wrapping_add(number))
}

/// Keeps the sheet and the plan as files.
fn keep(case: &Case, number: u64, seed: u64) {
    fs::create_dir_all(FOLDER).expect("a folder for what is kept");
    for (what, bytes) in [("sheet", &case.sheet), ("plan", &case.plan)] {
        let path = Path::new(FOLDER).join(format!("{number}-{seed}.{what}"));
        fs::write(&path, bytes).expect("room for what is kept");
    }
}
