//! The program behind `./fuzz`: one case after the other through every call of the C interface, on all cores, each call
//! compared with the independent implementation of the tests. The exit status is 0 without a difference, 1 with one or
//! where a call does not return, and 2 for words that it does not know.

#[path = "../tests/common/mod.rs"]
mod common;

mod at_work;
mod report;
mod run;

use std::env;
use std::process::ExitCode;
use std::time::{Duration, SystemTime, UNIX_EPOCH};

const DIFFERENT: u8 = 1;
const WRONG_USAGE: u8 = 2;

/// What the words ask for. A case is told by its number and by the seed of the run that it belongs to.
enum Asked {
    Run { time: Duration, seed: u64 },
    Case { number: u64, seed: u64 },
}

fn asked(words: &[String]) -> Option<Asked> {
    let number = |word: &String| word.parse::<u64>().ok();
    let (seconds, seed) = match words {
        [case, of_case, seed] if case == "case" => {
            let (number, seed) = (number(of_case)?, number(seed)?);
            return Some(Asked::Case { number, seed });
        }
        [seconds] => (number(seconds)?, seed_of_today()),
        [seconds, seed] => (number(seconds)?, number(seed)?),
        _ => return None,
    };
    let time = Duration::from_secs(seconds);
    (seconds > 0).then_some(Asked::Run { time, seed })
}

/// Another one for each run.
fn seed_of_today() -> u64 {
    let since = SystemTime::now().duration_since(UNIX_EPOCH);
    since.expect("a clock after 1970").as_secs()
}

fn main() -> ExitCode {
    let words: Vec<String> = env::args().skip(1).collect();
    at_work::name_the_case_at_a_crash();
    let counts = match asked(&words) {
        Some(Asked::Run { time, seed }) => run::cases(time, seed),
        Some(Asked::Case { number, seed }) => run::one_case(number, seed),
        None => {
            eprintln!("usage: fuzz SECONDS [SEED], or fuzz case NUMBER SEED");
            return ExitCode::from(WRONG_USAGE);
        }
    };
    if counts.differences > 0 {
        return ExitCode::from(DIFFERENT);
    }
    ExitCode::SUCCESS
}
