//! One table of ratios: the calls of the proved library against the same calls in C and in Rust, all in this process.
//! `./bench` builds the C of `baseline/` for it and runs it. The first line is the verdict. The exit status is not 0 if any
//! two answers differ.

#[path = "../../tests/common/mod.rs"]
mod common;

mod calls;
mod cases;
mod compare;
mod goals;
mod planner;
mod races;
mod report;
mod rooms;
mod sheets;
mod time;

use calls::Calls;
use compare::Comparison;
use goals::Goals;
use races::Races;
use sheets::Subjects;
use std::env;
use std::process::ExitCode;

fn main() -> ExitCode {
    let calls = Calls::all();
    let subjects = Subjects::new();
    let mut comparison = Comparison::default();
    for subject in subjects.all() {
        comparison.all(&calls, subject);
    }
    cases::compare_small(&calls, &mut comparison);
    cases::compare_light(&calls, &mut comparison);
    if let Some(failure) = comparison.failure() {
        println!("{failure}; nothing was timed");
        println!();
        comparison.print();
        return ExitCode::FAILURE;
    }
    let rounds = rounds();
    let mut races = Races::new(&calls, &subjects);
    (0..rounds).for_each(|_| races.round());
    let rows = races.rows();
    let goals = Goals::of(&rows);
    println!("all answers agree; {}", goals.verdict());
    println!();
    goals.print();
    report::print(&rows, &[&subjects.worst, &subjects.middle]);
    println!();
    comparison.print();
    println!("least of {rounds} runs or more, taken in turn; processor time of the one thread");
    println!("buffers are not cleared between runs");
    println!("C by {}", calls::compilers().join(" and by "));
    ExitCode::SUCCESS
}

/// How many rounds: 50, or more if an argument says so.
fn rounds() -> usize {
    const FEWEST: usize = 50;
    let asked = env::args().skip(1).find_map(|word| word.parse().ok());
    asked.unwrap_or(FEWEST).max(FEWEST)
}
