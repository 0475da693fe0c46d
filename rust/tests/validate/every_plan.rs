//! Every plan of small random sheets: all starts and all sequences of doors, each with one too many, and several costs.

use super::calls::Judged;
use super::plans::damage_layout;
use crate::common::judging::cost;
use crate::common::plan::Plan;
use crate::common::rng::Rng;
use crate::common::sheet::Sheet;
use crate::common::tally::Times;
use crate::common::valid::{make_small, valid, Size};

/// Few doors and starts: every plan is tried.
fn size(tasks: usize) -> Size {
    Size {
        tasks: (tasks, tasks),
        more_doors: (0, 2),
        starts: (1, 2),
        pairs: (0, 3),
        rules: (0, 6),
        points: (1, 4),
    }
}

/// A sheet with least counts up to one more than there are tasks; mostly all its numbers are small, so that costs are
/// close together.
fn small_sheet(rng: &mut Rng, tasks: usize) -> Sheet {
    let mut sheet = valid(rng, size(tasks));
    for rule in &mut sheet.rules {
        rule.least = rng.between(1, tasks + 1) as u16;
    }
    if !rng.one_in(3) {
        make_small(rng, &mut sheet, 4);
    }
    sheet
}

/// Every sequence of so many numbers, each from 0 to `limit`.
fn sequences(limit: u16, count: usize) -> Vec<Vec<u16>> {
    let mut sequences = vec![vec![]];
    for _ in 0..count {
        let longer = |sequence: &Vec<u16>| -> Vec<Vec<u16>> {
            let with = |next| [&sequence[..], &[next]].concat();
            (0..=limit).map(with).collect()
        };
        sequences = sequences.iter().flat_map(longer).collect();
    }
    sequences
}

/// The right cost, its neighbours, the least and the greatest; a plan with something unknown has no right one. A plan that
/// breaks a pair may cost less than nothing: then it is the low 64 bits.
fn costs(sheet: &Sheet, start: u16, doors: &[u16]) -> [u64; 5] {
    let right = cost(sheet, start, doors).unwrap_or(77) as u64;
    let (more, less) = (right.wrapping_add(1), right.wrapping_sub(1));
    [right, more, less, 0, u64::MAX]
}

/// Every plan with each of its costs, and once with its layout damaged.
fn try_every_plan(rng: &mut Rng, sheet: &Sheet, times: &mut Times, seed: u64) {
    let (starts, doors) = (sheet.starts.len() as u16, sheet.doors.len() as u16);
    let mut judged = Judged::new(sheet, times);
    let case = format_args!("seed {seed}");
    for doors in sequences(doors, sheet.tasks.len()) {
        for start in 0..=starts {
            let mut bytes = vec![];
            for cost in costs(sheet, start, &doors) {
                bytes = Plan::of(start, &doors, cost).encode();
                judged.check(&bytes, case);
            }
            damage_layout(rng, &mut bytes);
            judged.expect(30, &bytes, case);
        }
    }
}

/// Every plan of so many random sheets; each number comes so often or more.
fn try_sheets(tasks: usize, sheets: u64, numbers: &[u32], least: usize) {
    let mut times = Times::default();
    for seed in 0..sheets {
        let mut rng = Rng::new(seed);
        let sheet = small_sheet(&mut rng, tasks);
        try_every_plan(&mut rng, &sheet, &mut times, seed);
    }
    times.assert_each("answered", numbers, least);
}

/// One step cannot do a task twice or out of order.
#[test]
fn of_one_task() {
    try_sheets(1, 400, &[0, 30, 31, 34], 1_000);
}

#[test]
fn of_two_tasks() {
    try_sheets(2, 400, &[0, 30, 31, 32, 33, 34], 1_000);
}

#[test]
fn of_three_tasks() {
    try_sheets(3, 250, &[0, 30, 31, 32, 33, 34], 2_000);
}

#[test]
fn of_four_tasks() {
    try_sheets(4, 50, &[0, 30, 31, 32, 33, 34], 1_500);
}
