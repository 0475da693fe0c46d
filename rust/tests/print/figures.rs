//! Every figure that a line can have: costs of all lengths, and each number of a start, a door, a task and a list.

use super::program::{check, due, plans, prints};
use crate::common::examples::{
    first_twelve_doors, largest, plain, Entries, FEWEST, GREATEST, MOST,
};
use crate::common::finishing::recurse;
use crate::common::plan::Plan;
use crate::common::rng::Rng;
use crate::common::sheet::{Door, Sheet};
use crate::common::tally::Times;
use crate::common::valid::{make_small, valid, Size, ANY};

/// Twelve tasks with a door each and one point, where every round costs the same: all ways are free, and each rule
/// applies wherever its door is done.
fn any_round() -> Sheet {
    let mut sheet = plain(Entries {
        doors: 12,
        pairs: 0,
        points: 1,
        distances: 1,
        ..MOST
    });
    sheet.distances.fill(0);
    for rule in &mut sheet.rules {
        rule.watched = 0xfff;
    }
    sheet
}

/// The same at this cost, which is spread over works, charges and the end cost; each takes as much as it can.
fn costing(cost: u64) -> Sheet {
    let mut sheet = any_round();
    let works = sheet.doors.iter_mut().map(|door| &mut door.work);
    let charges = sheet.rules.iter_mut().map(|rule| &mut rule.charge);
    let mut left = cost;
    for part in works.chain(charges).chain(&mut sheet.points) {
        *part = left.min(u32::MAX.into()) as u32;
        left -= u64::from(*part);
    }
    assert_eq!(left, 0, "{cost} is more than can be spread");
    sheet
}

/// The program plans such a sheet at this cost.
fn check_cost(cost: u64) {
    let (sheet, plan) = (costing(cost), first_twelve_doors(cost));
    let case = format_args!("cost {cost}");
    assert_eq!(
        recurse(&sheet).plan,
        plan,
        "the recursion of the tests, {case}"
    );
    plans(&sheet, &plan, case);
}

#[test]
fn costs_around_powers_of_ten_and_of_two() {
    check_cost(0);
    for digits in 1..=11 {
        let power = 10u64.pow(digits);
        for cost in [
            power - 1,
            power,
            power + 1,
            power / 9,
            123_456_789_012 / power,
        ] {
            check_cost(cost);
        }
    }
    for bits in [8, 16, 31, 32, 33, 37] {
        for cost in [(1 << bits) - 1, 1 << bits, (1 << bits) + 1] {
            check_cost(cost);
        }
    }
}

#[test]
fn random_costs() {
    for seed in 0..60 {
        let mut rng = Rng::new(seed);
        let most = 10usize.pow(rng.between(1, 11) as u32);
        check_cost(rng.below(most) as u64);
    }
}

/// All that a sheet of one point can cost.
#[test]
fn the_greatest_cost() {
    let mut sheet = largest();
    sheet.doors.truncate(12);
    for door in &mut sheet.doors {
        (door.arrival, door.departure) = (0, 0);
    }
    sheet.starts.fill(0);
    sheet.points.truncate(1);
    sheet.distances.truncate(1);
    plans(
        &sheet,
        &first_twelve_doors(GREATEST),
        format_args!("the greatest cost"),
    );
}

/// A random sheet of no more than 4,096 cells. What its cost is made of has up to so many digits; with 11 its numbers are
/// as large as they can be, and so the cost has twelve.
fn sheet_of_size(rng: &mut Rng, digits: u32) -> Sheet {
    let tasks = if digits > 10 { 12 } else { rng.between(1, 12) };
    let size = Size {
        tasks: (tasks, tasks),
        more_doors: (0, 6),
        points: (1, (4_096 >> tasks).min(6)),
        ..ANY
    };
    let mut sheet = valid(rng, size);
    if digits > 10 {
        sheet.end_load = u16::MAX;
        sheet.tasks.fill(i16::MAX);
        sheet.distances.fill(u16::MAX);
    } else {
        make_small(rng, &mut sheet, 10usize.pow(digits));
    }
    sheet
}

#[test]
fn costs_of_every_number_of_digits() {
    let mut met = Times::default();
    for seed in 0..240 {
        let sheet = sheet_of_size(&mut Rng::new(seed), seed as u32 % 12);
        let plan = recurse(&sheet).plan;
        plans(&sheet, &plan, format_args!("seed {seed}"));
        met.add(plan.cost.to_string().len() as u32);
    }
    let digits: Vec<u32> = (1..=12).collect();
    met.assert_each("digits", &digits, 5);
}

/// Two tasks with 32 doors each, of which one is cheaper than all others.
#[test]
fn every_door() {
    for cheap in 0..64u16 {
        let door = |number| Door {
            task: number % 2,
            arrival: 0,
            departure: 0,
            work: if number == cheap { 7 } else { 8 },
        };
        let sheet = Sheet {
            tasks: vec![0, 0],
            doors: (0..64).map(door).collect(),
            ..plain(FEWEST)
        };
        let plan = recurse(&sheet).plan;
        assert!(plan.doors.contains(&cheap), "door {cheap}: {plan:?}");
        plans(&sheet, &plan, format_args!("door {cheap} is cheap"));
    }
}

/// Sixteen starts, of which one stands at a cheaper point; the number of the point is not that of the start.
#[test]
fn every_start() {
    let entries = Entries {
        starts: 16,
        points: 40,
        distances: 40 * 40,
        ..FEWEST
    };
    for cheap in 0..16u16 {
        let mut sheet = plain(entries);
        sheet.starts = (20..36).collect();
        let point = usize::from(sheet.starts[usize::from(cheap)]);
        sheet.distances[point * 40] = 4;
        let plan = Plan::of(cheap, &[0], 4 * 101 + 7 + 3);
        assert_eq!(recurse(&sheet).plan, plan, "the recursion of the tests");
        plans(&sheet, &plan, format_args!("start {cheap} is cheap"));
    }
}

/// Doors 24 + i are the cheaper ones of task i, and pairs leave one order, from the last task to the first.
#[test]
fn twelve_steps_by_hand() {
    let mut sheet = plain(Entries {
        doors: 36,
        points: 1,
        distances: 1,
        ..MOST
    });
    sheet.distances.fill(0);
    sheet.doors[..24].iter_mut().for_each(|door| door.work = 8);
    sheet.pairs = (1..12).map(|task| (task, task - 1)).collect();
    let lines = "\
cost 87
start 0
door 35 task 11 open 4095
door 34 task 10 open 2047
door 33 task 9 open 1023
door 32 task 8 open 511
door 31 task 7 open 255
door 30 task 6 open 127
door 29 task 5 open 63
door 28 task 4 open 31
door 27 task 3 open 15
door 26 task 2 open 7
door 25 task 1 open 3
door 24 task 0 open 1
";
    assert_eq!(due(&sheet.encode()), (0, lines.to_string()));
    prints(lines, &sheet.encode(), format_args!("twelve steps"));
}

/// Each task is done last once, and is then the only one open.
#[test]
fn every_task_alone() {
    for last in 0..12 {
        let mut sheet = any_round();
        let others = (0..12).filter(|&task| task != last);
        sheet.pairs = others.map(|task| (task, last)).collect();
        let (number, lines) = due(&sheet.encode());
        let line = format!("\ndoor {last} task {last} open {}\n", 1 << last);
        assert!(number == 0 && lines.ends_with(&line), "{lines}");
        check(&sheet.encode(), format_args!("task {last} is the last"));
    }
}

/// A chain of pairs leaves a single order, here a random one: the lists that are open on the way are of all kinds.
#[test]
fn lists_of_all_kinds() {
    let mut rng = Rng::new(1);
    let mut met = vec![false; 4_096];
    for seed in 0..60 {
        let mut sheet = any_round();
        let order = rng.order(12);
        sheet.pairs = order.windows(2).map(|two| (two[0], two[1])).collect();
        // The door's number is not that of its task.
        rng.shuffle(&mut sheet.doors);
        let input = sheet.encode();
        assert_eq!(check(&input, format_args!("seed {seed}")), 0);
        let mut open = 4_095;
        for task in order {
            met[open] = true;
            open &= !(1 << task);
        }
    }
    let met = met.into_iter().filter(|&met| met).count();
    assert!(met >= 400, "{met} lists");
}
