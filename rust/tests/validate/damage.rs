//! Damaged plans: single bytes, exchanged steps, other lengths, and plans for another number of tasks.

use super::calls::Judged;
use super::plans::{solution, with_head_of};
use crate::common::examples::sheet_a;
use crate::common::plan::{plan_len, Plan, HEAD, MOST_TASKS};
use crate::common::rng::Rng;
use crate::common::sheet::Sheet;
use crate::common::tally::Times;
use crate::common::valid::{valid, Size, ANY, SMALL};

/// Sets every byte of a solution to other values, one at a time. Before byte 22 the answer is 30, and from there on 30
/// does not apply.
fn damage_each_byte(rng: &mut Rng, sheet: &Sheet, times: &mut Times, values: &[u8], seed: u64) {
    let mut bytes = solution(rng, sheet).encode();
    let mut judged = Judged::new(sheet, times);
    judged.expect(0, &bytes, format_args!("seed {seed}"));
    for at in 0..bytes.len() {
        let now = bytes[at];
        for &value in values.iter().filter(|&&value| value != now) {
            bytes[at] = value;
            let case = format_args!("seed {seed}, byte {at} set from {now} to {value}");
            let number = judged.check(&bytes, case);
            assert_eq!(number == 30, at < HEAD, "{case}: {number}");
        }
        bytes[at] = now;
    }
}

#[test]
fn every_value_of_every_byte() {
    let every: Vec<u8> = (0..=255).collect();
    let mut times = Times::default();
    damage_each_byte(&mut Rng::new(0), &sheet_a(), &mut times, &every, 0);
    for seed in 1..25 {
        let mut rng = Rng::new(seed);
        let sheet = valid(&mut rng, SMALL);
        damage_each_byte(&mut rng, &sheet, &mut times, &every, seed);
    }
    times.assert_each("answered", &[0, 30, 31, 32, 34], 20);
}

#[test]
fn some_values_of_every_byte_of_long_plans() {
    let mut times = Times::default();
    for seed in 0..30 {
        let mut rng = Rng::new(seed);
        let sheet = valid(&mut rng, ANY);
        let any = rng.next() as u8;
        let values = [0, 1, 2, 63, 64, 128, 255, any];
        damage_each_byte(&mut rng, &sheet, &mut times, &values, seed);
    }
    times.assert_each("answered", &[0, 30, 31, 32, 34], 20);
}

/// The rest of the plan stands behind the bytes that are given, so looking further than the length would show.
#[test]
fn every_other_length() {
    let mut times = Times::default();
    for seed in 0..200 {
        let mut rng = Rng::new(seed);
        let sheet = valid(&mut rng, if seed < 180 { SMALL } else { ANY });
        let plan = solution(&mut rng, &sheet).encode();
        let tail = [vec![0; 30], rng.bytes(30)][seed as usize % 2].clone();
        let bytes = [plan.clone(), tail].concat();
        let mut judged = Judged::new(&sheet, &mut times);
        for len in 0..=bytes.len() {
            let number = if len == plan.len() { 0 } else { 30 };
            let case = format_args!("seed {seed}, {len} bytes of it");
            judged.expect(number, &bytes[..len], case);
        }
        for more in [256, 65_536] {
            let mut long = plan.clone();
            long.resize(plan.len() + more, 0);
            let case = format_args!("seed {seed}, {more} bytes behind it");
            judged.expect(30, &long, case);
        }
    }
}

/// A plan laid out for another number of tasks, one with a head that tells another, and one that is right but for that.
#[test]
fn another_number_of_tasks() {
    let mut times = Times::default();
    for tasks in 1..=MOST_TASKS {
        let mut rng = Rng::new(tasks as u64);
        let size = Size {
            tasks: (tasks, tasks),
            ..SMALL
        };
        let sheet = valid(&mut rng, size);
        let plan = solution(&mut rng, &sheet);
        let mut judged = Judged::new(&sheet, &mut times);
        for other in 0..=MOST_TASKS + 3 {
            let number = if other == tasks { 0 } else { 30 };
            let mut doors = plan.doors.clone();
            doors.resize(other, 0);
            let longer_or_shorter = Plan::of(plan.start, &doors, plan.cost);
            let case = format_args!("{tasks} tasks, a plan for {other}");
            judged.expect(number, &longer_or_shorter.encode(), case);
            judged.expect(number, &with_head_of(other, &plan), case);
            let mut bytes = longer_or_shorter.encode();
            bytes.resize(plan_len(tasks), 0);
            judged.expect(number, &bytes, case);
        }
    }
}

/// Two steps of a solution exchanged: a pair may stand backwards then, or the cost be another one.
#[test]
fn two_steps_exchanged() {
    let mut times = Times::default();
    for seed in 0..400 {
        let mut rng = Rng::new(seed);
        let sheet = valid(&mut rng, if seed < 350 { SMALL } else { ANY });
        let plan = solution(&mut rng, &sheet);
        let mut judged = Judged::new(&sheet, &mut times);
        for later in 1..plan.doors.len() {
            for earlier in 0..later {
                let mut exchanged = plan.clone();
                exchanged.doors.swap(earlier, later);
                let case = format_args!("seed {seed}, steps {earlier} and {later}");
                judged.check(&exchanged.encode(), case);
            }
        }
    }
    assert!(times.of(33) > 500 && times.of(34) > 500, "{times:?}");
}
