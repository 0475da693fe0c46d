//! Every number of 16 bits as start or door, and stated costs that are right in their low bits.

use super::calls::Judged;
use super::plans::solution;
use crate::common::plan::Plan;
use crate::common::rng::Rng;
use crate::common::tally::Times;
use crate::common::valid::{valid, ANY, SMALL};

#[test]
fn every_start() {
    let mut times = Times::default();
    for seed in 0..4 {
        let mut rng = Rng::new(seed);
        let sheet = valid(&mut rng, SMALL);
        let plan = solution(&mut rng, &sheet);
        let mut judged = Judged::new(&sheet, &mut times);
        for start in 0..=0xffff {
            let other = Plan::of(start, &plan.doors, plan.cost);
            let number = judged.check(&other.encode(), format_args!("start {start}"));
            let known = usize::from(start) < sheet.starts.len();
            assert_eq!(number != 31, known, "start {start}: {number}");
        }
    }
    times.assert_each("answered", &[0, 31, 34], 1);
}

#[test]
fn every_door() {
    let mut times = Times::default();
    for seed in 0..4 {
        let mut rng = Rng::new(seed);
        let sheet = valid(&mut rng, SMALL);
        let plan = solution(&mut rng, &sheet);
        let step = rng.below(plan.doors.len());
        let mut judged = Judged::new(&sheet, &mut times);
        for door in 0..=0xffff {
            let mut other = plan.clone();
            other.doors[step] = door;
            let number = judged.check(&other.encode(), format_args!("door {door}"));
            let known = usize::from(door) < sheet.doors.len();
            assert_eq!(number != 31, known, "door {door}: {number}");
        }
    }
    times.assert_each("answered", &[0, 31, 32, 34], 4);
}

/// The first number that is not in the sheet, at each step and as the start, with all numbers of entries.
#[test]
fn the_last_known_and_the_first_unknown() {
    let mut times = Times::default();
    for seed in 0..300 {
        let mut rng = Rng::new(seed);
        let sheet = valid(&mut rng, ANY);
        let (starts, doors) = (sheet.starts.len() as u16, sheet.doors.len() as u16);
        let plan = solution(&mut rng, &sheet);
        let mut judged = Judged::new(&sheet, &mut times);
        let case = format_args!("seed {seed}");
        for start in [starts - 1, starts, starts + 1, starts + 256] {
            let other = Plan::of(start, &plan.doors, plan.cost);
            judged.check(&other.encode(), case);
        }
        for step in 0..plan.doors.len() {
            for door in [doors - 1, doors, doors + 1, doors + 256] {
                let mut other = plan.clone();
                other.doors[step] = door;
                judged.check(&other.encode(), case);
            }
        }
    }
    times.assert_each("answered", &[0, 31, 32, 34], 20);
}

#[test]
fn every_bit_of_the_stated_cost() {
    let mut times = Times::default();
    for seed in 0..100 {
        let mut rng = Rng::new(seed);
        let sheet = valid(&mut rng, if seed < 90 { SMALL } else { ANY });
        let plan = solution(&mut rng, &sheet);
        let mut judged = Judged::new(&sheet, &mut times);
        judged.expect(0, &plan.encode(), format_args!("seed {seed}"));
        for bit in 0..64 {
            let mut other = plan.clone();
            other.cost ^= 1 << bit;
            let case = format_args!("seed {seed}, bit {bit} of the cost");
            judged.expect(34, &other.encode(), case);
        }
    }
}
