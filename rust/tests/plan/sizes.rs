//! Numbers of tasks, doors and bytes of every size: 12 comes before 21 and 30, and they come only where they are due.

use super::calls::{check_read, check_write, expect_read, expect_write};
use crate::common::plan::{plan_len, random_doors, Plan, MOST_TASKS};
use crate::common::rng::Rng;
use crate::common::tally::Times;

/// Every number of tasks or doors and every length up to these is tried.
const SIZES: usize = 40;
const LENGTHS: usize = 70;

#[test]
fn writing_with_every_size() {
    let mut times = Times::default();
    let case = format_args!("every size");
    for n in 0..=SIZES {
        let mut rng = Rng::new(n as u64);
        for doors in 0..=SIZES {
            let plan = Plan::random(&mut rng, doors);
            let noise = rng.bytes(LENGTHS);
            for len in 0..=LENGTHS {
                times.add(check_write(n, &plan, &noise[..len], case));
            }
        }
    }
    times.assert_each("answered", &[0, 12, 21], 5_000);
}

/// The bytes are laid out for the number of tasks, also for 13 and more, and cut or filled up to the length.
#[test]
fn reading_with_every_size() {
    let mut times = Times::default();
    let case = format_args!("every size");
    for n in 0..=SIZES {
        let mut rng = Rng::new(n as u64);
        for doors in 0..=SIZES {
            let lent = random_doors(&mut rng, doors);
            let mut bytes = Plan::random(&mut rng, n).encode();
            bytes.extend(rng.bytes(LENGTHS));
            for len in 0..=LENGTHS {
                times.add(check_read(n, &bytes[..len], &lent, case));
            }
        }
    }
    times.assert_each("answered", &[0, 12, 30], 300);
}

#[test]
fn the_least_room_and_one_less() {
    let case = format_args!("the least room");
    for n in 1..=MOST_TASKS {
        let mut rng = Rng::new(n as u64);
        let noise = rng.bytes(plan_len(n));
        let short = &noise[1..];
        let plan = Plan::random(&mut rng, n);
        let fewer = Plan::random(&mut rng, n - 1);
        expect_write(0, n, &plan, &noise, case);
        expect_write(21, n, &plan, short, case);
        expect_write(12, n, &fewer, &noise, case);
        expect_write(12, n, &fewer, short, case);
        let bytes = Plan::random(&mut rng, n).encode();
        let short = &bytes[..plan_len(n) - 1];
        expect_read(0, n, &bytes, &plan.doors, case);
        expect_read(30, n, short, &plan.doors, case);
        expect_read(12, n, &bytes, &fewer.doors, case);
        expect_read(12, n, short, &fewer.doors, case);
    }
}

#[test]
fn no_tasks_and_more_than_twelve() {
    let case = format_args!("room and layout are as due");
    for n in [0].into_iter().chain(MOST_TASKS + 1..=300) {
        let mut rng = Rng::new(n as u64);
        let plan = Plan::random(&mut rng, n);
        expect_write(12, n, &plan, &rng.bytes(plan_len(n)), case);
        expect_read(12, n, &plan.encode(), &random_doors(&mut rng, n), case);
    }
}

/// Numbers of tasks that are 0 to 12 in their low 8, 16, 32 or 63 bits, and those for which 32 + 2 n is small in 64 bits.
fn huge_numbers() -> Vec<usize> {
    let mut huge = vec![usize::MAX, usize::MAX - 1, usize::MAX - 15];
    for power in [8, 16, 24, 31, 32, 33, 48, 62, 63] {
        huge.extend((0..=13).map(|n| (1 << power) + n));
        huge.extend((1..=3).map(|less| (1 << power) - less));
    }
    huge.extend((0..=SIZES).map(|half| (1 << 63) - 16 + half));
    huge
}

#[test]
fn huge_numbers_of_tasks() {
    let case = format_args!("huge");
    for n in huge_numbers() {
        let mut rng = Rng::new(n as u64);
        for doors in [0, 1, 3, 12, 13, 15, SIZES] {
            let plan = Plan::random(&mut rng, doors);
            for len in [0, 33, 34, 56, 60, 200] {
                expect_write(12, n, &plan, &rng.bytes(len), case);
            }
            for tasks in [n % 16, n % 256] {
                let bytes = Plan::random(&mut rng, tasks).encode();
                expect_read(12, n, &bytes, &plan.doors, case);
            }
            expect_read(12, n, &[], &plan.doors, case);
        }
    }
}
