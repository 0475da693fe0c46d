//! Damaged plans: single bytes, several, other lengths, and plans of another number of tasks.

use super::calls::{check_read, expect_read};
use crate::common::plan::{plan_len, random_doors, Plan, HEAD, MOST_TASKS};
use crate::common::rng::Rng;
use crate::common::tally::Times;

/// Before byte 22 one value of each byte is due; from there on every value is read.
#[test]
fn every_value_of_every_byte() {
    for n in 1..=MOST_TASKS {
        let mut rng = Rng::new(n as u64);
        let doors = random_doors(&mut rng, n + 1);
        let mut bytes = Plan::random(&mut rng, n).encode();
        for at in 0..bytes.len() {
            let now = bytes[at];
            for value in 0..=255 {
                bytes[at] = value;
                let number = if at < HEAD && value != now { 30 } else { 0 };
                let case = format_args!("byte {at} set from {now} to {value}");
                expect_read(number, n, &bytes, &doors, case);
            }
            bytes[at] = now;
        }
    }
}

#[test]
fn two_bytes_of_the_head_exchanged() {
    for n in 1..=MOST_TASKS {
        let mut rng = Rng::new(n as u64);
        let doors = random_doors(&mut rng, n);
        let bytes = Plan::random(&mut rng, n).encode();
        for (one, other) in (0..HEAD).flat_map(|one| (0..one).map(move |other| (one, other))) {
            let mut exchanged = bytes.clone();
            exchanged.swap(one, other);
            let number = if exchanged == bytes { 0 } else { 30 };
            let case = format_args!("bytes {one} and {other} exchanged");
            expect_read(number, n, &exchanged, &doors, case);
        }
    }
}

/// The rest of the plan stands behind the bytes that are given, so looking further than the length would show.
#[test]
fn every_other_length() {
    for n in 1..=MOST_TASKS {
        let mut rng = Rng::new(n as u64);
        let doors = random_doors(&mut rng, MOST_TASKS);
        for tail in [vec![0; 40], rng.bytes(40)] {
            let bytes = [Plan::random(&mut rng, n).encode(), tail].concat();
            for len in 0..=bytes.len() {
                let number = if len == plan_len(n) { 0 } else { 30 };
                let case = format_args!("{len} bytes of it");
                expect_read(number, n, &bytes[..len], &doors, case);
            }
        }
    }
}

#[test]
fn a_plan_of_another_number_of_tasks() {
    for n in 1..=MOST_TASKS {
        let mut rng = Rng::new(n as u64);
        let doors = random_doors(&mut rng, MOST_TASKS);
        for other in 0..=2 * MOST_TASKS {
            let number = if n == other { 0 } else { 30 };
            let mut bytes = Plan::random(&mut rng, other).encode();
            let case = format_args!("laid out for {other} tasks");
            expect_read(number, n, &bytes, &doors, case);
            bytes.resize(plan_len(n), 0);
            expect_read(number, n, &bytes, &doors, case);
        }
    }
}

#[test]
fn several_bytes_at_once() {
    let mut times = Times::default();
    for seed in 0..20_000 {
        let mut rng = Rng::new(seed);
        let n = rng.between(1, MOST_TASKS);
        let mut bytes = Plan::random(&mut rng, n).encode();
        for _ in 0..rng.between(1, 3) {
            let at = rng.below(bytes.len());
            bytes[at] = rng.next() as u8;
        }
        if rng.one_in(10) {
            bytes.truncate(rng.below(plan_len(n)));
        }
        let room = rng.between(0, MOST_TASKS + 6);
        let doors = random_doors(&mut rng, room);
        times.add(check_read(n, &bytes, &doors, format_args!("seed {seed}")));
    }
    times.assert_each("answered", &[0, 12, 30], 3_000);
}

#[test]
fn random_bytes() {
    for seed in 0..5_000 {
        let mut rng = Rng::new(seed);
        let n = rng.between(1, MOST_TASKS);
        let any = rng.below(80);
        let len = rng.pick(&[plan_len(n), any]);
        let doors = random_doors(&mut rng, MOST_TASKS);
        let case = format_args!("seed {seed}");
        expect_read(30, n, &rng.bytes(len), &doors, case);
    }
}
