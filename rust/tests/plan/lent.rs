//! The lent lists: nothing behind a plan is looked at or written to, doors behind it become 0, any address will do, and
//! so will empty lists.

use super::calls::{check_write_at, expect_read, expect_write};
use crate::common::interface;
use crate::common::plan::{plan_len, random_doors, Plan, MOST_TASKS};
use crate::common::rng::Rng;
use vanplan::raw;

/// The same plan with other doors behind its own, in other noise: the same bytes, and the rest of the noise stays. Read
/// with more doors lent, those behind its own become 0.
#[test]
fn doors_and_bytes_behind_a_plan() {
    for seed in 0..5_000 {
        let mut rng = Rng::new(seed);
        let n = rng.between(1, MOST_TASKS);
        let plan = Plan::random(&mut rng, n);
        let case = format_args!("seed {seed}");
        for _ in 0..3 {
            let (more_doors, more_bytes) = (rng.below(20), rng.below(30));
            let more_doors = random_doors(&mut rng, more_doors);
            let longer = Plan {
                doors: [plan.doors.clone(), more_doors].concat(),
                ..plan
            };
            let noise = rng.bytes(plan_len(n) + more_bytes);
            expect_write(0, n, &longer, &noise, case);
        }
        let more = rng.below(30);
        let doors = random_doors(&mut rng, n + more);
        expect_read(0, n, &plan.encode(), &doors, case);
    }
}

#[test]
fn bytes_at_any_address() {
    for n in 1..=MOST_TASKS {
        for shift in 0..16 {
            let mut rng = Rng::new(shift as u64);
            let plan = Plan::random(&mut rng, n);
            let noise = rng.bytes(plan_len(n) + 3);
            let case = format_args!("{shift} bytes further on");
            assert_eq!(check_write_at(shift, n, &plan, &noise, case), 0, "{case}");
            let bytes = [rng.bytes(shift), plan.encode()].concat();
            let doors = random_doors(&mut rng, n);
            expect_read(0, n, &bytes[shift..], &doors, case);
        }
    }
}

/// Any address that a number of 16 bits may have.
#[test]
fn doors_at_any_even_address() {
    for n in 1..=MOST_TASKS {
        for shift in 0..8 {
            let mut rng = Rng::new(shift as u64);
            let plan = Plan::random(&mut rng, n);
            let before = random_doors(&mut rng, shift);
            let mut doors = [before.clone(), plan.doors.clone()].concat();
            let case = format_args!("{shift} doors further on");
            let mut buf = rng.bytes(plan_len(n));
            let (start, mut cost, mut written) = (plan.start, plan.cost, 0);
            let number = raw::write_plan(n, start, &doors[shift..], cost, &mut buf, &mut written);
            assert_eq!((number, written), (0, plan_len(n)), "{case}");
            assert_eq!(buf, plan.encode(), "{case}");
            let other = Plan::random(&mut rng, n);
            let (bytes, mut start) = (other.encode(), 0);
            let number = raw::read_plan(n, &bytes, &mut start, &mut doors[shift..], &mut cost);
            assert_eq!(
                (number, start, cost),
                (0, other.start, other.cost),
                "{case}"
            );
            assert_eq!(doors, [before, other.doors].concat(), "{case}");
        }
    }
}

/// An empty list may be lent by any pointer but NULL; nothing is read or written through it.
#[test]
fn empty_lists() {
    for n in 0..=MOST_TASKS + 2 {
        let (mut start, mut doors, mut cost, mut written) = (1, [2; MOST_TASKS], 3, 4);
        let numbers = [
            interface::write_plan(n, 1, &doors, 3, &mut [], &mut written),
            interface::write_plan(n, 1, &[], 3, &mut [], &mut written),
            interface::read_plan(n, &[], &mut start, &mut doors, &mut cost),
            interface::read_plan(n, &[], &mut start, &mut [], &mut cost),
        ];
        let due = match n {
            1..=MOST_TASKS => [21, 12, 30, 12],
            _ => [12; 4],
        };
        assert_eq!(numbers, due, "n {n}");
        let after = (start, doors, cost, written);
        assert_eq!(after, (1, [2; MOST_TASKS], 3, 4), "n {n}");
    }
}
