//! The layout of a plan: the plan of sheet A byte by byte, every number of tasks, and values of the whole width.

use super::calls::{expect_read, expect_write, owned};
use crate::common::examples::PLAN_OF_A;
use crate::common::plan::{plan_len, random_doors, Plan, MOST_TASKS};
use crate::common::rng::Rng;

#[test]
fn the_plan_of_a() {
    let plan = Plan::of(0, &[0, 1], 92);
    assert_eq!(plan.encode(), PLAN_OF_A, "the plan of A in the tests");
    let example = include_bytes!("../../../examples/a.plan");
    assert_eq!(example, &PLAN_OF_A, "examples/a.plan");
    let case = format_args!("the plan of A");
    expect_write(0, 2, &plan, &[0xff; 36], case);
    expect_write(21, 2, &plan, &[0xff; 35], case);
    expect_read(0, 2, &PLAN_OF_A, &[7, 7], case);
    expect_read(30, 2, &PLAN_OF_A[..35], &[7, 7], case);
}

/// Typed from document 01, as the head of A is.
#[test]
fn the_heads_of_1_and_12_tasks() {
    for (n, len, head) in [
        (1, 34, [2, 0, 1, 22, 1, 2, 24, 1, 3, 26, 1]),
        (12, 56, [2, 0, 1, 22, 1, 2, 24, 12, 3, 48, 1]),
    ] {
        let bytes = owned(&Plan::of(7, &[7; 12][..n], 7)).to_bytes();
        let bytes = bytes.expect("1 to 12 tasks");
        assert_eq!(bytes.len(), len);
        assert_eq!(bytes[..22], head.map(u16::to_le_bytes).concat());
    }
}

/// Writes a plan and reads its bytes, each compared with the layout.
fn try_both(rng: &mut Rng, plan: &Plan) {
    let n = plan.doors.len();
    let case = format_args!("{plan:?}");
    expect_write(0, n, plan, &rng.bytes(plan_len(n)), case);
    expect_read(0, n, &plan.encode(), &random_doors(rng, n), case);
}

#[test]
fn random_values() {
    for n in 1..=MOST_TASKS {
        let mut rng = Rng::new(n as u64);
        for _ in 0..500 {
            let plan = Plan::random(&mut rng, n);
            try_both(&mut rng, &plan);
        }
    }
}

#[test]
fn each_bit_of_start_doors_and_cost() {
    for n in 1..=MOST_TASKS {
        let mut rng = Rng::new(n as u64);
        let zero = Plan::of(0, &vec![0; n], 0);
        let mut plan = zero.clone();
        for bit in 0..64 {
            plan.cost = 1 << bit;
            try_both(&mut rng, &plan);
        }
        plan = zero.clone();
        for bit in 0..16 {
            plan.start = 1 << bit;
            try_both(&mut rng, &plan);
        }
        for step in 0..n {
            plan = zero.clone();
            for bit in 0..16 {
                plan.doors[step] = 1 << bit;
                try_both(&mut rng, &plan);
            }
        }
    }
}

#[test]
fn the_least_and_the_greatest_values() {
    for n in 1..=MOST_TASKS {
        let mut rng = Rng::new(n as u64);
        let words = [0, u16::MAX];
        for (start, door) in words.map(|start| words.map(|door| (start, door))).concat() {
            for cost in [0, u64::MAX] {
                try_both(&mut rng, &Plan::of(start, &vec![door; n], cost));
            }
        }
    }
}
