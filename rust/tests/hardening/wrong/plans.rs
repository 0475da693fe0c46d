//! Wrong validating, writing and reading of plans.

use super::assert_told;
use crate::common::interface;
use crate::common::plan::{plan_len, Plan, MOST_TASKS};
use crate::common::tested::ACCEPTED;
use crate::stand_in::{read_plan, validate, write_plan};

#[test]
fn accepts_everything() {
    let wrong = validate(|sheet, plan, cost| {
        interface::validate(sheet, plan, cost);
        ACCEPTED
    });
    assert_told("answers 0, and not", wrong);
}

#[test]
fn accepts_nothing() {
    let wrong = validate(
        |sheet, plan, cost| match interface::validate(sheet, plan, cost) {
            ACCEPTED => 34,
            number => number,
        },
    );
    assert_told("answers 34, and not 0", wrong);
}

#[test]
fn validates_without_the_cost() {
    let wrong = validate(|sheet, plan, _| interface::validate(sheet, plan, &mut 0));
    assert_told("*cost", wrong);
}

#[test]
fn validating_writes_on_refusal() {
    let wrong = validate(|sheet, plan, cost| {
        let number = interface::validate(sheet, plan, cost);
        if number != ACCEPTED {
            *cost = 0;
        }
        number
    });
    assert_told("*cost", wrong);
}

#[test]
fn writes_with_n_in_32_bits() {
    let wrong = write_plan(|n, start, doors, cost, buf, written| {
        interface::write_plan(n as u32 as usize, start, doors, cost, buf, written)
    });
    assert_told("answers", wrong);
}

#[test]
fn writing_clears_the_bytes_behind_the_plan() {
    let wrong = write_plan(|n, start, doors, cost, buf, written| {
        let number = interface::write_plan(n, start, doors, cost, buf, written);
        if number == ACCEPTED {
            buf[plan_len(n)..].fill(0);
        }
        number
    });
    assert_told("buf: element", wrong);
}

#[test]
fn writing_writes_on_refusal() {
    let wrong = write_plan(|n, start, doors, cost, buf, written| {
        let number = interface::write_plan(n, start, doors, cost, buf, written);
        *written = plan_len(n.min(MOST_TASKS));
        number
    });
    assert_told("*written", wrong);
}

#[test]
fn reads_any_bytes_as_a_plan() {
    let wrong = read_plan(|n, bytes, start, doors, cost| {
        match interface::read_plan(n, bytes, start, doors, cost) {
            30 => ACCEPTED,
            number => number,
        }
    });
    assert_told("answers 0, and not 30", wrong);
}

#[test]
fn leaves_the_doors_behind_the_plan() {
    let wrong = read_plan(|n, bytes, start, doors, cost| {
        let end = doors.len().min(n);
        interface::read_plan(n, bytes, start, &mut doors[..end], cost)
    });
    assert_told("doors", wrong);
}

#[test]
fn reading_a_plan_writes_on_refusal() {
    let wrong = read_plan(|n, bytes, start, doors, cost| {
        let number = interface::read_plan(n, bytes, start, doors, cost);
        if number == 30 {
            if let Some(plan) = Plan::in_places(n, bytes) {
                doors[..n].copy_from_slice(&plan.doors);
            }
        }
        number
    });
    assert_told("doors", wrong);
}
