//! Sheet A of document 01 and its neighbours, with the numbers that the document gives.

use super::calls::{expect, expect_cost};
use crate::common::examples::*;
use crate::common::plan::Plan;
use crate::common::sheet::Sheet;

fn plan(doors: [u16; 2], cost: u64) -> Vec<u8> {
    Plan::of(0, &doors, cost).encode()
}

fn costs(sheet: &Sheet, doors: [u16; 2], cost: u64) {
    expect_cost(sheet, 0, &doors, cost);
}

#[test]
fn both_orders_of_a() {
    costs(&sheet_a(), [0, 1], 92);
    costs(&sheet_a(), [1, 0], 126);
}

#[test]
fn refused_for_a() {
    let a = sheet_a().encode();
    for (number, plan) in [
        (30, plan([0, 1], 92)[..35].to_vec()),
        (31, plan([0, 2], 92)),
        (31, plan([2, 1], 92)),
        (32, plan([0, 0], 92)),
        (32, plan([1, 1], 92)),
        (34, plan([0, 1], 91)),
        (34, plan([1, 0], 92)),
    ] {
        expect(number, &a, &plan, format_args!("sheet A"));
    }
}

#[test]
fn a_with_pairs() {
    for (pair, doors, cost, backwards, other_cost) in [
        ((1, 0), [1, 0], 126, [0, 1], 92),
        ((0, 1), [0, 1], 92, [1, 0], 126),
    ] {
        let paired = sheet_a_with_pairs(&[pair]);
        costs(&paired, doors, cost);
        let case = format_args!("pair {pair:?}");
        expect(33, &paired.encode(), &plan(backwards, other_cost), case);
    }
}

/// The first door's own task is open at its step, and at the second step the first door's is not.
#[test]
fn a_with_a_rule_on_door_0() {
    for (watched, least, both, other_first) in [
        (2, 1, 92 + 50, 126),
        (1, 1, 92 + 50, 126 + 50),
        (3, 1, 92 + 50, 126 + 50),
        (3, 2, 92 + 50, 126),
        (1, 2, 92, 126),
        (3, 3, 92, 126),
        (3, 12, 92, 126),
        (0, 1, 92, 126),
    ] {
        let sheet = sheet_a_with_rule(watched, least, 50);
        costs(&sheet, [0, 1], both);
        costs(&sheet, [1, 0], other_first);
    }
    let sheet = sheet_a_with_rule(2, 1, 34);
    costs(&sheet, [0, 1], 126);
    costs(&sheet, [1, 0], 126);
}

#[test]
fn a_with_end_load_3() {
    let sheet = sheet_a_with_end_load(3);
    // The van is empty while task 1 alone is open, so the second leg costs nothing.
    costs(&sheet, [0, 1], 2 * 5 + 4 + 6 + 30);
    costs(&sheet, [1, 0], 3 * 5 + 6 + 4 * 8 + 4 + 20);
}
