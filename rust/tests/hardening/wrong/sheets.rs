//! Wrong reading and planning of sheets.

use super::assert_told;
use crate::common::interface;
use crate::common::lists::is_allowed;
use crate::common::plan::{plan_len, HEAD};
use crate::common::reading::{decode, faults};
use crate::common::tested::ACCEPTED;
use crate::stand_in::{plan, read};

#[test]
fn reads_everything() {
    let wrong = read(|sheet, tasks, points| {
        interface::read(sheet, tasks, points);
        ACCEPTED
    });
    assert_told("answers 0, and not", wrong);
}

#[test]
fn refuses_with_the_last_number_that_applies() {
    let wrong = read(|sheet, tasks, points| {
        let number = interface::read(sheet, tasks, points);
        faults(sheet).pop().unwrap_or(number)
    });
    assert_told("answers 1", wrong);
}

#[test]
fn refuses_by_the_old_16() {
    let wrong = read(|sheet, tasks, points| {
        let number = interface::read(sheet, tasks, points);
        if number == ACCEPTED && decode(sheet).old_16_applies() {
            return 16;
        }
        number
    });
    assert_told("answers 16, and not 0", wrong);
}

#[test]
fn tests_16_before_17() {
    let wrong = read(|sheet, tasks, points| {
        let number = interface::read(sheet, tasks, points);
        if number == 17 && faults(sheet).contains(&16) {
            return 16;
        }
        number
    });
    assert_told("answers 16, and not 17", wrong);
}

#[test]
fn reads_n_for_p() {
    let wrong = read(|sheet, tasks, points| interface::read(sheet, points, tasks));
    assert_told("*tasks", wrong);
}

#[test]
fn reading_writes_on_refusal() {
    let wrong = read(|sheet, tasks, points| {
        let number = interface::read(sheet, tasks, points);
        if number != ACCEPTED {
            *points = 0;
        }
        number
    });
    assert_told("*points", wrong);
}

#[test]
fn plans_everything() {
    let wrong = plan(|sheet, cells, plan, cost| {
        interface::plan(sheet, cells, plan, cost);
        ACCEPTED
    });
    assert_told("answers 0, and not", wrong);
}

#[test]
fn planning_tests_the_bytes_before_the_cells() {
    let wrong = plan(|sheet, cells, plan, cost| {
        let number = interface::plan(sheet, cells, plan, cost);
        if number == 20 && plan.len() < plan_len(decode(sheet).tasks.len()) {
            return 21;
        }
        number
    });
    assert_told("answers 21, and not 20", wrong);
}

#[test]
fn planning_writes_the_cost_on_refusal() {
    let wrong = plan(|sheet, cells, plan, cost| {
        let number = interface::plan(sheet, cells, plan, cost);
        if number != ACCEPTED {
            *cost = 0;
        }
        number
    });
    assert_told("*cost", wrong);
}

#[test]
fn planning_writes_a_byte_on_refusal() {
    let wrong = plan(|sheet, cells, plan, cost| {
        let number = interface::plan(sheet, cells, plan, cost);
        if number != ACCEPTED && !plan.is_empty() {
            plan[0] ^= 1;
        }
        number
    });
    assert_told("plan: element 0", wrong);
}

#[test]
fn plans_without_cells() {
    let wrong =
        plan(|sheet, cells, plan, cost| interface::plan(sheet, &mut cells.to_vec(), plan, cost));
    assert_told("cells", wrong);
}

#[test]
fn fills_a_list_that_is_not_essential() {
    let wrong = plan(|sheet, cells, plan, cost| {
        let number = interface::plan(sheet, cells, plan, cost);
        if number == ACCEPTED {
            let sheet = decode(sheet);
            let mut lists = 0..1 << sheet.tasks.len();
            if let Some(list) = lists.find(|&list| !is_allowed(&sheet, list)) {
                cells[list * sheet.points.len()] ^= 1;
            }
        }
        number
    });
    assert_told("cells", wrong);
}

#[test]
fn planning_clears_the_bytes_behind_the_plan() {
    let wrong = plan(|sheet, cells, plan, cost| {
        let number = interface::plan(sheet, cells, plan, cost);
        if number == ACCEPTED {
            plan[plan_len(decode(sheet).tasks.len())..].fill(0);
        }
        number
    });
    assert_told("plan: element", wrong);
}

#[test]
fn plans_from_the_last_of_equal_starts() {
    let wrong = plan(|sheet, cells, plan, cost| {
        let number = interface::plan(sheet, cells, plan, cost);
        if number == ACCEPTED {
            let starts = decode(sheet).starts;
            let point = starts[usize::from(plan[HEAD])];
            let last = starts.iter().rposition(|&other| other == point);
            plan[HEAD] = last.expect("the start itself") as u8;
        }
        number
    });
    assert_told("plan: element 22", wrong);
}
