//! Sheet A of document 01 and its neighbours, with the numbers that the document gives.

use super::calls::{check_own_room, expect, Room};
use super::sheets::due;
use crate::common::examples::*;
use crate::common::finishing::recurse;
use crate::common::interface;
use crate::common::plan::{plan_len, Plan};
use crate::common::rng::Rng;
use crate::common::sheet::Sheet;

/// What stands in each cell, and in each byte, before a call.
const CELL: u64 = 0xdead_beef_0bad_f00d;
const BYTE: u8 = 0xa5;

/// Plans with twelve cells and 36 bytes, and returns the number and all that was lent.
fn planned(sheet: &Sheet) -> (u32, [u64; 12], [u8; 36], u64) {
    let (mut cells, mut plan, mut cost) = ([CELL; 12], [BYTE; 36], CELL);
    let number = interface::plan(&sheet.encode(), &mut cells, &mut plan, &mut cost);
    (number, cells, plan, cost)
}

/// The sheet is planned with these doors at this cost; returns the cells.
fn plans(sheet: &Sheet, doors: [u16; 2], due_cost: u64) -> [u64; 12] {
    let (number, cells, plan, cost) = planned(sheet);
    assert_eq!((number, cost), (0, due_cost));
    assert_eq!(plan[..], Plan::of(0, &doors, due_cost).encode());
    cells
}

/// The sheet is refused with this number, and nothing was written.
fn refused(sheet: &Sheet, number: u32) {
    assert_eq!(planned(sheet), (number, [CELL; 12], [BYTE; 36], CELL));
}

/// The cells as worked by hand, the plan as in the document, and the enumeration of the tests.
#[test]
fn a_planned() {
    let ends = [0, 20, 30];
    let task_0 = [2 * 15 + 4 + 20, 4 + 20, 4 * 15 + 4 + 20];
    let task_1 = [3 * 7 + 6 + 30, 4 * 7 + 6 + 30, 6 + 30];
    // Door 0 first from points 0 and 1, door 1 first from point 2.
    let both = [2 * 12 + 4 + 64, 4 + 64, 6 + 84];
    let (number, cells, plan, cost) = planned(&sheet_a());
    assert_eq!((number, plan, cost), (0, PLAN_OF_A, 92));
    assert_eq!(cells[..], [ends, task_0, task_1, both].concat());
    assert_eq!(cells, [0, 20, 30, 54, 24, 84, 57, 64, 36, 92, 68, 90]);
    let (due, ties) = due(&sheet_a()).expect("sheet A reads");
    assert_eq!(due.plan, Plan::of(0, &[0, 1], 92));
    assert_eq!(due.cells, cells.map(Some));
    assert_eq!((ties.starts, ties.doors), (1, 1));
}

#[test]
fn a_with_pairs() {
    let cells = plans(&sheet_a_with_pairs(&[(1, 0)]), [1, 0], 126);
    assert_eq!(cells[6..9], [CELL; 3]);
    assert_eq!(cells[..6], [0, 20, 30, 54, 24, 84]);
    assert_eq!(cells[9..], [126, 138, 90]);
    let cells = plans(&sheet_a_with_pairs(&[(0, 1)]), [0, 1], 92);
    assert_eq!(cells[3..6], [CELL; 3]);
    refused(&sheet_a_with_pairs(&[(0, 1), (1, 0)]), 17);
    refused(&sheet_a_with_pairs(&[(0, 0)]), 17);
}

#[test]
fn a_with_a_rule_on_door_0() {
    plans(&sheet_a_with_rule(2, 1, 50), [1, 0], 126);
    plans(&sheet_a_with_rule(2, 1, 35), [1, 0], 126);
    plans(&sheet_a_with_rule(2, 1, 34), [0, 1], 126);
    plans(&sheet_a_with_rule(2, 1, 33), [0, 1], 125);
}

#[test]
fn a_with_other_end_loads() {
    refused(&sheet_a_with_end_load(2), 16);
    // The van is empty while task 1 alone is open, so the second leg costs nothing.
    plans(&sheet_a_with_end_load(3), [0, 1], 2 * 5 + 4 + 6 + 30);
    // The first load is 65,537, which has 17 bits.
    plans(&sheet_a_with_end_load(65_535), [0, 1], 393_242);
}

/// Rules that ask for two open tasks each: the cells as an enumeration gives them, and the plan from the last start.
#[test]
fn four_rules_planned() {
    let (mut cells, mut plan, mut cost) = ([CELL; 17], [BYTE; 39], CELL);
    let number = interface::plan(&four_rules().encode(), &mut cells, &mut plan, &mut cost);
    assert_eq!((number, cost), (0, 16));
    let due_cells = [5, 9, 38, 10, 11, 35, 12, 36, 31, 9, 47, 17, 22, 15, 42, 16];
    assert_eq!((&cells[..16], cells[16]), (&due_cells[..], CELL));
    let due_plan = Plan::of(2, &[2, 1, 0], 16);
    assert_eq!((&plan[..38], plan[38]), (&due_plan.encode()[..], BYTE));
    let (due, _) = due(&four_rules()).expect("it reads");
    assert_eq!(due.plan, due_plan);
    assert_eq!(due.cells, due_cells.map(Some));
}

/// The number of a sheet comes before those of the room.
#[test]
fn a_cut_short() {
    let sheet = sheet_a().encode();
    let mut rng = Rng::new(1);
    for (number, len) in [(10, 0), (10, 45), (13, 46), (13, 101)] {
        for (cells, plan) in [(12, 36), (11, 36), (12, 35), (0, 0)] {
            let room = Room::noise(&mut rng, cells, plan);
            let case = format_args!("{len} bytes of A");
            expect(number, &sheet[..len], Err(number), &room, case);
        }
    }
}

#[test]
fn twelve_tasks_are_planned_and_thirteen_are_not() {
    for tasks in 2..=14 {
        let sheet = sheet_a_with_tasks(tasks);
        let bytes = sheet.encode();
        let case = format_args!("A with {tasks} tasks");
        let mut rng = Rng::new(tasks as u64);
        let room = Room::noise(&mut rng, 3 << tasks, plan_len(tasks));
        if tasks <= 12 {
            let due = recurse(&sheet);
            expect(0, &bytes, Ok(&due), &room, case);
            check_own_room(&bytes, Ok(&due), case);
        } else {
            expect(12, &bytes, Err(12), &room, case);
            check_own_room(&bytes, Err(12), case);
        }
    }
}
