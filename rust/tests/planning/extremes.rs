//! Sums as large as a sheet allows and as small, worked by hand; in both every round costs the same.

use super::calls::{check_own_room, expect, Room};
use crate::common::examples::{first_twelve_doors, free, largest, plain, GREATEST, MOST};
use crate::common::finishing::recurse;
use crate::common::plan::Plan;
use crate::common::rng::Rng;
use crate::common::sheet::Sheet;

/// The sheet is planned with this plan.
fn plans(sheet: &Sheet, plan: &Plan) {
    let due = recurse(sheet);
    assert_eq!(&due.plan, plan, "the recursion of the tests");
    let bytes = sheet.encode();
    let case = format_args!("{plan:?}");
    let room = Room::least(&mut Rng::new(1), &due);
    expect(0, &bytes, Ok(&due), &room, case);
    check_own_room(&bytes, Ok(&due), case);
}

/// One door for each task, so that every charge falls due. Every pair is (0, 1), which the doors in turn keep.
#[test]
fn the_greatest_cost() {
    let mut sheet = largest();
    sheet.doors.truncate(12);
    plans(&sheet, &first_twelve_doors(GREATEST));
}

#[test]
fn the_least_cost() {
    let mut sheet = free();
    plans(&sheet, &first_twelve_doors(0));
    // The last doors first: the first by number is still due, and the pair (0, 1) puts task 0 before task 1.
    sheet.doors.reverse();
    let tasks: Vec<u16> = sheet.doors.iter().map(|door| door.task).collect();
    assert_eq!(tasks[..5], [3, 2, 1, 0, 11]);
    let doors = [0, 1, 3, 2, 4, 5, 6, 7, 8, 9, 10, 11];
    plans(&sheet, &Plan::of(0, &doors, 0));
}

/// One start is cheaper than the others by a single kilogram decametre, wherever it stands among the sixteen.
#[test]
fn the_cheapest_of_sixteen_starts() {
    let mut sheet = plain(MOST);
    sheet.pairs.clear();
    sheet.rules.clear();
    sheet.end_load = 0;
    sheet.tasks = vec![1, 0, 0, 0];
    sheet.doors.truncate(4);
    for cheap in 0..16 {
        sheet.starts = (0..16).map(|start| start + 1).collect();
        sheet.starts[cheap] = 20;
        sheet.distances.fill(5);
        sheet.distances[20 * 64] = 4;
        // Task 0 is done first, over the one leg that costs anything.
        let cost = 4 + 4 * 7 + 3;
        plans(&sheet, &Plan::of(cheap as u16, &[0, 1, 2, 3], cost));
    }
}
