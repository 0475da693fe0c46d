//! What is lent: empty lists, lists of every size, at any address, and lists far longer than needed.

use super::calls::{expect, Room};
use super::sheets::due;
use crate::common::examples::{plain, sheet_a, Entries, MIDDLE};
use crate::common::finishing::recurse;
use crate::common::interface;
use crate::common::lent::lend_long;
use crate::common::plan::plan_len;
use crate::common::rng::Rng;
use crate::common::rounds::Due;

fn due_of_a() -> Due {
    due(&sheet_a()).expect("sheet A reads").0
}

/// An empty list may be lent by any pointer but NULL; nothing is read or written through it.
#[test]
fn empty_lists() {
    let sheet = sheet_a().encode();
    let (mut cells, mut plan, mut cost) = ([7; 12], [8; 36], 9);
    let numbers = [
        interface::plan(&[], &mut [], &mut [], &mut cost),
        interface::plan(&[], &mut cells, &mut plan, &mut cost),
        interface::plan(&sheet, &mut [], &mut [], &mut cost),
        interface::plan(&sheet, &mut [], &mut plan, &mut cost),
        interface::plan(&sheet, &mut cells, &mut [], &mut cost),
    ];
    assert_eq!(numbers, [10, 10, 20, 20, 21]);
    assert_eq!((cells, plan, cost), ([7; 12], [8; 36], 9));
}

/// Lengths that are too little for sheet A in their low 8 or 16 bits.
#[test]
fn long_lists() {
    let (sheet, due) = (sheet_a().encode(), due_of_a());
    let mut rng = Rng::new(1);
    for cells in [256, 256 + 11, 4_096, 65_536, 65_536 + 11, 300_000] {
        for plan in [256, 256 + 35, 4_096, 65_536, 65_536 + 35, 100_000] {
            let room = Room::noise(&mut rng, cells, plan);
            expect(0, &sheet, Ok(&due), &room, format_args!("sheet A"));
        }
    }
}

#[test]
fn sheets_and_plans_at_any_address() {
    let (sheet, due) = (sheet_a().encode(), due_of_a());
    let mut rng = Rng::new(1);
    for (shift, plan_shift) in (0..8).flat_map(|one| (0..8).map(move |other| (one, other))) {
        let sheet = [rng.bytes(shift), sheet.clone()].concat();
        let room = Room::noise(&mut rng, 12, 36);
        let (number, after) = room.after(Ok(&due));
        let mut cells = room.cells;
        let mut plan = [rng.bytes(plan_shift), room.plan].concat();
        let mut cost = room.cost;
        let answer = interface::plan(
            &sheet[shift..],
            &mut cells,
            &mut plan[plan_shift..],
            &mut cost,
        );
        assert_eq!((answer, cost), (number, after.cost));
        assert_eq!(cells, after.cells);
        assert_eq!(plan[plan_shift..], after.plan);
    }
}

/// Every number of cells and bytes up to a little more than A needs, which are 12 and 36, each with 300 seeds of noise.
#[test]
fn every_size() {
    let (sheet, due) = (sheet_a().encode(), due_of_a());
    let mut rng = Rng::new(1);
    for (cells, plan) in (0..=16).flat_map(|cells| (0..=40).map(move |plan| (cells, plan))) {
        let number = match (cells, plan) {
            (0..12, _) => 20,
            (_, 0..36) => 21,
            _ => 0,
        };
        for _ in 0..300 {
            let room = Room::noise(&mut rng, cells, plan);
            expect(number, &sheet, Ok(&due), &room, format_args!("sheet A"));
        }
    }
}

/// The lists of 1 to 12 tasks, in document 01's own numbers.
const LISTS: [usize; 12] = [2, 4, 8, 16, 32, 64, 128, 256, 512, 1_024, 2_048, 4_096];

/// For each number of tasks, three points: as many cells as lists times points are enough, and one fewer is not.
#[test]
fn just_enough_cells_and_one_too_few() {
    for (tasks, lists) in (1..).zip(LISTS) {
        let sheet = plain(Entries {
            tasks,
            doors: 2 * tasks,
            pairs: 0,
            ..MIDDLE
        });
        let due = recurse(&sheet);
        let bytes = sheet.encode();
        let mut rng = Rng::new(tasks as u64);
        for (number, cells) in [(0, 3 * lists), (20, 3 * lists - 1), (0, 3 * lists + 1)] {
            let room = Room::noise(&mut rng, cells, plan_len(tasks));
            let case = format_args!("{tasks} tasks");
            expect(number, &bytes, Ok(&due), &room, case);
        }
    }
}

#[test]
fn a_buffer_that_is_too_short_in_its_low_32_bits() {
    let (sheet, due) = (sheet_a().encode(), due_of_a());
    lend_long((1 << 32) + 35, |plan: &mut [u8]| {
        let (mut cells, mut cost) = ([7; 12], 5);
        let number = interface::plan(&sheet, &mut cells, plan, &mut cost);
        assert_eq!((number, cost), (0, 92));
        assert_eq!(plan[..36], due.plan.encode());
        assert_eq!(plan[36..1_000], [0; 964]);
    });
}

#[test]
fn cells_that_are_too_few_in_their_low_32_bits() {
    let (sheet, due) = (sheet_a().encode(), due_of_a());
    lend_long((1 << 32) + 11, |cells: &mut [u64]| {
        let (mut plan, mut cost) = ([7; 36], 5);
        let number = interface::plan(&sheet, cells, &mut plan, &mut cost);
        assert_eq!((number, cost), (0, 92));
        assert_eq!(plan[..], due.plan.encode());
        let due_cells: Vec<u64> = due.cells.into_iter().flatten().collect();
        assert_eq!(cells[..12], due_cells);
        assert_eq!(cells[12..1_000], [0; 988]);
    });
}
