//! Sheet A of document 01 and its neighbours, with the numbers that the documents give.

use super::calls::{check_own_room, expect, Layers};
use crate::common::examples::*;
use crate::common::interface;
use crate::common::rng::Rng;
use crate::common::rounds::enumerate;
use crate::common::sheet::Sheet;
use vanplan::raw;

/// What stands in each cell before a call.
const CELL: u64 = 0xdead_beef_0bad_f00d;
const START: u16 = 0xf00d;

/// Prices with six cells in each layer, and returns the number and all that was lent.
fn priced(sheet: &Sheet) -> (u32, [u64; 6], [u64; 6], u64, u16) {
    let (mut even, mut odd, mut cost, mut start) = ([CELL; 6], [CELL; 6], CELL, START);
    let sheet = sheet.encode();
    let number = interface::price(&sheet, &mut even, &mut odd, &mut cost, &mut start);
    (number, even, odd, cost, start)
}

/// The sheet is priced so, from its only start; returns the row of the full list.
fn prices(sheet: &Sheet, due_cost: u64) -> [u64; 3] {
    let (number, even, _, cost, start) = priced(sheet);
    assert_eq!((number, cost, start), (0, due_cost, 0));
    [even[0], even[1], even[2]]
}

/// The sheet is refused with this number, and nothing was written.
fn refused(sheet: &Sheet, number: u32) {
    assert_eq!(priced(sheet), (number, [CELL; 6], [CELL; 6], CELL, START));
}

/// The row as worked by hand in the tests of planning, from the lists of one task in the odd layer.
#[test]
fn a_priced() {
    let (number, even, odd, cost, start) = priced(&sheet_a());
    assert_eq!((number, cost, start), (0, 92, 0));
    assert_eq!(even[..3], [92, 68, 90]);
    let mut layers = Layers::noise(&mut Rng::new(1), 6, 6);
    (layers.even, layers.odd) = (vec![CELL; 6], vec![CELL; 6]);
    let due = enumerate(&sheet_a()).0;
    assert_eq!(layers.expect(Ok(&due), &even, &odd), Ok(()));
    let sheet = sheet_a().encode();
    let (mut layer, mut cells) = (7, 7);
    let number = interface::price_row(&sheet, &even, &odd, &mut layer, &mut cells);
    assert_eq!((number, layer, cells), (0, 0, 3));
    assert_eq!(raw::price_row(&sheet, &even, &odd), Ok(&[92, 68, 90][..]));
}

#[test]
fn a_with_pairs() {
    assert_eq!(prices(&sheet_a_with_pairs(&[(1, 0)]), 126), [126, 138, 90]);
    assert_eq!(prices(&sheet_a_with_pairs(&[(0, 1)]), 92)[0], 92);
    refused(&sheet_a_with_pairs(&[(0, 1), (1, 0)]), 17);
    refused(&sheet_a_with_pairs(&[(0, 0)]), 17);
}

#[test]
fn a_with_a_rule_on_door_0() {
    for (charge, cost) in [(50, 126), (35, 126), (34, 126), (33, 125)] {
        prices(&sheet_a_with_rule(2, 1, charge), cost);
    }
}

#[test]
fn a_with_other_end_loads() {
    refused(&sheet_a_with_end_load(2), 16);
    prices(&sheet_a_with_end_load(3), 50);
}

/// Points 0, 1 and 2 cost 92, 68 and 90: the first start of the least cost, wherever it stands and however often.
#[test]
fn a_with_other_starts() {
    for (starts, due) in [
        (vec![0, 2], (90, 1)),
        (vec![2, 0, 2], (90, 0)),
        (vec![0, 2, 1], (68, 2)),
        (vec![0, 1, 2, 1], (68, 1)),
        (vec![0, 0, 2, 2], (90, 2)),
    ] {
        let sheet = Sheet {
            starts,
            ..sheet_a()
        };
        let (number, even, _, cost, start) = priced(&sheet);
        assert_eq!((number, (cost, start)), (0, due), "{:?}", sheet.starts);
        assert_eq!(even[..3], [92, 68, 90]);
    }
}

/// The number of a sheet comes before that of the layers.
#[test]
fn a_cut_short() {
    let sheet = sheet_a().encode();
    let mut rng = Rng::new(1);
    for (number, len) in [(10, 0), (10, 45), (13, 46), (13, 101)] {
        for (even, odd) in [(6, 6), (5, 6), (6, 5), (0, 0)] {
            let layers = Layers::noise(&mut rng, even, odd);
            let case = format_args!("{len} bytes of A");
            expect(number, &sheet[..len], Err(number), &layers, case);
        }
        check_own_room(&sheet[..len], Err(number), format_args!("{len} bytes of A"));
    }
}
