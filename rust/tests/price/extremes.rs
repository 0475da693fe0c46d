//! Sums as large as a sheet allows and as small, worked by hand, and the first of many starts.

use super::calls::{check_own_room, expect, Layers};
use crate::common::examples::{free, largest, plain, GREATEST, MOST};
use crate::common::finishing::recurse;
use crate::common::pricing::price;
use crate::common::rng::Rng;
use crate::common::sheet::Sheet;

/// The sheet is priced so.
fn prices(sheet: &Sheet, due_price: (u64, u16)) {
    let due = recurse(sheet);
    assert_eq!(price(&due.plan), due_price, "the recursion of the tests");
    let bytes = sheet.encode();
    let case = format_args!("{due_price:?}");
    let layers = Layers::least(&mut Rng::new(1), &due);
    expect(0, &bytes, Ok(&due), &layers, case);
    check_own_room(&bytes, Ok(&due), case);
}

#[test]
fn the_greatest_cost() {
    let mut sheet = largest();
    sheet.doors.truncate(12);
    prices(&sheet, (GREATEST, 0));
}

#[test]
fn the_least_cost() {
    prices(&free(), (0, 0));
}

/// One start, or several, are cheaper than the others by a single kilogram decametre.
#[test]
fn the_first_of_the_cheapest_of_sixteen_starts() {
    let mut sheet = plain(MOST);
    sheet.pairs.clear();
    sheet.rules.clear();
    sheet.end_load = 0;
    sheet.tasks = vec![1, 0, 0];
    sheet.doors.truncate(3);
    sheet.distances[20 * 64] = 4;
    let cost = 4 + 3 * 7 + 3;
    for cheap in 0..16 {
        sheet.starts = (0..16).map(|start| start + 1).collect();
        sheet.starts[cheap] = 20;
        prices(&sheet, (cost, cheap as u16));
        sheet.starts[cheap..].fill(20);
        prices(&sheet, (cost, cheap as u16));
    }
    sheet.starts = (0..16).collect();
    prices(&sheet, (cost + 1, 0));
}
