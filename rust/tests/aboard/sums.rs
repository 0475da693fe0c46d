//! Loads beyond 16 bits: six crates that are picked up and delivered, each as heavy as there can be.

use super::calls::{accept, refuse};
use crate::common::examples::{plain, Entries, FEWEST};
use crate::common::finishing::recurse;
use crate::common::lists::loads;
use crate::common::rng::Rng;
use crate::common::sheet::Sheet;

/// Even tasks pick up, and the next ones deliver.
fn six_crates(picked_up: i16, delivered: i16, end_load: u16) -> Sheet {
    let mut sheet = plain(Entries {
        tasks: 12,
        doors: 12,
        ..FEWEST
    });
    sheet.end_load = end_load;
    sheet.tasks = [picked_up, delivered].repeat(6);
    sheet.pairs = (0..6).map(|crate_| (2 * crate_, 2 * crate_ + 1)).collect();
    sheet
}

fn accepted(sheet: &Sheet) {
    let case = format_args!("E {}, w {:?}", sheet.end_load, sheet.tasks);
    assert!(sheet.picked_up() > 65_535, "{case}");
    accept(&mut Rng::new(1), sheet, &recurse(sheet), case);
}

fn refused(sheet: &Sheet) {
    let case = format_args!("E {}, w {:?}", sheet.end_load, sheet.tasks);
    refuse(&mut Rng::new(1), 16, sheet, case);
}

/// No end load is as much as all pick-ups together, and none is needed.
#[test]
fn as_much_delivered_as_picked_up() {
    for end_load in [0, 1, 32_767, 32_768, 65_535] {
        accepted(&six_crates(-i16::MAX, i16::MAX, end_load));
    }
}

/// Each crate loses a kilogram, and the six open together bring the load down by six.
#[test]
fn less_delivered_than_picked_up() {
    accepted(&six_crates(i16::MIN, i16::MAX, 6));
    refused(&six_crates(i16::MIN, i16::MAX, 5));
    refused(&six_crates(i16::MIN, i16::MAX, 0));
    // 6 times 10,922 is 65,532.
    accepted(&six_crates(i16::MIN, i16::MAX - 10_921, 65_532));
    refused(&six_crates(i16::MIN, i16::MAX - 10_921, 65_531));
}

/// Each two crates bring the load down by 65,536, which is more than any end load.
#[test]
fn nothing_delivered() {
    for end_load in [0, 1, 32_768, 65_535] {
        let sheet = six_crates(i16::MIN, 0, end_load);
        assert_eq!(loads(&sheet)[4_095], i64::from(end_load) - 6 * 32_768);
        refused(&sheet);
    }
}

/// The wrong way round the pairs keep no pick-up from being open without its delivery.
#[test]
fn delivered_before_it_is_picked_up() {
    let mut sheet = six_crates(-i16::MAX, i16::MAX, 65_535);
    for pair in &mut sheet.pairs {
        *pair = (pair.1, pair.0);
    }
    refused(&sheet);
    // Two crates at once are 65,534.
    sheet.tasks[4..].fill(0);
    let case = format_args!("two crates, E 65535");
    accept(&mut Rng::new(1), &sheet, &recurse(&sheet), case);
}
