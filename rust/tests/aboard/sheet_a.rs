//! Sheet A with an end load of less than the 3 that task 1 picks up, worked by hand.

use super::calls::refuse;
use super::validating::{expect, expect_cost};
use crate::common::check;
use crate::common::examples::sheet_a_with_end_load_and_pairs;
use crate::common::interface;
use crate::common::plan::Plan;
use crate::common::reading::faults;
use crate::common::rng::Rng;
use vanplan::{plan, price, raw, Price};

/// What stands in each cell before a call.
const CELL: u64 = 0xdead_beef_0bad_f00d;

/// With end load 2 and task 1 before task 0 the van weighs 4 with both open and 7 with task 0 open. With task 1 alone it
/// would weigh -1: that list is never open, and its cells stay.
#[test]
fn planned_with_the_pair() {
    let sheet = sheet_a_with_end_load_and_pairs(2, &[(1, 0)]);
    let bytes = sheet.encode();
    assert_eq!(faults(&bytes), []);
    check::expect(0, &bytes, format_args!("{sheet:?}"));
    let ends = [0, 20, 30];
    let task_0 = [2 * 7 + 4 + 20, 4 + 20, 4 * 7 + 4 + 20];
    let both = [3 * 4 + 6 + 52, 4 * 4 + 6 + 52, 6 + 52];
    let (mut cells, mut buf, mut cost) = ([CELL; 12], [0xa5; 36], CELL);
    let number = interface::plan(&bytes, &mut cells, &mut buf, &mut cost);
    assert_eq!((number, cost), (0, 70));
    assert_eq!(cells[..], [ends, task_0, [CELL; 3], both].concat());
    assert_eq!(buf[..], Plan::of(0, &[1, 0], 70).encode());
    let planned = plan(&bytes).expect("a plan");
    assert_eq!(planned.to_string(), "cost 70 start 0 doors 1 0");
}

#[test]
fn priced_with_the_pair() {
    let bytes = sheet_a_with_end_load_and_pairs(2, &[(1, 0)]).encode();
    assert_eq!(price(&bytes), Ok(Price { cost: 70, start: 0 }));
    let (mut even, mut odd) = ([CELL; 6], [CELL; 6]);
    let (mut cost, mut start) = (CELL, 7);
    let number = interface::price(&bytes, &mut even, &mut odd, &mut cost, &mut start);
    assert_eq!((number, cost, start), (0, 70, 0));
    assert_eq!(raw::price_row(&bytes, &even, &odd), Ok(&[70, 74, 58][..]));
    // The odd layer has the lists of one task, and task 1's is never open.
    assert_eq!(odd, [38, 24, 52, CELL, CELL, CELL]);
}

/// The other order has a leg with a load of -1, which is not costed, whatever cost is stated.
#[test]
fn validated_with_the_pair() {
    let sheet = sheet_a_with_end_load_and_pairs(2, &[(1, 0)]);
    expect_cost(&sheet, 0, &[1, 0], 70);
    let at_minus_1 = 2 * 4 + 4 - 4 + 6 + 30;
    for cost in [at_minus_1, 70, 92, 0, u64::MAX] {
        let plan = Plan::of(0, &[0, 1], cost);
        let case = format_args!("cost {cost}");
        expect(33, &sheet.encode(), &plan.encode(), case);
    }
}

/// All faults, of which the first is answered.
#[test]
fn with_other_pairs_and_end_loads() {
    let mut rng = Rng::new(1);
    for (end_load, pairs, due) in [
        (2, &[][..], &[16][..]),
        // The other way round the pair is of no use: task 1 is still open alone.
        (2, &[(0, 1)], &[16]),
        (2, &[(0, 0)], &[17, 16]),
        (2, &[(1, 1)], &[17, 16]),
        // Only both together are essential, and weigh 4.
        (2, &[(0, 1), (1, 0)], &[17]),
        (2, &[(1, 0), (0, 1)], &[17]),
        (2, &[(1, 0), (0, 0)], &[17]),
        (0, &[], &[16]),
        (0, &[(0, 1)], &[16]),
    ] {
        let sheet = sheet_a_with_end_load_and_pairs(end_load, pairs);
        let case = format_args!("E {end_load}, pairs {pairs:?}");
        assert_eq!(faults(&sheet.encode()), due, "{case}");
        refuse(&mut rng, due[0], &sheet, case);
    }
}

/// Down to an end load of nothing: 5 - 3 with both open, and 5 with task 0.
#[test]
fn every_end_load_below_3_with_the_pair() {
    for (end_load, cost) in [(2, 70), (1, 63), (0, 56)] {
        let sheet = sheet_a_with_end_load_and_pairs(end_load, &[(1, 0), (1, 0)]);
        let load = u64::from(end_load);
        assert_eq!(cost, 3 * (load + 2) + 6 + 4 * (load + 5) + 4 + 20);
        let planned = plan(&sheet.encode()).map(|plan| (plan.doors, plan.cost));
        assert_eq!(planned, Ok((vec![1, 0], cost)), "E {end_load}");
    }
}
