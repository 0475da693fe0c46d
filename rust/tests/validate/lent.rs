//! What is lent: any address will do, and so will empty lists, the same bytes twice, and lists longer than memory.

use super::calls::expect;
use super::plans::solution;
use crate::common::examples::sheet_a;
use crate::common::interface;
use crate::common::lent::lend_long;
use crate::common::rng::Rng;
use crate::common::valid::{valid, SMALL};

#[test]
fn sheets_and_plans_at_any_address() {
    let mut rng = Rng::new(1);
    let sheet = valid(&mut rng, SMALL);
    let plan = solution(&mut rng, &sheet);
    for (shift, plan_shift) in (0..8).flat_map(|one| (0..8).map(move |other| (one, other))) {
        let sheet = [rng.bytes(shift), sheet.encode()].concat();
        let plan = [rng.bytes(plan_shift), plan.encode()].concat();
        let case = format_args!("{shift} and {plan_shift} bytes further on");
        expect(0, &sheet[shift..], &plan[plan_shift..], case);
    }
}

/// An empty list may be lent by any pointer but NULL; nothing is read through it.
#[test]
fn empty_lists() {
    let sheet = sheet_a().encode();
    let plan = solution(&mut Rng::new(1), &sheet_a()).encode();
    let mut cost = 5;
    for (number, sheet, plan) in [(10, &[][..], &[][..]), (10, &[], &plan), (30, &sheet, &[])] {
        let answer = interface::validate(sheet, plan, &mut cost);
        assert_eq!((answer, cost), (number, 5));
    }
}

/// What is only read may overlap: a sheet is no plan, a plan no sheet, and both may stand in the same bytes.
#[test]
fn the_same_bytes_for_both() {
    for seed in 0..200 {
        let mut rng = Rng::new(seed);
        let sheet = valid(&mut rng, SMALL);
        let (bytes, plan) = (sheet.encode(), solution(&mut rng, &sheet).encode());
        expect(30, &bytes, &bytes, format_args!("the sheet twice"));
        let number = if plan.len() < 46 { 10 } else { 11 };
        expect(number, &plan, &plan, format_args!("the plan twice"));
        let both = [&bytes[..], &plan].concat();
        let (first, second) = both.split_at(bytes.len());
        expect(0, first, second, format_args!("one behind the other"));
        expect(13, &both, second, format_args!("the plan is in the sheet"));
    }
}

#[test]
fn lengths_that_are_right_in_their_low_32_bits() {
    let sheet = sheet_a().encode();
    let plan = solution(&mut Rng::new(1), &sheet_a()).encode();
    lend_long((1 << 32) + sheet.len(), |long: &mut [u8]| {
        let mut cost = 5;
        long[..sheet.len()].copy_from_slice(&sheet);
        let answer = interface::validate(long, &plan, &mut cost);
        assert_eq!((answer, cost), (13, 5));
        long[..sheet.len()].fill(0);
        long[..plan.len()].copy_from_slice(&plan);
        let long = &long[..(1 << 32) + plan.len()];
        let answer = interface::validate(&sheet, long, &mut cost);
        assert_eq!((answer, cost), (30, 5));
    });
}
