//! The package's own plan: of a number of doors that no plan has it is refused as no bytes are, behind the sheet's own
//! numbers.

use crate::common::examples::{sheet_a, sheet_a_with_end_load};
use vanplan::{Plan, Refusal};

#[test]
fn as_many_doors_as_no_plan_has() {
    for doors in [0, 13, 14, 100, 65_536 + 2] {
        let doors = vec![0; doors];
        let plan = Plan {
            start: 0,
            doors,
            cost: 92,
        };
        let sheet = sheet_a().encode();
        assert_eq!(plan.validate(&sheet), Err(Refusal::IllFormed));
        assert_eq!(plan.validate(&sheet[..45]), Err(Refusal::TooShort));
        let too_light = sheet_a_with_end_load(2).encode();
        assert_eq!(plan.validate(&too_light), Err(Refusal::TooLight));
    }
}

#[test]
fn a_line_for_people() {
    let plan = Plan {
        start: 3,
        doors: vec![10, 2],
        cost: 92,
    };
    assert_eq!(plan.to_string(), "cost 92 start 3 doors 10 2");
}
