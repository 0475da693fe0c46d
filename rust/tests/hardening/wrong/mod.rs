//! Calls that are wrong in one thing, which the comparison has to tell. They stand in for the product, and are it otherwise.

mod plans;
mod prices;
mod sheets;

use super::cases::some_cases;
use super::stand_in::StandIn;
use crate::common::fuzzing::compare::Memory;

/// Something is told on some of the cases, and it begins like this.
fn assert_told(beginning: &str, (call, calls): StandIn) {
    let mut memory = Memory::new();
    let outcomes = some_cases()
        .iter()
        .map(|case| memory.compare(&calls, call, case));
    let told: Vec<String> = outcomes.filter_map(Result::err).collect();
    assert!(told.len() >= 5, "{told:?}");
    let other = told.iter().find(|told| !told.starts_with(beginning));
    assert_eq!(other, None);
}
