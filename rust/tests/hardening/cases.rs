//! Fixed cases through every call, and enough of all that is asked for among them.

use crate::common::fuzzing::calls::{Call, PRODUCT};
use crate::common::fuzzing::case::Case;
use crate::common::fuzzing::compare::Memory;
use crate::common::fuzzing::counts::Counts;
use crate::common::fuzzing::sheets::largest;
use crate::common::rng::Rng;
use std::sync::OnceLock;

/// Cases for several tests, made once.
pub fn some_cases() -> &'static [Case] {
    static CASES: OnceLock<Vec<Case>> = OnceLock::new();
    CASES.get_or_init(|| (0..1_000).map(Case::new).collect())
}

/// Makes every call on a case; whatever differs fails the test.
fn try_case(case: &Case, seed: u64, memory: &mut Memory, counts: &mut Counts) {
    for call in Call::ALL {
        let outcome = memory.compare(&PRODUCT, call, case);
        counts.add(call, case, &outcome);
        assert_eq!(outcome.err(), None, "seed {seed}, {}", call.name());
    }
}

/// In proportion to their number, at least as many of each answer, planned, tied, long, planned where the old 16 refused,
/// priced and accepted as `./fuzz` has to show in ten million calls.
#[test]
fn any_sheets_and_plans() {
    let (mut memory, mut counts) = (Memory::new(), Counts::default());
    for seed in 0..28_600 {
        try_case(&Case::new(seed), seed, &mut memory, &mut counts);
    }
    assert_eq!(counts.calls(), 200_200);
    assert_eq!(counts.too_few(), Vec::<String>::new(), "{counts:?}");
}

#[test]
fn the_largest_sheets() {
    let (mut memory, mut counts) = (Memory::new(), Counts::default());
    for seed in 0..4 {
        let mut rng = Rng::new(seed);
        let sheet = largest(&mut rng).encode();
        let case = Case::with_sheet(&mut rng, sheet);
        try_case(&case, seed, &mut memory, &mut counts);
    }
    assert!(counts.planned() > 0 && counts.priced() > 0, "{counts:?}");
}

#[test]
fn what_was_not_met_is_told() {
    let (mut memory, mut counts) = (Memory::new(), Counts::default());
    let all = 7 + 9 + 11 + 10 + 10 + 14 + 3 + 3;
    assert_eq!(counts.too_few().len(), all);
    for (seed, case) in (0..10).zip(some_cases()) {
        try_case(case, seed, &mut memory, &mut counts);
    }
    let too_few = counts.too_few();
    assert!((1..all).contains(&too_few.len()), "{too_few:?}");
}

/// 300,000 are asked for in ten million, so 300 in ten thousand.
#[test]
fn what_was_met_too_seldom_is_told() {
    let (mut counts, case) = (Counts::default(), &some_cases()[0]);
    let told = "planned: 299 in 10000 calls, fewer than 300000 in 10000000";
    (0..9_701).for_each(|_| counts.add(Call::Read, case, &Ok(0)));
    (0..299).for_each(|_| counts.add(Call::Plan, case, &Ok(0)));
    assert!(counts.too_few().contains(&told.to_string()));
    (0..11).for_each(|_| counts.add(Call::Plan, case, &Ok(0)));
    let is_told = |told: &String| told.starts_with("planned:");
    assert!(!counts.too_few().iter().any(is_told));
}
