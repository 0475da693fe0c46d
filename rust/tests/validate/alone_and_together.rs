//! Every set of the numbers 30 to 34 that can apply at once: the first in the order in which they are tested is the
//! answer.
//!
//! What each of them says of a plan to which an earlier one applies is laid down with `plan_faults`: 34 comes with 31,
//! and otherwise all sets exist. So there are 12 sets without 30 and 12 with it, and every pair of numbers is in one of
//! them.

use super::calls::check;
use super::plans::with_plan_faults;
use crate::common::judging::plan_faults;
use crate::common::rng::Rng;
use crate::common::tally::Times;
use crate::common::tested::{all_applying, first_applying, JUDGING};

/// Every set of the numbers that can apply at once, each in the order in which they are tested.
fn sets() -> Vec<Vec<u32>> {
    let all = (0..32).map(|set| all_applying(&JUDGING, |number| set >> (number - 30) & 1 == 1));
    let exists = |set: &Vec<u32>| set.contains(&34) || !set.contains(&31);
    all.filter(exists).collect()
}

#[test]
fn every_set_of_numbers() {
    assert_eq!(sets().len(), 24);
    for set in sets() {
        let mut times = Times::default();
        for seed in 0..400 {
            let case = format_args!("seed {seed}, faults {set:?}");
            let (sheet, plan) = with_plan_faults(&mut Rng::new(seed), &set);
            assert_eq!(plan_faults(&sheet, &plan), set, "{case}");
            times.add(check(&sheet.encode(), &plan, case));
        }
        let first = first_applying(&JUDGING, |number| set.contains(&number));
        times.assert_each("answered", &[first.unwrap_or(0)], 400);
    }
}
