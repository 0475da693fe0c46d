//! Every combination of faults that can exist: the first in the order in which they are tested is answered.
//!
//! A fault applies here by what is there. A sheet of fewer than 46 bytes has no bodies, so 10 comes with 11, 12 and 13
//! and not with 14 to 17, which speak of entries; its answer is 10 in any case. All other combinations exist: kind,
//! numbers of entries, layout, ranges, doors, loads and pairs can go wrong independently of each other. So there are
//! 127 combinations without 10, and 8 with it.

use crate::common::check::Tally;
use crate::common::faulty::{all_but_10, short_with_faults, with_faults};
use crate::common::reading::faults;
use crate::common::rng::Rng;
use crate::common::tested::{all_but_the_last, first_applying, in_order, READING};

/// Every set of these numbers, the empty one too, each in their order.
fn sets(numbers: &[u32]) -> Vec<Vec<u32>> {
    let mut sets = vec![vec![]];
    for &number in numbers {
        let with_it: Vec<Vec<u32>> = sets
            .iter()
            .map(|set| [&set[..], &[number]].concat())
            .collect();
        sets.extend(with_it);
    }
    sets
}

/// The sheet has exactly the faults that were put into it, and is refused with the first of them, 0 for none.
fn check_set(tally: &mut Tally, sheet: &[u8], due: &[u32], seed: u64) {
    let case = format_args!("seed {seed}, faults {due:?}");
    assert_eq!(faults(sheet), due, "{case}: other faults than were put in");
    let first = first_applying(&READING, |number| due.contains(&number));
    let answer = tally.check_company(sheet, case);
    assert_eq!(answer, first.unwrap_or(0), "{case}");
}

#[test]
fn every_set_of_faults_from_11_on() {
    let numbers = all_but_10();
    let sets = sets(&numbers);
    assert_eq!(sets.len(), 128);
    let mut tally = Tally::default();
    for set in sets {
        let seeds = match set.len() {
            0 | 1 => 2_000,
            2 => 1_100,
            _ => 100,
        };
        for seed in 0..seeds {
            let sheet = with_faults(&mut Rng::new(seed), &set);
            check_set(&mut tally, &sheet, &set, seed);
        }
    }
    tally.assert_met(&[0, 11, 12, 13, 14, 15, 16, 17], 2_000);
    tally.assert_alone(&[11, 12, 13, 14, 15, 16, 17], 2_000);
    tally.assert_with_later(all_but_the_last(&numbers), 1_100);
}

#[test]
fn every_set_of_faults_of_a_sheet_too_short() {
    let sets = sets(&in_order(&READING, &[11, 12, 13]));
    assert_eq!(sets.len(), 8);
    let mut tally = Tally::default();
    for set in sets {
        let due = in_order(&READING, &[&[10], &set[..]].concat());
        let seeds = if set.len() == 1 { 2_000 } else { 1_000 };
        for seed in 0..seeds {
            let sheet = short_with_faults(&mut Rng::new(seed), &set);
            check_set(&mut tally, &sheet, &due, seed);
        }
    }
    tally.assert_met(&[10], 11_000);
    tally.assert_alone(&[10], 1_000);
    tally.assert_with_later(&[10], 10_000);
}
