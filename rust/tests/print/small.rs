//! Small random sheets: the lines of the cheapest plan by plain enumeration.

use super::program::{plans, refuses};
use super::sheets::{due, small_or_refused};
use crate::common::plan::Plan;
use crate::common::rng::Rng;
use crate::common::rounds::Ties;
use crate::common::sheet::Sheet;
use crate::common::tally::Times;
use std::collections::BTreeMap;

/// What is to be met often, and whether a sheet and its plan have it.
fn kinds(sheet: &Sheet, plan: &Plan, ties: &Ties) -> [(&'static str, bool); 8] {
    let in_order = plan.doors.windows(2).all(|two| two[0] < two[1]);
    [
        ("several cheapest starts", ties.starts > 1),
        ("several cheapest rounds from the first", ties.doors > 1),
        ("pairs", !sheet.pairs.is_empty()),
        ("rules", !sheet.rules.is_empty()),
        ("pick-ups", sheet.tasks.iter().any(|&w| w < 0)),
        ("refused by the old 16", sheet.old_16_applies()),
        ("another start than the first", plan.start > 0),
        ("doors that are not in the sheet's order", !in_order),
    ]
}

#[test]
fn small_random_sheets() {
    let mut met = BTreeMap::<_, usize>::new();
    let mut times = Times::default();
    for seed in 0..800 {
        let sheet = small_or_refused(&mut Rng::new(seed));
        let case = format_args!("seed {seed}");
        match due(&sheet) {
            Ok((due, ties)) => {
                plans(&sheet, &due.plan, case);
                times.add(0);
                for (kind, has_it) in kinds(&sheet, &due.plan, &ties) {
                    *met.entry(kind).or_default() += usize::from(has_it);
                }
            }
            Err(number) => {
                refuses(number, &sheet.encode(), case);
                times.add(number);
            }
        }
    }
    times.assert_each("printed", &[0, 16, 17], 30);
    assert!(times.of(0) >= 400, "{times:?}");
    for (kind, sheets) in met {
        assert!(sheets >= 50, "{kind}: {sheets} sheets");
    }
}
