//! A planner that is kept from round to round: one that is refused leaves it as it was.

use super::calls::figures;
use super::sheets::{due, small_or_refused};
use crate::common::rng::Rng;
use vanplan::{Planner, Refusal};

#[test]
fn a_refused_round_changes_nothing() {
    let mut planner = Planner::new();
    let mut last = None;
    let mut refused_between = 0;
    for seed in 0..2_000 {
        let sheet = small_or_refused(&mut Rng::new(seed));
        let planned = planner.plan(&sheet.encode());
        match due(&sheet) {
            Ok((due, _)) => last = Some(due),
            Err(number) => {
                assert_eq!(planned.map_err(Refusal::number), Err(number), "seed {seed}");
                refused_between += usize::from(last.is_some());
            }
        }
        if let Some(last) = &last {
            assert_eq!(figures(&planner, last), last.cells, "seed {seed}");
        }
    }
    assert!(refused_between > 200, "{refused_between}");
}

#[test]
fn nothing_is_told_before_the_first_round() {
    let mut planner = Planner::new();
    assert!(planner.plan(&[]).is_err());
    for (open, point) in [(0, 0), (1, 0), (0, 1), (u32::MAX, usize::MAX)] {
        assert_eq!(planner.cost_to_finish(open, point), None);
    }
}
