//! Small random sheets against the plain enumeration, with just enough room, too little and more. The recursion and the
//! judge of the tests agree with the enumeration.

use super::calls::{check, check_own_room, expect, needed, Room};
use super::sheets::{due, small_or_refused};
use crate::common::finishing::recurse;
use crate::common::judging::judging_for;
use crate::common::rng::Rng;
use crate::common::rounds::{Due, Ties};
use crate::common::sheet::Sheet;
use crate::common::tally::Times;
use crate::common::valid::{valid, SMALL};

/// How many sheets were planned, and how many of them had several cheapest starts, several cheapest rounds from the
/// first of these, lists that are not essential, and an end load for which the old 16 refused them.
#[derive(Debug, Default)]
struct Met {
    planned: usize,
    starts_tied: usize,
    doors_tied: usize,
    lists_left_out: usize,
    taken_aboard: usize,
}

impl Met {
    fn add(&mut self, sheet: &Sheet, due: &Due, ties: &Ties) {
        self.planned += 1;
        self.starts_tied += usize::from(ties.starts > 1);
        self.doors_tied += usize::from(ties.doors > 1);
        self.lists_left_out += usize::from(due.cells.contains(&None));
        self.taken_aboard += usize::from(sheet.old_16_applies());
    }
}

/// Plans a sheet that reads in rooms of every kind.
fn plan_in_rooms(rng: &mut Rng, sheet: &[u8], due: &Due, times: &mut Times, seed: u64) {
    let (cells, plan) = needed(due);
    for (number, cells, plan) in [
        (0, cells, plan),
        (20, cells - 1, plan),
        (21, cells, plan - 1),
        (20, cells - 1, plan - 1),
        (20, rng.below(cells), plan + rng.below(40)),
        (21, cells + rng.below(70), rng.below(plan)),
        (0, cells + rng.below(70), plan + rng.below(40)),
    ] {
        let room = Room::noise(rng, cells, plan);
        expect(number, sheet, Ok(due), &room, format_args!("seed {seed}"));
        times.add(number);
    }
}

#[test]
fn small_random_sheets() {
    let (mut met, mut times) = (Met::default(), Times::default());
    for seed in 0..8_500 {
        let mut rng = Rng::new(seed);
        let sheet = match seed {
            0..8_000 => small_or_refused(&mut rng),
            _ => valid(&mut rng, SMALL),
        };
        let due = due(&sheet);
        let case = format_args!("seed {seed}");
        if let Ok((due, _)) = &due {
            assert_eq!(&recurse(&sheet), due, "{case}: {sheet:?}");
            let judged = judging_for(&sheet, &due.plan.encode());
            assert_eq!(judged, Ok(due.plan.cost), "{case}: {sheet:?}");
        }
        let bytes = sheet.encode();
        match &due {
            Ok((due, ties)) => {
                met.add(&sheet, due, ties);
                plan_in_rooms(&mut rng, &bytes, due, &mut times, seed);
                check_own_room(&bytes, Ok(due), case);
            }
            &Err(number) => {
                let (cells, plan) = (rng.below(200), rng.below(60));
                let room = Room::noise(&mut rng, cells, plan);
                times.add(check(&bytes, Err(number), &room, case));
                check_own_room(&bytes, Err(number), case);
            }
        }
    }
    times.assert_each("answered", &[0, 16, 17, 20, 21], 200);
    assert!(met.planned >= 2_000, "{met:?}");
    assert!(met.starts_tied >= 200, "{met:?}");
    assert!(met.doors_tied >= 200, "{met:?}");
    assert!(met.lists_left_out >= 200, "{met:?}");
    assert!(met.taken_aboard >= 200, "{met:?}");
}
