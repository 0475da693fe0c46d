//! Small random sheets that the old 16 refused, through every call: those that are planned now, and those that are not.

use super::calls::{accept, refuse};
use crate::common::lists::{least_end_load, loads};
use crate::common::lively::small;
use crate::common::reading::faults;
use crate::common::rng::Rng;
use crate::common::rounds::{enumerate, Due};
use crate::common::sheet::Sheet;
use crate::common::tally::Times;

/// A sheet with an end load of less than all pick-ups together: as much as the essential lists need, a kilogram less, or
/// any. Now and then a pair closes a cycle.
fn once_refused(rng: &mut Rng) -> Sheet {
    const TRIES: usize = 100;
    for _ in 0..TRIES {
        let mut sheet = small(rng);
        if rng.one_in(4) {
            let any = rng.below(sheet.tasks.len()) as u16;
            let (sender, receiver) = sheet.pairs.first().copied().unwrap_or((any, any));
            sheet.pairs.push((receiver, sender));
        }
        let (least, picked_up) = (least_end_load(&sheet), sheet.picked_up());
        if picked_up > 0 {
            let most = picked_up.min(65_536) - 1;
            let any = rng.between(0, most as usize) as i64;
            let end_load = rng.pick(&[least, least - 1, any]);
            sheet.end_load = end_load.clamp(0, most) as u16;
            return sheet;
        }
    }
    panic!("no sheet with a pick-up in {TRIES} tries");
}

/// How many lists are left out with a load below zero; there is one, that of all pick-ups. Its cells are to stay as lent.
fn light_lists(sheet: &Sheet, due: &Due) -> usize {
    let points = sheet.points.len();
    let rows = due.cells.chunks(points);
    let light = rows.zip(loads(sheet)).filter(|&(_, load)| load < 0);
    let rows: Vec<&[Option<u64>]> = light.map(|(row, _)| row).collect();
    assert!(rows.iter().all(|row| row.iter().all(Option::is_none)));
    rows.len()
}

#[test]
fn thousands_that_the_old_16_refused() {
    let (mut times, mut both, mut light) = (Times::default(), 0, 0);
    for seed in 0..4_000 {
        let mut rng = Rng::new(seed);
        let sheet = once_refused(&mut rng);
        assert!(sheet.old_16_applies(), "seed {seed}");
        let case = format_args!("seed {seed}");
        let faults = faults(&sheet.encode());
        match faults.first() {
            None => {
                let (due, _) = enumerate(&sheet);
                light += light_lists(&sheet, &due);
                accept(&mut rng, &sheet, &due, case);
            }
            Some(&number) => refuse(&mut rng, number, &sheet, case),
        }
        if faults.len() > 1 {
            assert_eq!(faults, [17, 16], "{case}");
            both += 1;
        }
        times.add(faults.first().copied().unwrap_or(0));
    }
    times.assert_each("answered", &[0, 16, 17], 500);
    assert!(both >= 200, "{both} with 17 and 16");
    assert!(light >= times.of(0), "{light} lists in {times:?}");
}
