//! A chain of pairs leaves a single order, and one list of each size is essential: what is open from some step of it on.

use super::calls::{accept, refuse};
use crate::common::examples::{plain, Entries, FEWEST};
use crate::common::finishing::recurse;
use crate::common::lists::essential;
use crate::common::rng::Rng;
use crate::common::sheet::Sheet;

/// The tasks are done in this order, and the van has each of these loads on the leg to its task, behind which it has
/// the end load.
fn sheet(order: &[u16], loads: &[i16], end_load: u16) -> Sheet {
    let tasks = order.len();
    let mut sheet = plain(Entries {
        tasks,
        doors: tasks,
        ..FEWEST
    });
    sheet.end_load = end_load;
    let behind = loads[1..].iter().copied().chain([end_load as i16]);
    for ((&task, &load), behind) in order.iter().zip(loads).zip(behind) {
        sheet.tasks[usize::from(task)] = load - behind;
    }
    sheet.pairs = order.windows(2).map(|two| (two[0], two[1])).collect();
    sheet
}

/// On one leg, each in turn, the load is nothing, or one below; on the others it is small, so that the van is emptied and
/// filled from one to the next.
#[test]
fn one_leg_at_nothing_and_below() {
    let mut once_refused = 0;
    for seed in 0..40 {
        let mut rng = Rng::new(seed);
        let tasks = 1 + seed as usize % 12;
        let order = rng.order(tasks);
        for step in 0..tasks {
            let mut loads: Vec<i16> = (0..tasks).map(|_| rng.below(20) as i16).collect();
            let end_load = rng.below(20) as u16;
            let case = format_args!("seed {seed}, step {step}");
            loads[step] = 0;
            let empty = sheet(&order, &loads, end_load);
            assert_eq!(essential(&empty).len(), tasks, "{case}");
            accept(&mut rng, &empty, &recurse(&empty), case);
            once_refused += usize::from(empty.old_16_applies());
            loads[step] = -1;
            refuse(&mut rng, 16, &sheet(&order, &loads, end_load), case);
        }
    }
    assert!(once_refused > 150, "{once_refused} by the old 16");
}
