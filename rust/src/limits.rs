//! The limits of documents 01 and 02, by the names that they have in `include/vanplan.h`.

/// The bytes of the longest task sheet. A caller that reads one byte more sees that its input is longer.
pub const MAX_SHEET_BYTES: usize = 9_638;

/// The doors of the longest plan: one for each of as many tasks as a sheet can have.
pub const MAX_PLAN_DOORS: usize = 12;

/// The bytes of the longest plan.
pub const MAX_PLAN_BYTES: usize = plan_bytes(MAX_PLAN_DOORS);

/// The work cells that are enough for planning any sheet, which has at most 64 points.
pub const MAX_CELLS: usize = cells(MAX_PLAN_DOORS, 64);

/// The cells of each of the two layers that are enough for pricing any sheet.
pub const MAX_LAYER_CELLS: usize = layer_cells(MAX_PLAN_DOORS, 64);

/// The version of this package, which is that of `include/vanplan.h`.
pub const VERSION: &str = env!("CARGO_PKG_VERSION");

/// The work cells that planning needs; for more than 64 bits hold, as many as they do.
pub const fn cells(tasks: usize, points: usize) -> usize {
    if tasks >= usize::BITS as usize {
        return usize::MAX;
    }
    (1_usize << tasks).saturating_mul(points)
}

/// The cells of each layer that pricing needs, held to 64 bits too.
pub const fn layer_cells(tasks: usize, points: usize) -> usize {
    most_lists(tasks).saturating_mul(points)
}

/// The largest number of lists of tasks of one size: the binomial of all tasks over half of them.
const fn most_lists(tasks: usize) -> usize {
    /// The most tasks for which 64 bits hold it.
    const MOST: usize = 67;
    if tasks > MOST {
        return usize::MAX;
    }
    let half = tasks / 2;
    let (mut lists, mut size) = (1, 0);
    while size < half {
        size += 1;
        // The binomial of tasks - half + size over size.
        lists = lists * (tasks - half + size) as u128 / size as u128;
    }
    lists as usize
}

/// The bytes of a plan, held to 64 bits too.
pub const fn plan_bytes(doors: usize) -> usize {
    doors.saturating_mul(2).saturating_add(32)
}

#[cfg(test)]
mod tests {
    use super::*;

    #[test]
    fn any_numbers() {
        assert_eq!((cells(0, 5), cells(3, 5), cells(12, 64)), (5, 40, 262_144));
        for (tasks, points) in [(64, 1), (63, 2), (62, 64), (usize::MAX, 1)] {
            assert_eq!(cells(tasks, points), usize::MAX);
        }
        assert_eq!((plan_bytes(0), plan_bytes(12)), (32, 56));
        assert_eq!(plan_bytes(usize::MAX / 2), usize::MAX);
    }

    #[test]
    fn layers() {
        let due = [1, 1, 2, 3, 6, 10, 20, 35, 70, 126, 252, 462, 924];
        for (tasks, lists) in due.into_iter().enumerate() {
            assert_eq!(
                (layer_cells(tasks, 1), layer_cells(tasks, 64)),
                (lists, 64 * lists)
            );
            // As many as planning takes for one and two tasks, and fewer from three on.
            let (both, planning) = (2 * layer_cells(tasks, 5), cells(tasks, 5));
            assert!(tasks == 0 || (both == planning) == (tasks < 3) && both <= planning);
        }
        assert_eq!(layer_cells(67, 1), 14_226_520_737_620_288_370);
        for (tasks, points) in [(67, 2), (68, 1), (60, 1_000), (usize::MAX, 1)] {
            assert_eq!(layer_cells(tasks, points), usize::MAX);
        }
    }
}
