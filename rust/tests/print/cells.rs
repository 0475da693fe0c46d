//! Random sheets of every number of tasks, up to 4,096 cells and one point beyond, against the recursion of `common`.

use super::program::check;
use crate::common::rng::Rng;
use crate::common::sheet::Sheet;
use crate::common::valid::{make_small, valid, Size, ANY};
use std::ops::RangeInclusive;

/// The fewest and most points of a sheet with so many tasks.
type Points = fn(usize) -> (usize, usize);

/// The most points for which so many tasks need no more than 4,096 cells.
fn most_points(tasks: usize) -> usize {
    (4_096 >> tasks).min(64)
}

fn sheet(rng: &mut Rng, tasks: usize, points: (usize, usize)) -> Sheet {
    let size = Size {
        tasks: (tasks, tasks),
        points,
        pairs: (0, rng.pick(&[0, 2, 32])),
        ..ANY
    };
    valid(rng, size)
}

/// Checks sheets of these numbers of tasks: the numbers in them are as large as the sheet allows, or so small that
/// several rounds cost the same.
fn check_sheets(tasks: RangeInclusive<usize>, seeds: u64, points: Points, number: u32) {
    for tasks in tasks {
        for seed in 0..seeds {
            let mut rng = Rng::new(seed);
            let mut sheet = sheet(&mut rng, tasks, points(tasks));
            if seed % 2 == 1 {
                make_small(&mut rng, &mut sheet, 4);
            }
            let case = format_args!("{tasks} tasks, seed {seed}");
            assert_eq!(check(&sheet.encode(), case), number, "{case}");
        }
    }
}

#[test]
fn up_to_4096_cells() {
    check_sheets(1..=12, 16, |tasks| (1, most_points(tasks)), 0);
}

/// From twelve tasks with one point to six with 64.
#[test]
fn exactly_4096_cells() {
    for tasks in 6..=12 {
        assert_eq!(most_points(tasks) << tasks, 4_096);
    }
    let most = |tasks| (most_points(tasks), most_points(tasks));
    check_sheets(6..=12, 8, most, 0);
}

#[test]
fn one_point_more() {
    let one_more = |tasks| (most_points(tasks) + 1, most_points(tasks) + 1);
    check_sheets(7..=12, 4, one_more, 20);
}
