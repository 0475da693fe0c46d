//! How many cells each layer needs, for every number of tasks.

use super::calls::{check_own_room, expect, Layers};
use crate::common::examples::sheet_a_with_tasks;
use crate::common::finishing::recurse;
use crate::common::pricing::most_lists;
use crate::common::rng::Rng;
use vanplan::{Counts, MAX_CELLS, MAX_LAYER_CELLS};

/// B for 1 to 12 tasks: the largest number of lists of one size, which document 02 asks for.
const MOST_LISTS: [usize; 12] = [1, 2, 3, 6, 10, 20, 35, 70, 126, 252, 462, 924];

#[test]
fn counted_and_told() {
    for (tasks, lists) in (1..).zip(MOST_LISTS) {
        assert_eq!(most_lists(tasks), lists);
        for points in [1, 3, 64] {
            let counts = Counts { tasks, points };
            assert_eq!(counts.layer_cells(), lists * points);
            // As many as planning takes for one and two tasks, and fewer from three on.
            let less = counts.cells().checked_sub(2 * counts.layer_cells());
            assert_eq!(less.map(|less| less > 0), Some(tasks >= 3));
        }
    }
    assert_eq!((2 * MAX_LAYER_CELLS, MAX_CELLS), (118_272, 262_144));
}

/// Of sheet A with two to twelve tasks, three points: B times 3 cells are enough, and one less of either layer is not.
#[test]
fn just_enough_and_one_too_few() {
    for tasks in 2..=12 {
        let sheet = sheet_a_with_tasks(tasks);
        let due = recurse(&sheet);
        let bytes = sheet.encode();
        let case = format_args!("A with {tasks} tasks");
        let cells = 3 * MOST_LISTS[tasks - 1];
        let mut rng = Rng::new(tasks as u64);
        for (number, even, odd) in [
            (0, cells, cells),
            (22, cells - 1, cells),
            (22, cells, cells - 1),
            (0, cells + 1, cells + 2),
            (22, 2 * cells, 0),
            (22, 0, 2 * cells),
        ] {
            let layers = Layers::noise(&mut rng, even, odd);
            expect(number, &bytes, Ok(&due), &layers, case);
        }
        check_own_room(&bytes, Ok(&due), case);
    }
}

#[test]
fn thirteen_tasks_are_refused() {
    let sheet = sheet_a_with_tasks(13).encode();
    for cells in [0, 3, 5_148, 6_000] {
        let layers = Layers::noise(&mut Rng::new(1), cells, cells);
        expect(12, &sheet, Err(12), &layers, format_args!("{cells} cells"));
    }
}
