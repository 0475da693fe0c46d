//! Planning a task sheet: the cheapest plan, and the cost to finish from every point.

use crate::cells::renew;
use crate::limits::MAX_PLAN_BYTES;
use crate::plan::Plan;
use crate::raw;
use crate::refusal::{answered, Refusal};
use crate::sheet::{read, Counts};
use std::fmt;

/// Plans a sheet: its cheapest plan, and of equal ones the first by start, then by first door, second door and so on.
///
/// For one round after the other a [`Planner`] keeps its memory.
///
/// # Errors
///
/// The refusals of the sheet, as [`read`](crate::read()) has them.
///
/// ```
/// use vanplan::{plan, Plan};
///
/// let sheet = std::fs::read("../examples/a.sheet")?;
/// assert_eq!(plan(&sheet)?, Plan { start: 0, doors: vec![0, 1], cost: 92 });
/// # Ok::<(), Box<dyn std::error::Error>>(())
/// ```
pub fn plan(sheet: &[u8]) -> Result<Plan, Refusal> {
    Planner::new().plan(sheet)
}

/// What a cell holds that planning has left: no cost is so large.
const LEFT: u64 = u64::MAX;

/// A planner that keeps its work cells from one round to the next: as many as the largest round so far took, and so at
/// most [`MAX_CELLS`](crate::MAX_CELLS), 2 MiB.
#[derive(Clone, Default)]
pub struct Planner {
    cells: Vec<u64>,
    /// The points of the round that the cells are of, 0 before the first.
    points: usize,
}

impl Planner {
    /// A planner that has no cells yet.
    ///
    /// ```
    /// let planner = vanplan::Planner::new();
    /// assert_eq!(planner.cost_to_finish(0, 0), None); // no round is planned yet
    /// ```
    pub const fn new() -> Planner {
        Planner {
            cells: Vec::new(),
            points: 0,
        }
    }

    /// Plans a sheet, as [`plan`](crate::plan()) does.
    ///
    /// # Errors
    ///
    /// The refusals of the sheet, as [`read`](crate::read()) has them. The planner is then as it was.
    ///
    /// ```
    /// let mut planner = vanplan::Planner::new();
    /// for (name, cost) in [("a", 92), ("a-pair", 126), ("a", 92)] {
    ///     let sheet = std::fs::read(format!("../examples/{name}.sheet"))?;
    ///     assert_eq!(planner.plan(&sheet)?.cost, cost);
    /// }
    /// # Ok::<(), Box<dyn std::error::Error>>(())
    /// ```
    pub fn plan(&mut self, sheet: &[u8]) -> Result<Plan, Refusal> {
        let counts = read(sheet)?;
        self.make_room(counts);
        let mut bytes = [0; MAX_PLAN_BYTES];
        let mut cost = 0;
        answered(raw::plan(sheet, &mut self.cells, &mut bytes, &mut cost))?;
        Plan::from_bytes(&bytes[..counts.plan_bytes()])
    }

    fn make_room(&mut self, counts: Counts) {
        renew(&mut self.cells, counts.cells(), LEFT);
        self.points = counts.points;
    }

    /// The least that the rest of the round planned last costs where the van stands at this point and these tasks are
    /// open: bit j of `open` stands for task j. With no task open it is the end cost of the point.
    ///
    /// None if no round is planned yet, the round has no such point or task, or the pairs do not allow the list: it
    /// has a pair's sender and not its receiver.
    ///
    /// ```
    /// let mut planner = vanplan::Planner::new();
    /// planner.plan(&std::fs::read("../examples/a-pair.sheet")?)?;
    /// assert_eq!(planner.cost_to_finish(0b11, 0), Some(126));
    /// assert_eq!(planner.cost_to_finish(0b01, 2), Some(84)); // task 1 is done
    /// assert_eq!(planner.cost_to_finish(0b10, 0), None); // task 0 is to come behind task 1
    /// assert_eq!(planner.cost_to_finish(0b11, 3), None); // there are three points
    /// # Ok::<(), Box<dyn std::error::Error>>(())
    /// ```
    pub fn cost_to_finish(&self, open: u32, point: usize) -> Option<u64> {
        if point >= self.points {
            return None;
        }
        let row = (open as usize).checked_mul(self.points)?;
        let cell = self.cells.get(row.checked_add(point)?)?;
        Some(*cell).filter(|&cost| cost != LEFT)
    }
}

/// How many cells there are, and not what they hold.
impl fmt::Debug for Planner {
    fn fmt(&self, f: &mut fmt::Formatter<'_>) -> fmt::Result {
        let mut shown = f.debug_struct("Planner");
        shown.field("cells", &self.cells.len());
        shown.field("points", &self.points);
        shown.finish()
    }
}

#[cfg(test)]
mod tests {
    use super::*;

    #[test]
    fn no_more_room_than_the_largest_round_takes() {
        let mut planner = Planner::new();
        let mut largest = 0;
        for (tasks, points) in [(2, 3), (12, 62), (12, 63), (1, 1), (12, 64), (12, 63)] {
            let counts = Counts { tasks, points };
            planner.make_room(counts);
            assert_eq!(planner.cells.len(), counts.cells());
            largest = largest.max(counts.cells());
            assert_eq!(planner.cells.capacity(), largest);
        }
    }

    #[test]
    fn shown_without_its_cells() {
        let mut planner = Planner::new();
        planner.make_room(Counts {
            tasks: 2,
            points: 3,
        });
        assert_eq!(format!("{planner:?}"), "Planner { cells: 12, points: 3 }");
    }
}
