//! Pricing a task sheet: the least cost and its first start, without the plan.

use crate::cells::renew;
use crate::raw;
use crate::refusal::Refusal;
use crate::sheet::{read, Counts};
use std::fmt;

/// What the cheapest plan of a round costs, and from which start.
#[derive(Clone, Copy, Debug, PartialEq, Eq, Hash)]
pub struct Price {
    /// The cost, in kilogram decametres.
    pub cost: u64,
    /// The number of the start, as the sheet numbers its starts: of several from which it costs as little, the first.
    pub start: u16,
}

/// `cost 92 start 0`.
impl fmt::Display for Price {
    fn fmt(&self, f: &mut fmt::Formatter<'_>) -> fmt::Result {
        write!(f, "cost {} start {}", self.cost, self.start)
    }
}

/// Prices a sheet: the cost and the start of the plan that [`plan`](crate::plan()) finds, from three tasks on in less
/// memory.
///
/// For one round after the other a [`Pricer`] keeps its memory.
///
/// # Errors
///
/// The refusals of the sheet, as [`read`](crate::read()) has them.
///
/// ```
/// use vanplan::{price, Price};
///
/// let sheet = std::fs::read("../examples/a.sheet")?;
/// assert_eq!(price(&sheet)?, Price { cost: 92, start: 0 });
/// # Ok::<(), Box<dyn std::error::Error>>(())
/// ```
pub fn price(sheet: &[u8]) -> Result<Price, Refusal> {
    Pricer::new().price(sheet)
}

/// A pricer that keeps its two layers of cells from one round to the next: in each as many as the largest round so far
/// took, and so at most [`MAX_LAYER_CELLS`](crate::MAX_LAYER_CELLS), 924 KiB in both.
#[derive(Clone, Default)]
pub struct Pricer {
    even: Vec<u64>,
    odd: Vec<u64>,
    /// The tasks and points of the round that the layers are of, 0 before the first.
    tasks: usize,
    points: usize,
}

impl Pricer {
    /// A pricer that has no cells yet.
    ///
    /// ```
    /// let pricer = vanplan::Pricer::new();
    /// assert!(pricer.costs_to_finish().is_empty()); // no round is priced yet
    /// ```
    pub const fn new() -> Pricer {
        Pricer {
            even: Vec::new(),
            odd: Vec::new(),
            tasks: 0,
            points: 0,
        }
    }

    /// Prices a sheet, as [`price`](crate::price()) does.
    ///
    /// # Errors
    ///
    /// The refusals of the sheet, as [`read`](crate::read()) has them. The pricer is then as it was.
    ///
    /// ```
    /// let mut pricer = vanplan::Pricer::new();
    /// for (name, cost) in [("a", 92), ("twelve", 2_591_150), ("a", 92)] {
    ///     let sheet = std::fs::read(format!("../examples/{name}.sheet"))?;
    ///     assert_eq!(pricer.price(&sheet)?.cost, cost);
    /// }
    /// # Ok::<(), Box<dyn std::error::Error>>(())
    /// ```
    pub fn price(&mut self, sheet: &[u8]) -> Result<Price, Refusal> {
        let counts = read(sheet)?;
        self.make_room(counts);
        raw::price(sheet, &mut self.even, &mut self.odd)
    }

    fn make_room(&mut self, counts: Counts) {
        for layer in [&mut self.even, &mut self.odd] {
            renew(layer, counts.layer_cells(), 0);
        }
        self.tasks = counts.tasks;
        self.points = counts.points;
    }

    /// The least that the whole round priced last costs from each point, whether or not a start is there; of no points
    /// before the first round.
    ///
    /// ```
    /// let mut pricer = vanplan::Pricer::new();
    /// pricer.price(&std::fs::read("../examples/a.sheet")?)?;
    /// assert_eq!(pricer.costs_to_finish(), [92, 68, 90]);
    /// # Ok::<(), Box<dyn std::error::Error>>(())
    /// ```
    pub fn costs_to_finish(&self) -> &[u64] {
        let layer = [&self.even, &self.odd][self.tasks % 2];
        &layer[..self.points]
    }
}

/// How many cells there are, and not what they hold.
impl fmt::Debug for Pricer {
    fn fmt(&self, f: &mut fmt::Formatter<'_>) -> fmt::Result {
        let mut shown = f.debug_struct("Pricer");
        shown.field("cells", &(self.even.len() + self.odd.len()));
        shown.field("points", &self.points);
        shown.finish()
    }
}

#[cfg(test)]
mod tests {
    use super::*;

    #[test]
    fn no_more_room_than_the_largest_round_takes() {
        let mut pricer = Pricer::new();
        let mut largest = 0;
        for (tasks, points) in [(2, 3), (12, 62), (12, 63), (1, 1), (12, 64), (12, 63)] {
            let counts = Counts { tasks, points };
            pricer.make_room(counts);
            largest = largest.max(counts.layer_cells());
            for layer in [&pricer.even, &pricer.odd] {
                assert_eq!(layer.len(), counts.layer_cells());
                assert_eq!(layer.capacity(), largest);
            }
        }
    }

    #[test]
    fn shown_without_its_cells() {
        let mut pricer = Pricer::new();
        pricer.make_room(Counts {
            tasks: 2,
            points: 3,
        });
        assert_eq!(format!("{pricer:?}"), "Pricer { cells: 12, points: 3 }");
    }
}
