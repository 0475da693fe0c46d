//! Reading a task sheet: whether it is one, and how many tasks and points it has.

use crate::refusal::{answered, Refusal};
use crate::{limits, raw};

/// The numbers of tasks and points of a sheet that reads, which tell how much room planning and pricing it take.
#[derive(Clone, Copy, Debug, PartialEq, Eq, Hash)]
pub struct Counts {
    /// N, the number of tasks, 1 to 12.
    pub tasks: usize,
    /// P, the number of points, 1 to 64.
    pub points: usize,
}

impl Counts {
    /// The work cells that planning needs, 2^N times P. For numbers that no sheet has it stops at `usize::MAX`.
    ///
    /// ```
    /// let counts = vanplan::Counts { tasks: 2, points: 3 };
    /// assert_eq!(counts.cells(), 12);
    /// ```
    pub const fn cells(self) -> usize {
        limits::cells(self.tasks, self.points)
    }

    /// The cells of each of the two layers that pricing needs, B times P, where B is the largest number of lists of tasks
    /// of one size: 924 of twelve tasks. It stops at `usize::MAX` too.
    ///
    /// ```
    /// let counts = vanplan::Counts { tasks: 12, points: 64 };
    /// assert_eq!((2 * counts.layer_cells(), counts.cells()), (118_272, 262_144));
    /// ```
    pub const fn layer_cells(self) -> usize {
        limits::layer_cells(self.tasks, self.points)
    }

    /// The bytes of a plan, 32 + 2N. It stops at `usize::MAX` too.
    ///
    /// ```
    /// let counts = vanplan::Counts { tasks: 2, points: 3 };
    /// assert_eq!(counts.plan_bytes(), 36);
    /// ```
    pub const fn plan_bytes(self) -> usize {
        limits::plan_bytes(self.tasks)
    }
}

/// Reads a task sheet.
///
/// # Errors
///
/// The first of the refusals 10 to 17 that applies to the sheet, in the order in which they are tested.
///
/// ```
/// use vanplan::{read, Counts, Refusal};
///
/// let sheet = std::fs::read("../examples/a.sheet")?;
/// assert_eq!(read(&sheet), Ok(Counts { tasks: 2, points: 3 }));
/// assert_eq!(read(&sheet[..45]), Err(Refusal::TooShort));
/// # Ok::<(), std::io::Error>(())
/// ```
pub fn read(sheet: &[u8]) -> Result<Counts, Refusal> {
    let (mut tasks, mut points) = (0, 0);
    answered(raw::read(sheet, &mut tasks, &mut points))?;
    // At most 12 and 64.
    Ok(Counts {
        tasks: tasks as usize,
        points: points as usize,
    })
}
