//! The seven calls of the C interface, over memory that the caller lends: no allocation, and nothing kept.
//!
//! Each returns [`ACCEPTED`], or the number of a refusal, which [`Refusal::number`](crate::Refusal::number) has for each;
//! [`price`] and [`price_row`] return what they found, or the refusal. Where a call refuses, everything that was lent is
//! as it was. [`plan`] and [`price`] take up to 42 KB of stack, and each other call up to 2 KB.

use crate::ffi;
use crate::price::Price;
use crate::refusal::{answered, Refusal};

/// What a call returns that does not refuse.
pub const ACCEPTED: u32 = 0;

/// Reads a task sheet: sets `tasks` to N and `points` to P. Refused: 10 to 17.
///
/// ```
/// use vanplan::raw;
///
/// let sheet = std::fs::read("../examples/a.sheet")?;
/// let (mut tasks, mut points) = (0, 0);
/// assert_eq!(raw::read(&sheet, &mut tasks, &mut points), raw::ACCEPTED);
/// assert_eq!((tasks, points), (2, 3));
/// # Ok::<(), std::io::Error>(())
/// ```
pub fn read(sheet: &[u8], tasks: &mut u64, points: &mut u64) -> u32 {
    // SAFETY: the pointer and length are those of a slice, which the call only reads, and the two others are
    // exclusive references to different cells.
    unsafe { ffi::vanplan_read(sheet.as_ptr(), sheet.len(), tasks, points) }
}

/// Plans a task sheet: sets `cost` to the cost of the cheapest plan, the first 32 + 2N bytes of `buf` to that plan, and
/// cell K times P plus p to the cost to finish from point p with list K open, for every list that the pairs allow. What
/// else was lent stays. Refused: 10 to 17 for the sheet, then 20 for fewer than 2^N times P cells, then 21 if `buf` is
/// too short.
///
/// ```
/// use vanplan::raw;
///
/// let sheet = std::fs::read("../examples/a.sheet")?;
/// let (mut cells, mut buf, mut cost) = ([0; 12], [0; 36], 0);
/// assert_eq!(raw::plan(&sheet, &mut cells, &mut buf, &mut cost), raw::ACCEPTED);
/// assert_eq!(cost, 92);
/// assert_eq!(buf[..], std::fs::read("../examples/a.plan")?);
/// // Three points: cells 3 to 5 have task 0 open alone, 6 to 8 task 1 alone, and 9 to 11 both.
/// assert_eq!((cells[5], cells[7], cells[9]), (84, 64, 92));
/// assert_eq!(raw::plan(&sheet, &mut cells[..11], &mut buf, &mut cost), 20);
/// # Ok::<(), std::io::Error>(())
/// ```
pub fn plan(sheet: &[u8], cells: &mut [u64], buf: &mut [u8], cost: &mut u64) -> u32 {
    // SAFETY: each pointer with a length is that of a slice; the sheet is only read, and the three others are exclusive
    // references to different places.
    unsafe {
        ffi::vanplan_plan(
            sheet.as_ptr(),
            sheet.len(),
            cells.as_mut_ptr(),
            cells.len(),
            buf.as_mut_ptr(),
            buf.len(),
            cost,
        )
    }
}

/// Prices a task sheet: the cost and the start of its cheapest plan. The layer of N's parity, `even` or `odd`, then begins
/// with the cost to finish the whole round from each point, which [`price_row`] returns; the cells of each layer from
/// [`Counts::layer_cells`](crate::Counts::layer_cells) on stay, and what the others hold is left open.
///
/// # Errors
///
/// 10 to 17 for the sheet, then [`Refusal::ShortLayer`], 22, if either layer has fewer cells than that.
///
/// ```
/// use vanplan::{raw, Price, Refusal};
///
/// let sheet = std::fs::read("../examples/a.sheet")?;
/// let (mut even, mut odd) = ([0; 6], [0; 6]);
/// assert_eq!(raw::price(&sheet, &mut even, &mut odd)?, Price { cost: 92, start: 0 });
/// assert_eq!(even[..3], [92, 68, 90]); // from each of the three points
/// let refused = raw::price(&sheet, &mut even, &mut odd[..5]);
/// assert_eq!(refused, Err(Refusal::ShortLayer));
/// # Ok::<(), Box<dyn std::error::Error>>(())
/// ```
pub fn price(sheet: &[u8], even: &mut [u64], odd: &mut [u64]) -> Result<Price, Refusal> {
    let (mut cost, mut start) = (0, 0);
    // SAFETY: each pointer with a length is that of a slice; the sheet is only read, and the four others are exclusive
    // references to different places.
    answered(unsafe {
        ffi::vanplan_price(
            sheet.as_ptr(),
            sheet.len(),
            even.as_mut_ptr(),
            even.len(),
            odd.as_mut_ptr(),
            odd.len(),
            &mut cost,
            &mut start,
        )
    })?;
    Ok(Price { cost, start })
}

/// The part of the layers that, once [`price`] has filled them, has the cost to finish the whole round from each point: the
/// first P cells of `even` if N is even, and of `odd` if it is odd.
///
/// # Errors
///
/// What [`price`] refuses this sheet and layers of these lengths with.
///
/// ```
/// use vanplan::raw;
///
/// let sheet = std::fs::read("../examples/a.sheet")?;
/// let (mut even, mut odd) = ([0; 6], [0; 6]);
/// raw::price(&sheet, &mut even, &mut odd)?;
/// assert_eq!(raw::price_row(&sheet, &even, &odd)?, [92, 68, 90]);
/// # Ok::<(), Box<dyn std::error::Error>>(())
/// ```
pub fn price_row<'a>(sheet: &[u8], even: &'a [u64], odd: &'a [u64]) -> Result<&'a [u64], Refusal> {
    let (mut layer, mut cells) = (0, 0);
    // SAFETY: each pointer with a length is that of a slice, which the call only reads, and the two others are exclusive
    // references to different cells.
    answered(unsafe {
        ffi::vanplan_price_row(
            sheet.as_ptr(),
            sheet.len(),
            even.as_ptr(),
            even.len(),
            odd.as_ptr(),
            odd.len(),
            &mut layer,
            &mut cells,
        )
    })?;
    Ok(&[even, odd][layer][..cells])
}

/// Validates a plan for a task sheet: sets `cost` to its cost. Refused: 10 to 17 for the sheet, then 30 to 34 for the
/// plan.
///
/// ```
/// use vanplan::raw;
///
/// let sheet = std::fs::read("../examples/a.sheet")?;
/// let plan = std::fs::read("../examples/a.plan")?;
/// let mut cost = 0;
/// assert_eq!(raw::validate(&sheet, &plan, &mut cost), raw::ACCEPTED);
/// assert_eq!(cost, 92);
/// # Ok::<(), std::io::Error>(())
/// ```
pub fn validate(sheet: &[u8], plan: &[u8], cost: &mut u64) -> u32 {
    // SAFETY: the pointers with lengths are those of slices, which the call only reads, and the other is an exclusive
    // reference.
    unsafe { ffi::vanplan_validate(sheet.as_ptr(), sheet.len(), plan.as_ptr(), plan.len(), cost) }
}

/// Writes a plan of `n` tasks, with the first `n` of the doors, to the first 32 + 2n bytes of `buf`, and sets `written`
/// to how many these are. What stands behind them stays. Refused: 12 if `n` is not 1 to 12 or there are fewer doors,
/// then 21 if `buf` is too short.
///
/// ```
/// use vanplan::raw;
///
/// let (mut buf, mut written) = ([0xff; 40], 0);
/// assert_eq!(raw::write_plan(2, 0, &[0, 1], 92, &mut buf, &mut written), raw::ACCEPTED);
/// assert_eq!(written, 36);
/// assert_eq!(buf[..36], std::fs::read("../examples/a.plan")?);
/// assert_eq!(buf[36..], [0xff; 4]); // as it was
/// # Ok::<(), std::io::Error>(())
/// ```
pub fn write_plan(
    n: usize,
    start: u16,
    doors: &[u16],
    cost: u64,
    buf: &mut [u8],
    written: &mut usize,
) -> u32 {
    // SAFETY: each pointer with a length is that of a slice; the doors are only read, and the two others are exclusive
    // references to different places.
    unsafe {
        ffi::vanplan_write_plan(
            n,
            start,
            doors.as_ptr(),
            doors.len(),
            cost,
            buf.as_mut_ptr(),
            buf.len(),
            written,
        )
    }
}

/// Reads bytes as a plan of `n` tasks: sets `start`, the first `n` of `doors` to its doors and the others to 0, and
/// `cost`. Refused: 12 if `n` is not 1 to 12 or there are fewer doors, then 30.
///
/// ```
/// use vanplan::raw;
///
/// let plan = std::fs::read("../examples/a.plan")?;
/// let (mut start, mut doors, mut cost) = (7, [7; 4], 7);
/// assert_eq!(raw::read_plan(2, &plan, &mut start, &mut doors, &mut cost), raw::ACCEPTED);
/// assert_eq!((start, doors, cost), (0, [0, 1, 0, 0], 92));
/// # Ok::<(), std::io::Error>(())
/// ```
pub fn read_plan(
    n: usize,
    bytes: &[u8],
    start: &mut u16,
    doors: &mut [u16],
    cost: &mut u64,
) -> u32 {
    // SAFETY: each pointer with a length is that of a slice; the bytes are only read, and the three others are
    // exclusive references to different places.
    unsafe {
        ffi::vanplan_read_plan(
            n,
            bytes.as_ptr(),
            bytes.len(),
            start,
            doors.as_mut_ptr(),
            doors.len(),
            cost,
        )
    }
}
