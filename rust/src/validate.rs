//! Validating the bytes of a plan for a task sheet. This is the judge of document 01.

use crate::raw;
use crate::refusal::{answered, Refusal};

/// Validates the bytes of a plan for a sheet, and returns the plan's cost, which is the one that it states. It may be
/// dearer than need be.
///
/// # Errors
///
/// The first refusal that applies, in the order in which they are tested: those of the sheet, as [`read`](crate::read())
/// has them, then 30 to 34 for the plan.
///
/// ```
/// use vanplan::{validate, Refusal};
///
/// let sheet = std::fs::read("../examples/a.sheet")?;
/// let mut plan = std::fs::read("../examples/a.plan")?;
/// assert_eq!(validate(&sheet, &plan), Ok(92));
/// plan[28] = 91; // the cost that it states
/// assert_eq!(validate(&sheet, &plan), Err(Refusal::WrongCost));
/// # Ok::<(), std::io::Error>(())
/// ```
pub fn validate(sheet: &[u8], plan: &[u8]) -> Result<u64, Refusal> {
    let mut cost = 0;
    answered(raw::validate(sheet, plan, &mut cost))?;
    Ok(cost)
}
