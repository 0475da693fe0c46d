//! A plan in Rust: made by a planner or by hand, written as bytes, read from them, validated.

use crate::limits::{plan_bytes, MAX_PLAN_BYTES, MAX_PLAN_DOORS};
use crate::refusal::{answered, Refusal};
use crate::{raw, validate};
use std::fmt;

/// A plan of a round: from which start, through which doors, and what it states as its cost.
///
/// Any values can be written and read. Whether the plan is one for a given sheet is for [`Plan::validate`] to say.
#[derive(Clone, Debug, PartialEq, Eq, Hash)]
pub struct Plan {
    /// The number of the start, as the sheet numbers its starts.
    pub start: u16,
    /// The number of a door for each task, in the order in which they are driven to.
    pub doors: Vec<u16>,
    /// The cost, in kilogram decametres.
    pub cost: u64,
}

impl Plan {
    /// Writes the plan as bytes, 32 and two for each door.
    ///
    /// # Errors
    ///
    /// [`Refusal::WrongEntries`] if there are not 1 to 12 doors.
    ///
    /// ```
    /// use vanplan::{Plan, Refusal};
    ///
    /// let mut plan = Plan { start: 0, doors: vec![0, 1], cost: 92 };
    /// assert_eq!(plan.to_bytes()?, std::fs::read("../examples/a.plan")?);
    /// plan.doors.clear();
    /// assert_eq!(plan.to_bytes(), Err(Refusal::WrongEntries));
    /// # Ok::<(), Box<dyn std::error::Error>>(())
    /// ```
    pub fn to_bytes(&self) -> Result<Vec<u8>, Refusal> {
        let mut bytes = vec![0; MAX_PLAN_BYTES];
        let (doors, mut written) = (&self.doors, 0);
        let number = raw::write_plan(
            doors.len(),
            self.start,
            doors,
            self.cost,
            &mut bytes,
            &mut written,
        );
        answered(number)?;
        bytes.truncate(written);
        Ok(bytes)
    }

    /// Reads the bytes of a plan; their length tells how many doors it has.
    ///
    /// # Errors
    ///
    /// [`Refusal::IllFormed`] if the length is that of no plan, or a byte before 22 is not as laid out for that length.
    ///
    /// ```
    /// use vanplan::{Plan, Refusal};
    ///
    /// let bytes = std::fs::read("../examples/a.plan")?;
    /// assert_eq!(Plan::from_bytes(&bytes), Ok(Plan { start: 0, doors: vec![0, 1], cost: 92 }));
    /// assert_eq!(Plan::from_bytes(&bytes[1..]), Err(Refusal::IllFormed));
    /// # Ok::<(), std::io::Error>(())
    /// ```
    pub fn from_bytes(bytes: &[u8]) -> Result<Plan, Refusal> {
        // A length that no plan has is not that of the nearest number of doors either, and is refused for that.
        let doors = bytes.len().saturating_sub(plan_bytes(0)) / 2;
        let doors = doors.clamp(1, MAX_PLAN_DOORS);
        let mut plan = Plan {
            start: 0,
            doors: vec![0; doors],
            cost: 0,
        };
        answered(raw::read_plan(
            doors,
            bytes,
            &mut plan.start,
            &mut plan.doors,
            &mut plan.cost,
        ))?;
        Ok(plan)
    }

    /// Validates the plan for a sheet, and returns its cost, which is the one that it states. It may be dearer than
    /// need be.
    ///
    /// # Errors
    ///
    /// As [`validate`](crate::validate()) refuses the plan's bytes. A plan that cannot be written, of no doors or of
    /// more than 12, is refused as no bytes are, with [`Refusal::IllFormed`] where the sheet reads.
    ///
    /// ```
    /// use vanplan::{Plan, Refusal};
    ///
    /// let sheet = std::fs::read("../examples/a.sheet")?;
    /// let mut plan = Plan { start: 0, doors: vec![1, 0], cost: 126 };
    /// assert_eq!(plan.validate(&sheet), Ok(126)); // a solution, though not the cheapest
    /// plan.doors[1] = 1;
    /// assert_eq!(plan.validate(&sheet), Err(Refusal::DoneTwice));
    /// # Ok::<(), std::io::Error>(())
    /// ```
    pub fn validate(&self, sheet: &[u8]) -> Result<u64, Refusal> {
        validate(sheet, &self.to_bytes().unwrap_or_default())
    }
}

/// One line: `cost 92 start 0 doors 0 1`.
impl fmt::Display for Plan {
    fn fmt(&self, f: &mut fmt::Formatter<'_>) -> fmt::Result {
        write!(f, "cost {} start {} doors", self.cost, self.start)?;
        self.doors.iter().try_for_each(|door| write!(f, " {door}"))
    }
}
