//! Why a call refused: the numbers that it can answer with, and what each says.

use crate::raw::ACCEPTED;
use std::error::Error;
use std::fmt;

/// Why a call refused. It wrote nothing then.
///
/// Where several refusals apply, the first in the order in which they are tested is answered; `include/vanplan.h` has
/// that order for each call. It is not that of the numbers: 17 is tested before 16. So a sheet that is refused with 14 has
/// none of the faults that are tested before 14, and may have those that are tested after it. README.md says what a person
/// can do about each.
///
/// ```
/// use vanplan::{plan, Refusal};
///
/// let sheet = std::fs::read("../examples/a-cycle.sheet")?;
/// let advice = match plan(&sheet) {
///     Ok(plan) => plan.to_string(),
///     Err(Refusal::NoOrder) => "the pairs lead in a circle".to_string(),
///     Err(refusal) => refusal.to_string(),
/// };
/// assert_eq!(advice, "the pairs lead in a circle");
/// # Ok::<(), std::io::Error>(())
/// ```
#[derive(Clone, Copy, Debug, PartialEq, Eq, Hash)]
#[non_exhaustive]
pub enum Refusal {
    /// 10: the sheet has fewer than 46 bytes.
    TooShort,
    /// 11: the sheet's kind is not 1.
    WrongKind,
    /// 12: a number of entries is outside the limits: of a sheet's body, or P times P distances; of a plan, 1 to 12
    /// tasks, and as many doors.
    WrongEntries,
    /// 13: a body number or offset is wrong, or the sheet does not end with its last body.
    WrongPlaces,
    /// 14: a task, point, door or least count is out of range, or a task is watched that is not there.
    OutOfRange,
    /// 15: some task has no door.
    NoDoor,
    /// 16: some list of tasks that the pairs allow to be open has a load below zero.
    TooLight,
    /// 17: no order of the tasks keeps every pair.
    NoOrder,
    /// 20: fewer than 2^N times P work cells are lent.
    FewCells,
    /// 21: the buffer for the plan is shorter than 32 + 2N bytes.
    ShortBuffer,
    /// 22: a layer for pricing has fewer than B times P cells, B the largest number of lists of tasks of one size.
    ShortLayer,
    /// 30: the bytes are no plan of as many tasks as the sheet has.
    IllFormed,
    /// 31: a start or a door is not in the sheet.
    NotInSheet,
    /// 32: a task is done twice.
    DoneTwice,
    /// 33: a receiver is done before its sender.
    ReceiverFirst,
    /// 34: the cost is another one than the plan states.
    WrongCost,
}

impl Refusal {
    const ALL: [Refusal; 16] = [
        Refusal::TooShort,
        Refusal::WrongKind,
        Refusal::WrongEntries,
        Refusal::WrongPlaces,
        Refusal::OutOfRange,
        Refusal::NoDoor,
        Refusal::TooLight,
        Refusal::NoOrder,
        Refusal::FewCells,
        Refusal::ShortBuffer,
        Refusal::ShortLayer,
        Refusal::IllFormed,
        Refusal::NotInSheet,
        Refusal::DoneTwice,
        Refusal::ReceiverFirst,
        Refusal::WrongCost,
    ];

    /// Its row of the table of refusals: the number and the words.
    const fn row(self) -> (u32, &'static str) {
        match self {
            Refusal::TooShort => (10, "the sheet has fewer than 46 bytes"),
            Refusal::WrongKind => (11, "the sheet's kind is not 1"),
            Refusal::WrongEntries => (12, "a number of entries is outside the limits"),
            Refusal::WrongPlaces => (
                13,
                "a body number or offset is wrong, or the sheet does not end with its last body",
            ),
            Refusal::OutOfRange => (
                14,
                "a task, point, door or least count is out of range, or a task is watched that is not there",
            ),
            Refusal::NoDoor => (15, "some task has no door"),
            Refusal::TooLight => (
                16,
                "some list of tasks that the pairs allow to be open has a load below zero",
            ),
            Refusal::NoOrder => (17, "no order of the tasks keeps every pair"),
            Refusal::FewCells => (20, "fewer than 2^N times P work cells are lent"),
            Refusal::ShortBuffer => (21, "the buffer for the plan is shorter than 32 + 2N bytes"),
            Refusal::ShortLayer => (22, "a layer for pricing has fewer than B times P cells"),
            Refusal::IllFormed => (30, "the bytes are no plan of as many tasks as the sheet has"),
            Refusal::NotInSheet => (31, "a start or a door is not in the sheet"),
            Refusal::DoneTwice => (32, "a task is done twice"),
            Refusal::ReceiverFirst => (33, "a receiver is done before its sender"),
            Refusal::WrongCost => (34, "the cost is another one than the plan states"),
        }
    }

    /// The refusal that a call of [`raw`](crate::raw) returned, if this version knows the number.
    ///
    /// ```
    /// use vanplan::{raw, Refusal};
    ///
    /// let number = raw::read(&[], &mut 0, &mut 0);
    /// assert_eq!(Refusal::from_number(number), Some(Refusal::TooShort));
    /// assert_eq!(Refusal::from_number(raw::ACCEPTED), None);
    /// ```
    pub fn from_number(number: u32) -> Option<Refusal> {
        Refusal::ALL.into_iter().find(|r| r.number() == number)
    }

    /// The number that the C interface returns.
    ///
    /// ```
    /// assert_eq!(vanplan::Refusal::NoOrder.number(), 17);
    /// ```
    pub const fn number(self) -> u32 {
        self.row().0
    }

    /// What it says, in words.
    ///
    /// ```
    /// let words = vanplan::Refusal::NoOrder.meaning();
    /// assert_eq!(words, "no order of the tasks keeps every pair");
    /// ```
    pub const fn meaning(self) -> &'static str {
        self.row().1
    }
}

/// What the number that a raw call returned says. No call of this version returns one that is not in the table, so such
/// a number is that of another library, of which nothing is known.
pub(crate) fn answered(number: u32) -> Result<(), Refusal> {
    if number == ACCEPTED {
        return Ok(());
    }
    let refusal = Refusal::from_number(number);
    Err(refusal.unwrap_or_else(|| panic!("the library that is linked answered {number}")))
}

/// `refused 17: no order of the tasks keeps every pair`.
impl fmt::Display for Refusal {
    fn fmt(&self, f: &mut fmt::Formatter<'_>) -> fmt::Result {
        write!(f, "refused {}: {}", self.number(), self.meaning())
    }
}

impl Error for Refusal {}

#[cfg(test)]
mod tests {
    use super::*;

    #[test]
    fn every_number_has_its_refusal() {
        assert_eq!(answered(ACCEPTED), Ok(()));
        let numbers = (10..=17).chain(20..=22).chain(30..=34);
        let answers: Vec<Refusal> = numbers.filter_map(|n| answered(n).err()).collect();
        assert_eq!(answers, Refusal::ALL);
    }

    #[test]
    #[should_panic(expected = "answered 18")]
    fn a_number_of_another_library() {
        let _ = answered(18);
    }
}
