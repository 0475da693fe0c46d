//! Reading a sheet: the comparison of the product with the plain reading, and tallies of the numbers that were met.

use super::interface;
use super::lent::Place;
use super::reading::{faults, reading};
use super::rng::Rng;
use super::tally::Times;
use super::tested::ACCEPTED;
use std::fmt::{self, Arguments};
use vanplan::{raw, read, Counts, Refusal};

type Call = fn(&[u8], &mut u64, &mut u64) -> u32;

/// Compares one reading by the product, through C and through the package, with the plain reading, and returns the
/// answer. Of what is lent only the two numbers may change, and those only where the sheet reads.
pub fn check(sheet: &[u8], case: Arguments) -> u32 {
    let mut rng = Rng::of(sheet);
    let lent = [0; 2].map(|_| Place::filled(|| number_to_lend(&mut rng)));
    let (due_number, due_after, due_counts) = match reading(sheet) {
        Ok((tasks, points)) => {
            let after = [lent[0].holding(tasks), lent[1].holding(points)];
            let (tasks, points) = (tasks as usize, points as usize);
            (ACCEPTED, after, Ok(Counts { tasks, points }))
        }
        Err(number) => (number, lent, Err(number)),
    };
    for call in [interface::read as Call, raw::read] {
        let [mut tasks, mut points] = lent;
        let number = call(sheet, tasks.lend(), points.lend());
        let after = [tasks, points];
        let due = (due_number, due_after);
        assert_eq!((number, after), due, "{case}: {}", hex(sheet));
    }
    let counts = read(sheet).map_err(Refusal::number);
    assert_eq!(counts, due_counts, "{case}: {}", hex(sheet));
    due_number
}

/// Any number, or one that a sheet could have.
fn number_to_lend(rng: &mut Rng) -> u64 {
    if rng.one_in(2) {
        rng.next()
    } else {
        rng.pick(&[0, 1, 2, 3, 12, 64, 1 << 32, u64::MAX])
    }
}

/// Like `check`, and the number is told beforehand; 0 stands for a sheet that reads.
pub fn expect(number: u32, sheet: &[u8], case: Arguments) {
    assert_eq!(check(sheet, case), number, "{case}: {}", hex(sheet));
}

/// Bytes that are shown as their number and the beginning of them in hexadecimal.
pub struct Hex<'a>(&'a [u8]);

pub fn hex(bytes: &[u8]) -> Hex<'_> {
    Hex(bytes)
}

impl fmt::Display for Hex<'_> {
    fn fmt(&self, f: &mut fmt::Formatter<'_>) -> fmt::Result {
        const SHOWN: usize = 400;
        write!(f, "{} bytes ", self.0.len())?;
        let mut shown = self.0.iter().take(SHOWN);
        shown.try_for_each(|byte| write!(f, "{byte:02x}"))?;
        f.write_str(if self.0.len() > SHOWN { "..." } else { "" })
    }
}

/// How often each number was answered, 0 for sheets that read; and how often it was the only one to apply, or the
/// first of several.
#[derive(Debug, Default)]
pub struct Tally {
    met: Times,
    alone: Times,
    with_later: Times,
}

impl Tally {
    pub fn check(&mut self, sheet: &[u8], case: Arguments) -> u32 {
        let number = check(sheet, case);
        self.met.add(number);
        number
    }

    /// Like `check`, and tallies also whether the number came alone.
    pub fn check_company(&mut self, sheet: &[u8], case: Arguments) -> u32 {
        let number = self.check(sheet, case);
        match faults(sheet).len() {
            0 => {}
            1 => self.alone.add(number),
            _ => self.with_later.add(number),
        }
        number
    }

    /// Each of these numbers was answered so often or more, and no other number was answered at all.
    pub fn assert_met(&self, numbers: &[u32], least: usize) {
        self.met.assert_each("answered", numbers, least);
    }

    /// Each of these numbers came alone so often or more, and no other number came alone.
    pub fn assert_alone(&self, numbers: &[u32], least: usize) {
        self.alone.assert_each("alone", numbers, least);
    }

    /// Each of these numbers was answered where a later one applied too, so often or more, and no other number was.
    pub fn assert_with_later(&self, numbers: &[u32], least: usize) {
        self.with_later
            .assert_each("with a later number", numbers, least);
    }
}
