//! One validation by the product, through C and through the package, compared with the plain judge, the lent number
//! included.

use crate::common::check::hex;
use crate::common::interface;
use crate::common::judging::{judging, judging_for};
use crate::common::lent::Place;
use crate::common::plan::Plan;
use crate::common::rng::Rng;
use crate::common::sheet::Sheet;
use crate::common::tally::Times;
use crate::common::tested::ACCEPTED;
use std::fmt::Arguments;
use vanplan::{raw, validate, Refusal};

type Call = fn(&[u8], &[u8], &mut u64) -> u32;

/// Compares one validation by the product with the plain judge, and returns the number.
pub fn check(sheet: &[u8], plan: &[u8], case: Arguments) -> u32 {
    let due = judging(sheet, plan);
    let answer = validate(sheet, plan).map_err(Refusal::number);
    assert_eq!(answer, due, "{case}: {}, {}", hex(sheet), hex(plan));
    if let Ok(owned) = vanplan::Plan::from_bytes(plan) {
        let answer = owned.validate(sheet).map_err(Refusal::number);
        assert_eq!(answer, due, "{case}: {}, {owned:?}", hex(sheet));
    }
    compare(sheet, plan, due, case)
}

/// Like `check`, and the number is told beforehand; 0 stands for a plan that is accepted.
pub fn expect(number: u32, sheet: &[u8], plan: &[u8], case: Arguments) {
    let answer = check(sheet, plan, case);
    assert_eq!(answer, number, "{case}: {}, {}", hex(sheet), hex(plan));
}

/// The same through the calls that are lent the cost.
fn compare(sheet: &[u8], plan: &[u8], due: Result<u64, u32>, case: Arguments) -> u32 {
    let mut rng = Rng::of(plan);
    let lent = Place::filled(|| rng.next());
    let due = match due {
        Ok(cost) => (ACCEPTED, lent.holding(cost)),
        Err(number) => (number, lent),
    };
    for call in [interface::validate as Call, raw::validate] {
        let mut cost = lent;
        let number = call(sheet, plan, cost.lend());
        assert_eq!((number, cost), due, "{case}: {}, {}", hex(sheet), hex(plan));
    }
    due.0
}

/// The doors cost that: it is accepted as the stated cost, and the costs beside it are refused.
pub fn expect_cost(sheet: &Sheet, start: u16, doors: &[u16], cost: u64) {
    let bytes = sheet.encode();
    for (number, cost) in [(0, cost), (34, cost + 1), (34, cost - 1)] {
        let plan = Plan::of(start, doors, cost);
        expect(number, &bytes, &plan.encode(), format_args!("{plan:?}"));
    }
}

/// A sheet that reads, for many plans: it is written as bytes once, and tallies the numbers of its plans.
pub struct Judged<'a> {
    pub sheet: &'a Sheet,
    bytes: Vec<u8>,
    times: &'a mut Times,
}

impl Judged<'_> {
    pub fn new<'a>(sheet: &'a Sheet, times: &'a mut Times) -> Judged<'a> {
        let bytes = sheet.encode();
        Judged {
            sheet,
            bytes,
            times,
        }
    }

    pub fn check(&mut self, plan: &[u8], case: Arguments) -> u32 {
        let number = compare(&self.bytes, plan, judging_for(self.sheet, plan), case);
        self.times.add(number);
        number
    }

    pub fn expect(&mut self, number: u32, plan: &[u8], case: Arguments) {
        let answer = self.check(plan, case);
        let bytes = &self.bytes;
        assert_eq!(answer, number, "{case}: {}, {}", hex(bytes), hex(plan));
    }
}
