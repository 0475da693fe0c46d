//! One call of the product, through C and through the package, compared with document 01: the answer, and everything
//! that was lent, as it is afterwards.

use crate::common::check::hex;
use crate::common::coding::{reading, writing};
use crate::common::interface;
use crate::common::lent::{Lent, Place};
use crate::common::plan::{is_laid_out, plan_len, Plan, MOST_TASKS};
use crate::common::rng::Rng;
use crate::common::tested::ACCEPTED;
use std::fmt::Arguments;
use vanplan::{raw, Refusal};

/// What stands around the lent lists.
const AROUND: (u8, u16) = (0xa5, 0x5aa5);

type Write = fn(usize, u16, &[u16], u64, &mut [u8], &mut usize) -> u32;
type Read = fn(usize, &[u8], &mut u16, &mut [u16], &mut u64) -> u32;

/// Writes a plan to a copy of the buffer, compares the answer and all that is lent, and returns the number.
pub fn check_write(n: usize, plan: &Plan, buf: &[u8], case: Arguments) -> u32 {
    check_write_at(0, n, plan, buf, case)
}

/// The same with the buffer so many bytes further on.
pub fn check_write_at(shift: usize, n: usize, plan: &Plan, buf: &[u8], case: Arguments) -> u32 {
    let len = buf.len();
    let case = format_args!("writing with n {n}, {plan:?}, {len} bytes, {case}");
    let mut rng = Rng::of(buf);
    let lent = Place::filled(|| rng.next() as usize);
    let (due, due_written, due_buf) = match writing(n, plan, buf) {
        Ok(after) => (ACCEPTED, lent.holding(plan_len(n)), after),
        Err(number) => (number, lent, buf.to_vec()),
    };
    let (start, doors, cost) = (plan.start, &plan.doors, plan.cost);
    for call in [interface::write_plan as Write, raw::write_plan] {
        let mut buf = Lent::shifted(shift, buf, AROUND.0);
        let mut written = lent;
        let number = call(n, start, doors, cost, buf.lend(), written.lend());
        assert_eq!((number, written), (due, due_written), "{case}");
        assert_eq!(buf.returned(case), due_buf, "{case}");
    }
    check_owned(plan, case);
    due
}

/// Reads bytes as a plan with a copy of the doors lent, compares the answer and all that is lent, and returns the
/// number.
pub fn check_read(n: usize, bytes: &[u8], doors: &[u16], case: Arguments) -> u32 {
    let case = format_args!("reading with n {n}, {bytes:?}, {case}");
    let mut rng = Rng::of(bytes);
    let lent = (
        Place::filled(|| rng.u16()),
        doors.to_vec(),
        Place::filled(|| rng.next()),
    );
    let (due, due_after) = match reading(n, bytes, doors.len()) {
        Ok(Plan { start, doors, cost }) => {
            let after = (lent.0.holding(start), doors, lent.2.holding(cost));
            (ACCEPTED, after)
        }
        Err(number) => (number, lent.clone()),
    };
    for call in [interface::read_plan as Read, raw::read_plan] {
        let (mut start, _, mut cost) = lent;
        let mut doors = Lent::new(doors, AROUND.1);
        let number = call(n, bytes, start.lend(), doors.lend(), cost.lend());
        let after = (start, doors.returned(case), cost);
        assert_eq!((number, &after), (due, &due_after), "{case}");
    }
    check_owned_read(bytes, case);
    due
}

/// The package's plan with all of these doors is written as the layout has it, and read from that again.
fn check_owned(plan: &Plan, case: Arguments) {
    let bytes = owned(plan).to_bytes().map_err(Refusal::number);
    let due = match plan.doors.len() {
        1..=MOST_TASKS => Ok(plan.encode()),
        _ => Err(12),
    };
    assert_eq!(bytes, due, "{case}");
    if let Ok(bytes) = bytes {
        check_owned_read(&bytes, case);
    }
}

/// The package reads the bytes as the plan of any number of tasks that they are laid out for.
fn check_owned_read(bytes: &[u8], case: Arguments) {
    let tasks = (1..=MOST_TASKS).find(|&n| is_laid_out(n, bytes));
    let plan = tasks.and_then(|n| Plan::in_places(n, bytes));
    let due = plan.as_ref().map(owned).ok_or(30);
    let answer = vanplan::Plan::from_bytes(bytes).map_err(Refusal::number);
    assert_eq!(answer, due, "{case}");
}

/// The same plan in the package's own type.
pub fn owned(plan: &Plan) -> vanplan::Plan {
    vanplan::Plan {
        start: plan.start,
        doors: plan.doors.clone(),
        cost: plan.cost,
    }
}

/// Like `check_write`, and the number is told beforehand; 0 stands for a plan that is written.
pub fn expect_write(number: u32, n: usize, plan: &Plan, buf: &[u8], case: Arguments) {
    let answer = check_write(n, plan, buf, case);
    assert_eq!(answer, number, "writing with n {n}, {plan:?}, {case}");
}

/// Like `check_read`, and the number is told beforehand; 0 stands for a plan that is read.
pub fn expect_read(number: u32, n: usize, bytes: &[u8], doors: &[u16], case: Arguments) {
    let answer = check_read(n, bytes, doors, case);
    assert_eq!(answer, number, "reading with n {n}, {case}: {}", hex(bytes));
}
