//! One call on a case, with everything lent from memory that ends at a page that cannot be touched, compared with what is
//! due: the answer, every element lent as it is afterwards, and what stands in front of it. What is lent to be read needs
//! no look, since writing to it ends the process.

use super::calls::{
    Call, Calls, PlanSheet, PriceRow, PriceSheet, Read, ReadPlan, Validate, WritePlan,
};
use super::case::Case;
use super::mutation::MOST_ADDED;
use crate::common::coding;
use crate::common::guarded::Guarded;
use crate::common::judging::judging_for;
use crate::common::plan::{plan_len, Plan, MOST_TASKS};
use crate::common::pricing::{layer_of_row, most_lists};
use crate::common::rounds::Due;
use crate::common::tested::ACCEPTED;

/// The answer, if it and all else is as is due, or else what is not.
pub type Outcome = Result<u32, String>;

/// A place for each argument that is lent by pointer.
pub struct Memory {
    sheet: Guarded<u8>,
    plan: Guarded<u8>,
    given_doors: Guarded<u16>,
    cells: Guarded<u64>,
    even: Guarded<u64>,
    odd: Guarded<u64>,
    given_even: Guarded<u64>,
    given_odd: Guarded<u64>,
    buffer: Guarded<u8>,
    doors: Guarded<u16>,
    tasks: Guarded<u64>,
    points: Guarded<u64>,
    cost: Guarded<u64>,
    start: Guarded<u16>,
    written: Guarded<usize>,
    layer: Guarded<usize>,
    row_cells: Guarded<usize>,
}

impl Memory {
    pub fn new() -> Memory {
        const LONGEST_SHEET: usize = 9_638;
        const MOST_POINTS: usize = 64;
        /// Room for more elements than a call needs.
        const MORE: usize = 100;
        let most_in_layer = MOST_POINTS * most_lists(MOST_TASKS) + MORE;
        Memory {
            sheet: Guarded::to_read(LONGEST_SHEET + 2 * MOST_ADDED),
            plan: Guarded::to_read(LONGEST_SHEET + 2 * MOST_ADDED),
            given_doors: Guarded::to_read(MOST_TASKS + MORE),
            cells: Guarded::to_write((MOST_POINTS << MOST_TASKS) + MORE),
            even: Guarded::to_write(most_in_layer),
            odd: Guarded::to_write(most_in_layer),
            given_even: Guarded::to_read(most_in_layer),
            given_odd: Guarded::to_read(most_in_layer),
            buffer: Guarded::to_write(plan_len(MOST_TASKS) + MORE),
            doors: Guarded::to_write(MOST_TASKS + MORE),
            tasks: Guarded::to_write(1),
            points: Guarded::to_write(1),
            cost: Guarded::to_write(1),
            start: Guarded::to_write(1),
            written: Guarded::to_write(1),
            layer: Guarded::to_write(1),
            row_cells: Guarded::to_write(1),
        }
    }

    pub fn compare(&mut self, calls: &Calls, call: Call, case: &Case) -> Outcome {
        match call {
            Call::Read => self.read(calls.read, case),
            Call::Plan => self.plan(calls.plan, case),
            Call::Price => self.price(calls.price, case),
            Call::PriceRow => self.price_row(calls.price_row, case),
            Call::Validate => self.validate(calls.validate, case),
            Call::WritePlan => self.write_plan(calls.write_plan, case),
            Call::ReadPlan => self.read_plan(calls.read_plan, case),
        }
    }

    fn read(&mut self, read: Read, case: &Case) -> Outcome {
        self.sheet.hold(&case.sheet);
        self.tasks.hold(&[case.before]);
        self.points.hold(&[case.before]);
        let (tasks, points) = (self.tasks.lend_one(), self.points.lend_one());
        let number = read(self.sheet.lend(), tasks, points);
        let (due, (tasks, points)) = match &case.solved {
            Ok(solved) => (ACCEPTED, solved.counts),
            &Err(number) => (number, (case.before, case.before)),
        };
        expect_answer(number, due)?;
        self.tasks.expect("*tasks", &[tasks])?;
        self.points.expect("*points", &[points])?;
        Ok(number)
    }

    fn plan(&mut self, plan: PlanSheet, case: &Case) -> Outcome {
        self.sheet.hold(&case.sheet);
        self.cells.hold(&case.room.cells);
        self.buffer.hold(&case.room.plan);
        self.cost.hold(&[case.room.cost]);
        let (cells, buffer) = (self.cells.lend_mut(), self.buffer.lend_mut());
        let number = plan(self.sheet.lend(), cells, buffer, self.cost.lend_one());
        let (due, after) = case.room.after(planning_of(case));
        expect_answer(number, due)?;
        self.cells.expect("cells", &after.cells)?;
        self.buffer.expect("plan", &after.plan)?;
        self.cost.expect("*cost", &[after.cost])?;
        Ok(number)
    }

    /// What is left open may be as it was or a cost; all else is told beforehand.
    fn price(&mut self, price: PriceSheet, case: &Case) -> Outcome {
        let (lent, solved) = (&case.layers, planning_of(case));
        self.sheet.hold(&case.sheet);
        self.even.hold(&lent.even);
        self.odd.hold(&lent.odd);
        self.cost.hold(&[lent.cost]);
        self.start.hold(&[lent.start]);
        let (even, odd) = (self.even.lend_mut(), self.odd.lend_mut());
        let (cost, start) = (self.cost.lend_one(), self.start.lend_one());
        let number = price(self.sheet.lend(), even, odd, cost, start);
        expect_answer(number, lent.number(solved))?;
        self.even.expect_front("even")?;
        self.odd.expect_front("odd")?;
        lent.expect(solved, self.even.lend(), self.odd.lend())?;
        let (cost, start) = lent.price_after(solved);
        self.cost.expect("*cost", &[cost])?;
        self.start.expect("*start", &[start])?;
        Ok(number)
    }

    fn price_row(&mut self, price_row: PriceRow, case: &Case) -> Outcome {
        let (lent, solved) = (&case.layers, planning_of(case));
        let before = case.before as usize;
        self.sheet.hold(&case.sheet);
        self.given_even.hold(&lent.even);
        self.given_odd.hold(&lent.odd);
        self.layer.hold(&[before]);
        self.row_cells.hold(&[before]);
        let (layer, cells) = (self.layer.lend_one(), self.row_cells.lend_one());
        let (even, odd) = (self.given_even.lend(), self.given_odd.lend());
        let number = price_row(self.sheet.lend(), even, odd, layer, cells);
        let due = lent.number(solved);
        let (layer, cells) = match &case.solved {
            Ok(solved) if due == ACCEPTED => (layer_of_row(&solved.due), solved.counts.1 as usize),
            _ => (before, before),
        };
        expect_answer(number, due)?;
        self.layer.expect("*layer", &[layer])?;
        self.row_cells.expect("*cells", &[cells])?;
        Ok(number)
    }

    fn validate(&mut self, validate: Validate, case: &Case) -> Outcome {
        self.sheet.hold(&case.sheet);
        self.plan.hold(&case.plan);
        self.cost.hold(&[case.before]);
        let cost = self.cost.lend_one();
        let number = validate(self.sheet.lend(), self.plan.lend(), cost);
        let judged = match &case.solved {
            Ok(solved) => judging_for(&solved.sheet, &case.plan),
            &Err(number) => Err(number),
        };
        expect_answer(number, judged.err().unwrap_or(ACCEPTED))?;
        self.cost
            .expect("*cost", &[judged.unwrap_or(case.before)])?;
        Ok(number)
    }

    fn write_plan(&mut self, write_plan: WritePlan, case: &Case) -> Outcome {
        let given = &case.writing;
        let (n, Plan { start, doors, cost }) = (given.n, &given.plan);
        let before = case.before as usize;
        self.given_doors.hold(doors);
        self.buffer.hold(&given.buffer);
        self.written.hold(&[before]);
        let (buffer, written) = (self.buffer.lend_mut(), self.written.lend_one());
        let number = write_plan(n, *start, self.given_doors.lend(), *cost, buffer, written);
        let (due, buffer, written) = match coding::writing(n, &given.plan, &given.buffer) {
            Ok(after) => (ACCEPTED, after, plan_len(n)),
            Err(number) => (number, given.buffer.clone(), before),
        };
        expect_answer(number, due)?;
        self.buffer.expect("buf", &buffer)?;
        self.written.expect("*written", &[written])?;
        Ok(number)
    }

    fn read_plan(&mut self, read_plan: ReadPlan, case: &Case) -> Outcome {
        let (n, doors) = (case.reading.n, &case.reading.doors);
        let before = Plan::of(case.before as u16, doors, case.before);
        self.plan.hold(&case.plan);
        self.start.hold(&[before.start]);
        self.doors.hold(doors);
        self.cost.hold(&[before.cost]);
        let (start, cost) = (self.start.lend_one(), self.cost.lend_one());
        let number = read_plan(n, self.plan.lend(), start, self.doors.lend_mut(), cost);
        let (due, after) = match coding::reading(n, &case.plan, doors.len()) {
            Ok(plan) => (ACCEPTED, plan),
            Err(number) => (number, before),
        };
        expect_answer(number, due)?;
        self.start.expect("*start", &[after.start])?;
        self.doors.expect("doors", &after.doors)?;
        self.cost.expect("*cost", &[after.cost])?;
        Ok(number)
    }
}

/// What planning gives, or the number that reading gives.
fn planning_of(case: &Case) -> Result<&Due, u32> {
    let solved = case.solved.as_ref().map_err(|&number| number);
    solved.map(|solved| &solved.due)
}

fn expect_answer(number: u32, due: u32) -> Result<(), String> {
    if number == due {
        return Ok(());
    }
    Err(format!("answers {number}, and not {due}"))
}
