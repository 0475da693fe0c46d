//! What the print program prints, written from document 01 alone.

use super::plan::Plan;
use super::reading::{decode, reading};
use super::sheet::Sheet;
use super::tested::{first_applying, PLANNING};
use std::fmt::Write;

/// The most bytes that the program reads of its input: one more than the longest sheet has.
pub const MOST_READ: usize = 9_639;

/// The work cells that it plans with.
const CELLS: u64 = 4_096;

/// The sheet that is planned, or the number that the input is refused with.
pub fn sheet_to_plan(input: &[u8]) -> Result<Sheet, u32> {
    let sheet = &input[..input.len().min(MOST_READ)];
    let (tasks, points) = reading(sheet)?;
    let applies = |number| match number {
        20 => points << tasks > CELLS,
        21 => false, // the program has room for the longest plan
        _ => panic!("planning a sheet that reads never answers {number}"),
    };
    match first_applying(&PLANNING, applies) {
        Some(number) => Err(number),
        None => Ok(decode(sheet)),
    }
}

pub fn refusal_line(number: u32) -> String {
    format!("refused {number}\n")
}

/// The lines of a plan for the sheet: its cost, its start, and each step with the list before the step.
pub fn plan_lines(sheet: &Sheet, plan: &Plan) -> String {
    let mut lines = format!("cost {}\nstart {}\n", plan.cost, plan.start);
    for (step, &door) in plan.doors.iter().enumerate() {
        let task = task_of(sheet, door);
        // Bit j of the number stands for task j. The list holds the tasks of this door and of all that follow.
        let tasks = plan.doors[step..].iter().map(|&door| task_of(sheet, door));
        let open: u32 = tasks.map(|task| 1 << task).sum();
        writeln!(lines, "door {door} task {task} open {open}").expect("a string takes any text");
    }
    lines
}

fn task_of(sheet: &Sheet, door: u16) -> u16 {
    sheet.doors[usize::from(door)].task
}
