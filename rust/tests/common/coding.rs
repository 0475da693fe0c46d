//! Writing and reading a plan, from document 01 alone: the number that is due, and what was lent as it is then.

use super::plan::{is_laid_out, plan_len, Plan, MOST_TASKS};
use super::tested::{first_applying, READING_A_PLAN, WRITING_A_PLAN};

/// Both calls answer 12 for an N outside 1 to 12, and for fewer doors than N.
fn tasks_or_doors_are_wrong(n: usize, doors: usize) -> bool {
    !(1..=MOST_TASKS).contains(&n) || doors < n
}

/// The buffer after the plan with the first N of these doors was written, or the number that writing is refused with.
pub fn writing(n: usize, plan: &Plan, buf: &[u8]) -> Result<Vec<u8>, u32> {
    let applies = |number| match number {
        12 => tasks_or_doors_are_wrong(n, plan.doors.len()),
        21 => buf.len() < plan_len(n),
        _ => panic!("writing a plan never answers {number}"),
    };
    if let Some(number) = first_applying(&WRITING_A_PLAN, applies) {
        return Err(number);
    }
    let bytes = Plan::of(plan.start, &plan.doors[..n], plan.cost).encode();
    Ok([&bytes, &buf[plan_len(n)..]].concat())
}

/// The plan that is read, with as many doors as are lent, or the number that reading is refused with.
pub fn reading(n: usize, bytes: &[u8], doors: usize) -> Result<Plan, u32> {
    let applies = |number| match number {
        12 => tasks_or_doors_are_wrong(n, doors),
        30 => !is_laid_out(n, bytes),
        _ => panic!("reading a plan never answers {number}"),
    };
    if let Some(number) = first_applying(&READING_A_PLAN, applies) {
        return Err(number);
    }
    let mut plan = Plan::in_places(n, bytes).expect("as long as laid out");
    plan.doors.resize(doors, 0);
    Ok(plan)
}
