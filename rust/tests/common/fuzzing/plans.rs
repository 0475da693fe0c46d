//! The plans of the cases: solutions, plans with each fault, damaged ones and noise.

use super::case::Solved;
use super::mutation::mutate;
use crate::common::lively::small;
use crate::common::plan::{head, plan_len, Plan, HEAD};
use crate::common::plans::{
    damage_layout, other_cost, put_into_steps, solution, state_cost, with_head_of,
};
use crate::common::rng::Rng;
use crate::common::sheet::Sheet;

/// A plan for a sheet that reads: mostly well formed, and often accepted.
pub fn some_plan_for(rng: &mut Rng, solved: &Solved) -> Vec<u8> {
    let sheet = &solved.sheet;
    match rng.below(36) {
        0..10 => solved.due.plan.encode(),
        10..19 => solution(rng, sheet).encode(),
        19..21 => {
            let mut bytes = solution(rng, sheet).encode();
            damage_layout(rng, &mut bytes);
            bytes
        }
        21..23 => with_wrong_step(rng, sheet, 31),
        23..26 => with_wrong_step(rng, sheet, 32),
        26..30 => with_wrong_step(rng, sheet, 33),
        30..32 => {
            let plan = solution(rng, sheet);
            let cost = other_cost(rng, plan.cost);
            Plan { cost, ..plan }.encode()
        }
        32..34 => {
            let mut bytes = solved.due.plan.encode();
            let others = solution(rng, sheet).encode();
            mutate(rng, &mut bytes, &others);
            bytes
        }
        34 => of_other_tasks(rng, &solved.due.plan),
        _ => noise(rng, sheet.tasks.len()),
    }
}

/// A plan beside a sheet that does not read: a solution of some other sheet, or what was made of it.
pub fn some_plan(rng: &mut Rng) -> Vec<u8> {
    let sheet = small(rng);
    let mut bytes = solution(rng, &sheet).encode();
    if rng.one_in(3) {
        let others = solution(rng, &sheet).encode();
        mutate(rng, &mut bytes, &others);
    }
    bytes
}

/// A solution with this fault put in, where it can be, and mostly the cost of what it has become.
fn with_wrong_step(rng: &mut Rng, sheet: &Sheet, number: u32) -> Vec<u8> {
    let mut plan = solution(rng, sheet);
    let can_be = number != 33 || !sheet.pairs.is_empty();
    if plan.doors.len() > 1 && can_be {
        put_into_steps(rng, sheet, &mut plan, number);
    }
    if !rng.one_in(4) {
        state_cost(sheet, &mut plan);
    }
    plan.encode()
}

/// The plan with more doors or fewer, or with the head of such a one.
fn of_other_tasks(rng: &mut Rng, plan: &Plan) -> Vec<u8> {
    let tasks = rng.below(16);
    if rng.one_in(2) {
        return with_head_of(tasks, plan);
    }
    let mut plan = plan.clone();
    plan.doors.resize(tasks, 0);
    plan.encode()
}

/// Random bytes, alone or behind the head that is due.
fn noise(rng: &mut Rng, tasks: usize) -> Vec<u8> {
    if rng.one_in(2) {
        let rest = plan_len(tasks) - HEAD;
        return [head(tasks), rng.bytes(rest)].concat();
    }
    let any = rng.below(80);
    let len = rng.pick(&[any, plan_len(tasks)]);
    rng.bytes(len)
}
