//! Plans made for a sheet that reads: random solutions, and plans with exactly the faults that are asked for.

use super::judging::{cost, plan_faults};
use super::plan::{head, Plan, HEAD};
use super::rng::Rng;
use super::sheet::Sheet;
use super::tested::{in_order, JUDGING};
use super::valid::{valid, Size};

/// A random solution that states its cost.
pub fn solution(rng: &mut Rng, sheet: &Sheet) -> Plan {
    let doors: Vec<u16> = random_order(rng, sheet)
        .into_iter()
        .map(|task| random_door(rng, sheet, task))
        .collect();
    let start = rng.below(sheet.starts.len()) as u16;
    with_its_cost(sheet, start, &doors)
}

/// A plan that states its cost, or 0 if it has none.
pub fn with_its_cost(sheet: &Sheet, start: u16, doors: &[u16]) -> Plan {
    let mut plan = Plan::of(start, doors, 0);
    state_cost(sheet, &mut plan);
    plan
}

/// States the cost where the plan has one; where a load is below zero, so may be the cost, and its low 64 bits are stated.
pub fn state_cost(sheet: &Sheet, plan: &mut Plan) {
    if let Some(cost) = cost(sheet, plan.start, &plan.doors) {
        plan.cost = cost as u64;
    }
}

/// An order of all tasks that keeps every pair: at each step any task whose senders are all done.
fn random_order(rng: &mut Rng, sheet: &Sheet) -> Vec<u16> {
    let tasks = sheet.tasks.len();
    let mut order: Vec<u16> = Vec::new();
    while order.len() < tasks {
        let waits = |task: u16| {
            let waits_by =
                |&(sender, receiver): &(u16, u16)| receiver == task && !order.contains(&sender);
            sheet.pairs.iter().any(waits_by)
        };
        let ready: Vec<u16> = (0..tasks as u16)
            .filter(|&task| !order.contains(&task) && !waits(task))
            .collect();
        order.push(rng.pick(&ready));
    }
    order
}

fn random_door(rng: &mut Rng, sheet: &Sheet, task: u16) -> u16 {
    let doors: Vec<u16> = (0..sheet.doors.len() as u16)
        .filter(|&door| sheet.doors[usize::from(door)].task == task)
        .collect();
    rng.pick(&doors)
}

/// Sheets with room for every set of faults: a door unknown, a task done twice and a pair backwards need four steps.
const FOUR_STEPS: Size = Size {
    tasks: (4, 7),
    more_doors: (0, 5),
    starts: (1, 3),
    pairs: (1, 4),
    rules: (0, 4),
    points: (1, 5),
};

/// A sheet that reads and the bytes of a plan to which exactly these numbers, each from 30 to 34, apply.
pub fn with_plan_faults(rng: &mut Rng, numbers: &[u32]) -> (Sheet, Vec<u8>) {
    const TRIES: usize = 1_000;
    let due = in_order(&JUDGING, numbers);
    for _ in 0..TRIES {
        let sheet = valid(rng, FOUR_STEPS);
        let mut plan = solution(rng, &sheet);
        for number in [33, 32, 31] {
            if numbers.contains(&number) {
                put_into_steps(rng, &sheet, &mut plan, number);
            }
        }
        state_cost(&sheet, &mut plan);
        if numbers.contains(&34) {
            plan.cost = other_cost(rng, plan.cost);
        }
        let mut bytes = plan.encode();
        if numbers.contains(&30) {
            damage_layout(rng, &mut bytes);
        }
        if plan_faults(&sheet, &bytes) == due {
            return (sheet, bytes);
        }
    }
    panic!("no plan with the faults {numbers:?} in {TRIES} tries");
}

/// Puts one of the faults 31 to 33 into a solution of two steps or more; for 33 the sheet has a pair.
pub fn put_into_steps(rng: &mut Rng, sheet: &Sheet, plan: &mut Plan, number: u32) {
    let steps = rng.order(plan.doors.len());
    let (one, other) = (usize::from(steps[0]), usize::from(steps[1]));
    match number {
        31 if rng.one_in(3) => plan.start = unknown(rng, sheet.starts.len()),
        31 => plan.doors[one] = unknown(rng, sheet.doors.len()),
        32 => {
            let task = sheet.doors[usize::from(plan.doors[other])].task;
            plan.doors[one] = random_door(rng, sheet, task);
        }
        33 => {
            let pair = rng.pick(&sheet.pairs);
            let step = |task| {
                let does = |&door: &u16| sheet.doors[usize::from(door)].task == task;
                plan.doors.iter().position(does).expect("a solution")
            };
            let (sent, received) = (step(pair.0), step(pair.1));
            plan.doors.swap(sent, received);
        }
        _ => unreachable!("{number} is not a fault of the steps"),
    }
}

/// The number of entries, or any greater number of 16 bits.
pub fn unknown(rng: &mut Rng, entries: usize) -> u16 {
    let any = rng.between(entries, 0xffff);
    rng.pick(&[entries, entries + 1, 256, 0xffff, any]) as u16
}

/// A cost that is not this one: by a little, in one bit, or any.
pub fn other_cost(rng: &mut Rng, cost: u64) -> u64 {
    let bit = 1 << rng.below(64);
    let any = cost ^ rng.next().max(1);
    rng.pick(&[cost.wrapping_add(1), cost.wrapping_sub(1), cost ^ bit, any])
}

/// Another value of a byte before 22, or bytes behind the end, so that start, doors and cost stay in their places.
pub fn damage_layout(rng: &mut Rng, bytes: &mut Vec<u8>) {
    if rng.one_in(4) {
        let more = rng.between(1, 9);
        bytes.extend(rng.bytes(more));
    } else {
        let at = rng.below(HEAD);
        bytes[at] ^= rng.between(1, 255) as u8;
    }
}

/// A plan of the same start, doors and cost with the head of another number of tasks.
pub fn with_head_of(tasks: usize, plan: &Plan) -> Vec<u8> {
    let mut bytes = plan.encode();
    bytes[..HEAD].copy_from_slice(&head(tasks));
    bytes
}
