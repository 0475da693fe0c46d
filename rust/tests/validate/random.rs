//! Random sheets of any size with random plans: solutions, plans near them, and random bytes for either.

use super::calls::{check, expect, Judged};
use super::plans::{other_cost, solution, state_cost, unknown, with_its_cost};
use crate::common::plan::{head, plan_len, Plan, HEAD};
use crate::common::rng::Rng;
use crate::common::sheet::Sheet;
use crate::common::tally::Times;
use crate::common::valid::{longest, valid, Size, ANY, SMALL};

/// Another plan near this one: a step, two steps, the start or the cost are others.
fn neighbour(rng: &mut Rng, sheet: &Sheet, plan: &Plan) -> Plan {
    let mut plan = plan.clone();
    let (one, other) = (rng.below(plan.doors.len()), rng.below(plan.doors.len()));
    match rng.below(8) {
        0 => plan.doors[one] = rng.below(sheet.doors.len()) as u16,
        1 => plan.doors[one] = unknown(rng, sheet.doors.len()),
        2 => plan.start = rng.below(sheet.starts.len()) as u16,
        3 => plan.start = unknown(rng, sheet.starts.len()),
        4 => plan.cost = other_cost(rng, plan.cost),
        _ => plan.doors.swap(one, other),
    }
    if rng.one_in(2) {
        state_cost(sheet, &mut plan);
    }
    plan
}

#[test]
fn solutions_and_their_neighbours() {
    // With so many pairs among few tasks, an exchange of two steps often breaks one.
    let paired = Size {
        pairs: (3, 12),
        ..SMALL
    };
    let mut times = Times::default();
    for seed in 0..3_000 {
        let mut rng = Rng::new(seed);
        let size = match seed {
            0..1_400 => SMALL,
            1_400..2_800 => paired,
            _ => ANY,
        };
        let sheet = valid(&mut rng, size);
        let plan = solution(&mut rng, &sheet);
        let mut judged = Judged::new(&sheet, &mut times);
        judged.expect(0, &plan.encode(), format_args!("seed {seed}"));
        for _ in 0..20 {
            let plan = neighbour(&mut rng, &sheet, &plan);
            judged.check(&plan.encode(), format_args!("seed {seed}"));
        }
    }
    times.assert_each("answered", &[0, 31, 32, 33, 34], 1_000);
}

/// Many solutions of the longest sheets, with every pair, rule and door there can be.
#[test]
fn solutions_of_the_longest_sheets() {
    let mut times = Times::default();
    for seed in 0..60 {
        let mut rng = Rng::new(seed);
        let mut sheet = valid(&mut rng, longest((1, 32)));
        // Least counts that are met at about every second step.
        for rule in &mut sheet.rules {
            rule.least = rng.between(1, 5) as u16;
        }
        let mut judged = Judged::new(&sheet, &mut times);
        for _ in 0..20 {
            let plan = solution(&mut rng, judged.sheet);
            judged.expect(0, &plan.encode(), format_args!("seed {seed}"));
            let plan = neighbour(&mut rng, judged.sheet, &plan);
            judged.check(&plan.encode(), format_args!("seed {seed}"));
        }
    }
    times.assert_each("answered", &[0, 31, 32, 33, 34], 20);
}

/// Random doors and starts that are in the sheet, so that 32 and 33 meet each other at every place.
#[test]
fn random_doors_of_the_sheet() {
    let mut times = Times::default();
    for seed in 0..3_000 {
        let mut rng = Rng::new(seed);
        let sheet = valid(&mut rng, SMALL);
        let mut judged = Judged::new(&sheet, &mut times);
        for _ in 0..30 {
            let mut doors = vec![0; sheet.tasks.len()];
            doors.fill_with(|| rng.below(sheet.doors.len()) as u16);
            let start = rng.below(sheet.starts.len()) as u16;
            let plan = with_its_cost(&sheet, start, &doors);
            judged.check(&plan.encode(), format_args!("seed {seed}"));
        }
    }
    times.assert_each("answered", &[0, 32, 33], 1_000);
}

/// "A solution is a plan whose start and doors are in the sheet and whose tasks, as driven, are an order of the full
/// list that keeps every pair."
fn is_solution(sheet: &Sheet, plan: &Plan) -> bool {
    let task = |&door: &u16| sheet.doors.get(usize::from(door)).map(|door| door.task);
    let Some(driven) = plan.doors.iter().map(task).collect::<Option<Vec<u16>>>() else {
        return false;
    };
    let times = |task: u16| driven.iter().filter(|&&t| t == task).count();
    let place = |task: u16| driven.iter().position(|&t| t == task);
    usize::from(plan.start) < sheet.starts.len()
        && (0..sheet.tasks.len() as u16).all(|task| times(task) == 1)
        && sheet
            .pairs
            .iter()
            .all(|&(sender, receiver)| place(sender) < place(receiver))
}

/// A plan with random numbers that are mostly in the sheet, and its cost if it has one.
fn random_plan(rng: &mut Rng, sheet: &Sheet) -> Plan {
    let beyond = usize::from(rng.one_in(5));
    let doors: Vec<u16> = (0..sheet.tasks.len())
        .map(|_| rng.below(sheet.doors.len() + beyond) as u16)
        .collect();
    let start = rng.below(sheet.starts.len() + beyond) as u16;
    with_its_cost(sheet, start, &doors)
}

/// A plan that states its cost is accepted exactly if it is a solution, and with another cost no plan is.
#[test]
fn solutions_and_nothing_else() {
    let mut times = [0; 2];
    for seed in 0..40_000 {
        let mut rng = Rng::new(seed);
        let sheet = valid(&mut rng, SMALL);
        let bytes = sheet.encode();
        let mut plan = random_plan(&mut rng, &sheet);
        let case = format_args!("seed {seed}");
        let number = check(&bytes, &plan.encode(), case);
        let accepted = number == 0;
        assert_eq!(accepted, is_solution(&sheet, &plan), "{case}: {plan:?}");
        times[usize::from(accepted)] += 1;
        plan.cost = other_cost(&mut rng, plan.cost);
        let due = if accepted { 34 } else { number };
        expect(due, &bytes, &plan.encode(), case);
    }
    assert!(times.iter().all(|&times| times > 2_000), "{times:?}");
}

/// Random bytes for the plan: alone, or behind the head that is due.
#[test]
fn random_bytes_for_the_plan() {
    let mut times = Times::default();
    for seed in 0..5_000 {
        let mut rng = Rng::new(seed);
        let sheet = valid(&mut rng, SMALL);
        let tasks = sheet.tasks.len();
        let any = rng.below(80);
        let len = rng.pick(&[any, plan_len(tasks)]);
        let random = rng.bytes(len);
        let behind_head = [head(tasks), rng.bytes(plan_len(tasks) - HEAD)].concat();
        let mut judged = Judged::new(&sheet, &mut times);
        judged.expect(30, &random, format_args!("seed {seed}"));
        judged.check(&behind_head, format_args!("seed {seed}"));
    }
    times.assert_each("answered", &[30, 31], 4_000);
}

#[test]
fn random_bytes_for_both() {
    let mut times = Times::default();
    for seed in 0..10_000 {
        let mut rng = Rng::new(seed);
        let (sheet_len, len) = (rng.below(120), rng.below(80));
        let (sheet, plan) = (rng.bytes(sheet_len), rng.bytes(len));
        times.add(check(&sheet, &plan, format_args!("seed {seed}")));
    }
    times.assert_each("answered", &[10, 11], 2_000);
}
