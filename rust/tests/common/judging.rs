//! A plain judge of plans, written from document 01 alone: the cost is summed as its text says, each number has its own
//! test, and the first that applies, in the order in which they are tested, is the answer.

use super::plan::{is_laid_out, Plan};
use super::reading::{decode, reading};
use super::sheet::{Door, Rule, Sheet};
use super::tested::{all_applying, first_applying, JUDGING};

/// The cost of a plan that is accepted for a sheet, or the number that either of them is refused with.
pub fn judging(sheet: &[u8], plan: &[u8]) -> Result<u64, u32> {
    reading(sheet)?;
    judging_for(&decode(sheet), plan)
}

/// The same for a sheet that reads.
pub fn judging_for(sheet: &Sheet, plan: &[u8]) -> Result<u64, u32> {
    let asked = Asked::of(sheet, plan);
    match first_applying(&JUDGING, |number| asked.applies(number)) {
        Some(number) => Err(number),
        None => Ok(asked.plan.expect("laid out as a plan").cost),
    }
}

/// Every number that applies to a plan for a sheet that reads, in the order in which they are tested.
///
/// This decides more than the answer does. A number applies by what stands in the places of start, doors and cost,
/// whatever stands before them or behind; nothing is said of a plan that ends before its cost does. A plan with a start
/// or door that is not in the sheet has no cost, so what it states is not the cost, and 34 comes with 31.
pub fn plan_faults(sheet: &Sheet, plan: &[u8]) -> Vec<u32> {
    let asked = Asked::of(sheet, plan);
    all_applying(&JUDGING, |number| asked.applies(number))
}

/// A plan that is asked about one number after the other.
struct Asked<'a> {
    sheet: &'a Sheet,
    is_laid_out: bool,
    plan: Option<Plan>,
}

impl Asked<'_> {
    fn of<'a>(sheet: &'a Sheet, bytes: &[u8]) -> Asked<'a> {
        let tasks = sheet.tasks.len();
        Asked {
            sheet,
            is_laid_out: is_laid_out(tasks, bytes),
            plan: Plan::in_places(tasks, bytes),
        }
    }

    fn applies(&self, number: u32) -> bool {
        if number == 30 {
            return !self.is_laid_out;
        }
        let Some(plan) = &self.plan else {
            return false;
        };
        match number {
            31 => names_something_unknown(self.sheet, plan),
            32 => does_a_task_twice(&tasks_as_driven(self.sheet, plan)),
            33 => {
                let driven = tasks_as_driven(self.sheet, plan);
                let pairs = &self.sheet.pairs;
                pairs.iter().any(|&pair| stands_backwards(&driven, pair))
            }
            34 => cost(self.sheet, plan.start, &plan.doors) != Some(plan.cost.into()),
            _ => panic!("judging a plan never answers {number}"),
        }
    }
}

fn names_something_unknown(sheet: &Sheet, plan: &Plan) -> bool {
    let unknown = |&door: &u16| usize::from(door) >= sheet.doors.len();
    usize::from(plan.start) >= sheet.starts.len() || plan.doors.iter().any(unknown)
}

/// The task of each step, nothing for a door that is not in the sheet.
fn tasks_as_driven(sheet: &Sheet, plan: &Plan) -> Vec<Option<u16>> {
    let task = |&door: &u16| Some(sheet.doors.get(usize::from(door))?.task);
    plan.doors.iter().map(task).collect()
}

fn does_a_task_twice(driven: &[Option<u16>]) -> bool {
    let done_before = |step: usize| driven[..step].contains(&driven[step]);
    (0..driven.len()).any(|step| driven[step].is_some() && done_before(step))
}

/// The receiver is done at some step, and the sender at a later one.
fn stands_backwards(driven: &[Option<u16>], (sender, receiver): (u16, u16)) -> bool {
    let received_at = driven.iter().position(|&task| task == Some(receiver));
    let sent_at = driven.iter().rposition(|&task| task == Some(sender));
    matches!((received_at, sent_at), (Some(received), Some(sent)) if received < sent)
}

/// The cost of a round, in kilogram decametres; nothing if the start or a door is not in the sheet.
pub fn cost(sheet: &Sheet, start: u16, doors: &[u16]) -> Option<i128> {
    let first_point = *sheet.starts.get(usize::from(start))?;
    cost_from(sheet, first_point, doors)
}

/// The cost of these doors with this point, which is in the sheet, as the first departure point. The tasks of the doors
/// are open at first, and those of all others are done.
pub fn cost_from(sheet: &Sheet, point: u16, doors: &[u16]) -> Option<i128> {
    let mut last_point = point;
    let known = |&door: &u16| sheet.doors.get(usize::from(door));
    let driven: Vec<&Door> = doors.iter().map(known).collect::<Option<_>>()?;
    let mut sum = 0;
    for (step, door) in driven.iter().enumerate() {
        let open = tasks_of(&driven[step..]);
        sum += distance(sheet, last_point, door.arrival) * load(sheet, &open);
        sum += i128::from(door.work);
        sum += charges(sheet, doors[step], &open);
        last_point = door.departure;
    }
    Some(sum + i128::from(sheet.points[usize::from(last_point)]))
}

/// The tasks of these doors, each once.
fn tasks_of(doors: &[&Door]) -> Vec<u16> {
    let mut tasks: Vec<u16> = doors.iter().map(|door| door.task).collect();
    tasks.sort_unstable();
    tasks.dedup();
    tasks
}

fn distance(sheet: &Sheet, from: u16, to: u16) -> i128 {
    let (from, to) = (usize::from(from), usize::from(to));
    sheet.distances[from * sheet.points.len() + to].into()
}

/// E plus the w of every open task.
fn load(sheet: &Sheet, open: &[u16]) -> i128 {
    let w = |&task: &u16| i128::from(sheet.tasks[usize::from(task)]);
    i128::from(sheet.end_load) + open.iter().map(w).sum::<i128>()
}

/// The charge of each rule on this door for which at least its least count of watched tasks are open.
fn charges(sheet: &Sheet, door: u16, open: &[u16]) -> i128 {
    let applies = |rule: &&Rule| {
        let watched = |&&task: &&u16| rule.watched >> task & 1 == 1;
        rule.door == door && open.iter().filter(watched).count() >= usize::from(rule.least)
    };
    let on_door = sheet.rules.iter().filter(applies);
    on_door.map(|rule| i128::from(rule.charge)).sum()
}
