//! Planning by plain enumeration, written from document 01 alone: every start, every order of the tasks and every door
//! of each is tried, and every round is costed by itself.

use super::judging::cost_from;
use super::lists::is_allowed;
use super::plan::Plan;
use super::sheet::Sheet;

/// What planning a sheet that reads has to give.
#[derive(Clone, Debug, PartialEq)]
pub struct Due {
    /// The cheapest plan, of equal ones the first by rank.
    pub plan: Plan,
    /// The cost to finish for each of the 2^N times P cells; nothing where the cell keeps its number.
    pub cells: Vec<Option<u64>>,
}

/// The solutions that cost as little as any.
#[derive(Clone, Debug, PartialEq)]
pub struct Ties {
    /// The starts that some of them have.
    pub starts: usize,
    /// How many there are from the first of these starts.
    pub doors: usize,
}

/// Plans a sheet that reads; small ones only, since all rounds are tried.
pub fn enumerate(sheet: &Sheet) -> (Due, Ties) {
    let lists = 1 << sheet.tasks.len();
    let cells = (0..lists).flat_map(|list| costs_to_finish(sheet, list));
    let (plan, ties) = cheapest(sheet);
    let cells = cells.collect();
    (Due { plan, cells }, ties)
}

fn cheapest(sheet: &Sheet) -> (Plan, Ties) {
    let full_list = (1 << sheet.tasks.len()) - 1;
    let rounds = rounds(sheet, full_list);
    let mut solutions: Vec<(u64, u16, &Vec<u16>)> = Vec::new();
    for (start, &point) in (0..).zip(&sheet.starts) {
        for doors in &rounds {
            solutions.push((cost_of(sheet, point, doors), start, doors));
        }
    }
    // By cost, then by start number, then by door d1, d2 and on.
    let &(cost, start, doors) = solutions.iter().min().expect("some order keeps every pair");
    solutions.retain(|solution| solution.0 == cost);
    let mut starts: Vec<u16> = solutions.iter().map(|solution| solution.1).collect();
    starts.dedup();
    let from_it = solutions.iter().filter(|solution| solution.1 == start);
    let ties = Ties {
        starts: starts.len(),
        doors: from_it.count(),
    };
    (Plan::of(start, doors, cost), ties)
}

/// The cost to finish from each point with this list open.
fn costs_to_finish(sheet: &Sheet, list: usize) -> Vec<Option<u64>> {
    let points = 0..sheet.points.len() as u16;
    if !is_allowed(sheet, list) {
        return points.map(|_| None).collect();
    }
    let rounds = rounds(sheet, list);
    let least = |point| {
        let costs = rounds.iter().map(|doors| cost_of(sheet, point, doors));
        Some(costs.min().expect("some order keeps the pairs within"))
    };
    points.map(least).collect()
}

fn cost_of(sheet: &Sheet, point: u16, doors: &[u16]) -> u64 {
    let cost = cost_from(sheet, point, doors).expect("doors of the sheet");
    cost.try_into().expect("no load below zero")
}

/// Every sequence of doors whose tasks are an order of the list that keeps the pairs within it.
fn rounds(sheet: &Sheet, list: usize) -> Vec<Vec<u16>> {
    let tasks = 0..sheet.tasks.len() as u16;
    let orders = orders(tasks.filter(|task| list >> task & 1 == 1).collect());
    let kept = orders.iter().filter(|order| keeps_pairs(sheet, order));
    kept.flat_map(|order| choices(sheet, order)).collect()
}

fn orders(tasks: Vec<u16>) -> Vec<Vec<u16>> {
    if tasks.is_empty() {
        return vec![vec![]];
    }
    let beginning_with = |&first: &u16| {
        let others = tasks.iter().copied().filter(|&task| task != first);
        let orders = orders(others.collect()).into_iter();
        orders.map(move |order| [&[first], &order[..]].concat())
    };
    tasks.iter().flat_map(beginning_with).collect()
}

fn keeps_pairs(sheet: &Sheet, order: &[u16]) -> bool {
    let place = |task| order.iter().position(|&t| t == task);
    let keeps = |&(sender, receiver): &(u16, u16)| match (place(sender), place(receiver)) {
        (Some(sent), Some(received)) => sent < received,
        _ => true,
    };
    sheet.pairs.iter().all(keeps)
}

/// Every choice of one door for each task of the order.
fn choices(sheet: &Sheet, order: &[u16]) -> Vec<Vec<u16>> {
    let Some((last, before)) = order.split_last() else {
        return vec![vec![]];
    };
    let doors = || {
        (0..)
            .zip(&sheet.doors)
            .filter(|(_, door)| door.task == *last)
    };
    let with_last =
        |chosen: Vec<u16>| doors().map(move |(door, _)| [&chosen[..], &[door]].concat());
    choices(sheet, before)
        .into_iter()
        .flat_map(with_last)
        .collect()
}
