//! Pricing, written from document 02 alone over what planning has to give: the layers that are lent, and what is due of
//! them afterwards.

use super::plan::Plan;
use super::rng::Rng;
use super::rounds::Due;
use super::tested::{first_applying, ACCEPTED, PRICING};

/// What a caller lends, and what it holds.
#[derive(Clone, Debug, PartialEq)]
pub struct Layers {
    pub even: Vec<u64>,
    pub odd: Vec<u64>,
    pub cost: u64,
    pub start: u16,
}

impl Layers {
    /// So many cells, with any numbers in them.
    pub fn noise(rng: &mut Rng, even: usize, odd: usize) -> Layers {
        Layers {
            even: (0..even).map(|_| rng.next()).collect(),
            odd: (0..odd).map(|_| rng.next()).collect(),
            cost: rng.next(),
            start: rng.u16(),
        }
    }

    /// As many as this sheet needs.
    pub fn least(rng: &mut Rng, due: &Due) -> Layers {
        let cells = layer_cells(due);
        Layers::noise(rng, cells, cells)
    }

    pub fn lengths(&self) -> (usize, usize) {
        (self.even.len(), self.odd.len())
    }

    /// The number that pricing answers with, and so does asking for the row.
    pub fn number(&self, due: Result<&Due, u32>) -> u32 {
        let due = match due {
            Ok(due) => due,
            Err(number) => return number,
        };
        let needed = layer_cells(due);
        let applies = |number| match number {
            22 => self.even.len() < needed || self.odd.len() < needed,
            _ => panic!("pricing a sheet that reads never answers {number}"),
        };
        first_applying(&PRICING, applies).unwrap_or(ACCEPTED)
    }

    /// Cost and start as pricing leaves them.
    pub fn price_after(&self, due: Result<&Due, u32>) -> (u64, u16) {
        match due {
            Ok(Due { plan, .. }) if self.number(due) == ACCEPTED => price(plan),
            _ => (self.cost, self.start),
        }
    }

    /// These are the layers as pricing may leave them, or else what is not.
    pub fn expect(&self, due: Result<&Due, u32>, even: &[u64], odd: &[u64]) -> Result<(), String> {
        let due = due.ok().filter(|due| self.number(Ok(due)) == ACCEPTED);
        expect_layer(EVEN, due, &self.even, even)?;
        expect_layer(ODD, due, &self.odd, odd)
    }
}

/// The price is the cost and the start of the cheapest plan.
pub fn price(plan: &Plan) -> (u64, u16) {
    (plan.cost, plan.start)
}

/// The layers by number: lists of even size go in one, odd in the other.
pub const EVEN: usize = 0;
pub const ODD: usize = 1;

/// N and P.
fn sizes(due: &Due) -> (usize, usize) {
    let tasks = due.plan.doors.len();
    (tasks, due.cells.len() >> tasks)
}

fn size(list: usize) -> usize {
    list.count_ones() as usize
}

/// B: the largest number of lists of one size.
pub fn most_lists(tasks: usize) -> usize {
    let mut lists = vec![0; tasks + 1];
    (0..1 << tasks).for_each(|list| lists[size(list)] += 1);
    lists.into_iter().max().expect("the empty list is one")
}

/// B times P cells in each layer.
pub fn layer_cells(due: &Due) -> usize {
    let (tasks, points) = sizes(due);
    most_lists(tasks) * points
}

/// The layer that holds the full list's row.
pub fn layer_of_row(due: &Due) -> usize {
    sizes(due).0 % 2
}

/// The costs to finish the whole round from each point.
pub fn row(due: &Due) -> Vec<u64> {
    let (_, points) = sizes(due);
    let full_list = due.cells[due.cells.len() - points..].iter();
    let cost = |cell: &Option<u64>| cell.expect("the pairs allow the full list");
    full_list.map(cost).collect()
}

/// The points of those starts from which the round costs as little as from any.
pub fn tied_starts(due: &Due, starts: &[u16]) -> Vec<u16> {
    let row = row(due);
    let is_cheapest = |&point: &u16| row[usize::from(point)] == due.plan.cost;
    starts.iter().copied().filter(is_cheapest).collect()
}

/// Where nothing is due, every cell is as it was. Otherwise the full list's row stands at the beginning of its layer, and any
/// other cell is as it was or the cost to finish of a list of the layer that the pairs allow, at its rank: the number
/// of lists of its size with a smaller number.
fn expect_layer(
    layer: usize,
    due: Option<&Due>,
    before: &[u64],
    after: &[u64],
) -> Result<(), String> {
    assert_eq!(before.len(), after.len(), "as many as were lent");
    let mut right: Vec<bool> = before.iter().zip(after).map(|(b, a)| b == a).collect();
    if let Some(due) = due {
        let (tasks, points) = sizes(due);
        let mut lists_before = vec![0; tasks + 1];
        for (list, row) in due.cells.chunks(points).enumerate() {
            let rank = lists_before[size(list)];
            lists_before[size(list)] += 1;
            if size(list) % 2 != layer {
                continue;
            }
            let is_full = list + 1 == 1 << tasks;
            for (cell, due) in (rank * points..).zip(row) {
                let is_cost = *due == Some(after[cell]);
                right[cell] = is_cost || !is_full && right[cell];
            }
        }
    }
    match right.iter().position(|right| !right) {
        None => Ok(()),
        Some(cell) => {
            let name = ["even", "odd"][layer];
            let (is, was) = (after[cell], before[cell]);
            Err(format!("{name}: element {cell} is {is}, and was {was}"))
        }
    }
}
