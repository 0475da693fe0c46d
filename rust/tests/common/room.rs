//! The room that is lent to planning, and what is due of it afterwards.

use super::plan::plan_len;
use super::rng::Rng;
use super::rounds::Due;
use super::tested::{first_applying, ACCEPTED, PLANNING};

/// What a caller lends, and what it holds.
#[derive(Clone, Debug, PartialEq)]
pub struct Room {
    pub cells: Vec<u64>,
    pub plan: Vec<u8>,
    pub cost: u64,
}

impl Room {
    /// So many cells and bytes, with any numbers in them.
    pub fn noise(rng: &mut Rng, cells: usize, plan: usize) -> Room {
        Room {
            cells: (0..cells).map(|_| rng.next()).collect(),
            plan: rng.bytes(plan),
            cost: rng.next(),
        }
    }

    /// As much as this sheet needs.
    pub fn least(rng: &mut Rng, due: &Due) -> Room {
        let (cells, plan) = needed(due);
        Room::noise(rng, cells, plan)
    }

    /// The number that planning answers with, and the room as it is then.
    pub fn after(&self, due: Result<&Due, u32>) -> (u32, Room) {
        let mut after = self.clone();
        let due = match due {
            Ok(due) => due,
            Err(number) => return (number, after),
        };
        let (cells, plan) = needed(due);
        let applies = |number| match number {
            20 => self.cells.len() < cells,
            21 => self.plan.len() < plan,
            _ => panic!("planning a sheet that reads never answers {number}"),
        };
        if let Some(number) = first_applying(&PLANNING, applies) {
            return (number, after);
        }
        for (cell, due) in after.cells.iter_mut().zip(&due.cells) {
            *cell = due.unwrap_or(*cell);
        }
        after.plan[..plan].copy_from_slice(&due.plan.encode());
        after.cost = due.plan.cost;
        (ACCEPTED, after)
    }
}

/// 2^N times P cells and 32 + 2N bytes.
pub fn needed(due: &Due) -> (usize, usize) {
    (due.cells.len(), plan_len(due.plan.doors.len()))
}
