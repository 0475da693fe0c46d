//! A plan in Rust, and its bytes, written from "Layout of a plan" of document 01 alone.

use super::rng::Rng;

/// Kind, zero and three contents lines.
pub const HEAD: usize = 22;
const DOORS_AT: usize = 24;

/// The most tasks that a plan can have.
pub const MOST_TASKS: usize = 12;

#[derive(Clone, Debug, PartialEq)]
pub struct Plan {
    pub start: u16,
    /// One for each step.
    pub doors: Vec<u16>,
    pub cost: u64,
}

/// The length of a plan of so many tasks.
pub fn plan_len(tasks: usize) -> usize {
    32 + 2 * tasks
}

/// Where the stated cost stands.
fn cost_at(tasks: usize) -> usize {
    DOORS_AT + 2 * tasks
}

/// The bytes before 22, which are the same for all plans of so many tasks.
pub fn head(tasks: usize) -> Vec<u8> {
    let kind_and_zero = [2, 0];
    let lines = [[1, HEAD, 1], [2, DOORS_AT, tasks], [3, cost_at(tasks), 1]];
    let words = kind_and_zero.into_iter().chain(lines.concat());
    words.flat_map(|word| (word as u16).to_le_bytes()).collect()
}

impl Plan {
    pub fn of(start: u16, doors: &[u16], cost: u64) -> Plan {
        let doors = doors.to_vec();
        Plan { start, doors, cost }
    }

    /// Any values, with so many doors.
    pub fn random(rng: &mut Rng, doors: usize) -> Plan {
        let (start, cost) = (rng.u16(), rng.next());
        Plan::of(start, &random_doors(rng, doors), cost)
    }

    pub fn encode(&self) -> Vec<u8> {
        let mut bytes = head(self.doors.len());
        bytes.extend(self.start.to_le_bytes());
        for door in &self.doors {
            bytes.extend(door.to_le_bytes());
        }
        bytes.extend(self.cost.to_le_bytes());
        bytes
    }

    /// What stands in the places of a plan of so many tasks, whatever stands before them or behind; nothing if the
    /// bytes end too early.
    pub fn in_places(tasks: usize, bytes: &[u8]) -> Option<Plan> {
        let bytes = bytes.get(..plan_len(tasks))?;
        let number = |at: usize| u16::from_le_bytes([bytes[at], bytes[at + 1]]);
        let mut cost = [0; 8];
        cost.copy_from_slice(&bytes[cost_at(tasks)..]);
        Some(Plan {
            start: number(HEAD),
            doors: (0..tasks).map(|i| number(DOORS_AT + 2 * i)).collect(),
            cost: u64::from_le_bytes(cost),
        })
    }
}

pub fn random_doors(rng: &mut Rng, count: usize) -> Vec<u16> {
    (0..count).map(|_| rng.u16()).collect()
}

/// The condition that document 01 has for 30, turned round.
pub fn is_laid_out(tasks: usize, bytes: &[u8]) -> bool {
    bytes.len() == plan_len(tasks) && bytes[..HEAD] == head(tasks)
}
