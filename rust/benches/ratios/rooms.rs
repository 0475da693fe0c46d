//! What planning and pricing are lent, and how much of it they need.

use crate::common::rng::Rng;

/// What planning needs for the largest sheets, and pricing in each layer: 12 tasks and 64 points.
pub const MOST_CELLS: usize = 4_096 * 64;
pub const MOST_LAYER_CELLS: usize = 924 * 64;

/// The work cells that planning needs.
pub fn cells(tasks: usize, points: usize) -> usize {
    points << tasks
}

/// The cells that pricing needs in each of its two layers: a row for every list of the size that has the most lists.
pub fn layer_cells(tasks: usize, points: usize) -> usize {
    let half = tasks / 2;
    let lists = (0..half).fold(1, |lists, k| lists * (tasks - k) / (k + 1));
    lists * points
}

/// What planning is lent, with something in it.
#[derive(Clone)]
pub struct Room {
    pub cells: Vec<u64>,
    pub plan: Vec<u8>,
}

impl Room {
    pub fn noise(rng: &mut Rng, cells: usize, plan: usize) -> Room {
        Room {
            cells: noise(rng, cells),
            plan: rng.bytes(plan),
        }
    }
}

/// What pricing is lent, with something in it.
#[derive(Clone)]
pub struct Layers {
    pub even: Vec<u64>,
    pub odd: Vec<u64>,
}

impl Layers {
    pub fn noise(rng: &mut Rng, even: usize, odd: usize) -> Layers {
        Layers {
            even: noise(rng, even),
            odd: noise(rng, odd),
        }
    }
}

fn noise(rng: &mut Rng, cells: usize) -> Vec<u64> {
    (0..cells).map(|_| rng.next()).collect()
}
