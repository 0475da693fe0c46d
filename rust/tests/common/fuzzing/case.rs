//! One case: a sheet, a plan, numbers and room for a call of each kind, all drawn from one number.

use super::plans::{some_plan, some_plan_for};
use super::sheets::some_sheet;
use crate::common::finishing::recurse_and_count;
use crate::common::plan::{plan_len, random_doors, Plan, MOST_TASKS};
use crate::common::pricing::{layer_cells, Layers};
use crate::common::reading::{decode, reading};
use crate::common::rng::Rng;
use crate::common::room::{needed, Room};
use crate::common::rounds::Due;
use crate::common::sheet::Sheet;

pub struct Case {
    pub sheet: Vec<u8>,
    /// What the sheet is, or the number that reading it gives.
    pub solved: Result<Solved, u32>,
    /// For planning.
    pub room: Room,
    /// For pricing, and for its row.
    pub layers: Layers,
    /// To be validated, and to be read.
    pub plan: Vec<u8>,
    pub writing: Writing,
    pub reading: Reading,
    /// What each number that is written through a pointer holds before.
    pub before: u64,
}

/// A sheet that reads, and what planning it has to give.
pub struct Solved {
    /// N and P.
    pub counts: (u64, u64),
    pub sheet: Sheet,
    pub due: Due,
    /// How many solutions cost as little as any.
    pub cheapest: u64,
}

/// What writing a plan is given and lent.
pub struct Writing {
    pub n: usize,
    /// With as many doors as are lent.
    pub plan: Plan,
    pub buffer: Vec<u8>,
}

/// What reading a plan is given and lent beside the bytes.
pub struct Reading {
    pub n: usize,
    pub doors: Vec<u16>,
}

impl Case {
    pub fn new(seed: u64) -> Case {
        let mut rng = Rng::new(seed);
        let sheet = some_sheet(&mut rng);
        Case::with_sheet(&mut rng, sheet)
    }

    pub fn with_sheet(rng: &mut Rng, sheet: Vec<u8>) -> Case {
        let solved = Solved::of(&sheet);
        let plan = match &solved {
            Ok(solved) => some_plan_for(rng, solved),
            Err(_) => some_plan(rng),
        };
        Case {
            room: some_room(rng, &solved),
            writing: Writing::some(rng),
            reading: Reading::some(rng, &plan),
            before: rng.next(),
            layers: some_layers(rng, &solved),
            sheet,
            solved,
            plan,
        }
    }
}

impl Solved {
    fn of(sheet: &[u8]) -> Result<Solved, u32> {
        let counts = reading(sheet)?;
        let sheet = decode(sheet);
        let (due, cheapest) = recurse_and_count(&sheet);
        Ok(Solved {
            counts,
            sheet,
            due,
            cheapest,
        })
    }
}

impl Writing {
    fn some(rng: &mut Rng) -> Writing {
        let any = rng.between(1, MOST_TASKS);
        let n = some_number_of_tasks(rng, any);
        let near = n.min(MOST_TASKS + 1);
        let (doors, buffer) = (some_length(rng, near), some_length(rng, plan_len(near)));
        Writing {
            n,
            plan: Plan::random(rng, doors),
            buffer: rng.bytes(buffer),
        }
    }
}

impl Reading {
    /// Mostly with the number of tasks that the plan's length tells.
    fn some(rng: &mut Rng, plan: &[u8]) -> Reading {
        let told = plan.len().saturating_sub(plan_len(0)) / 2;
        let any = rng.between(1, MOST_TASKS);
        let likely = rng.pick(&[told, told, told, any]);
        let n = some_number_of_tasks(rng, likely);
        let doors = some_length(rng, n.min(MOST_TASKS + 1));
        Reading {
            n,
            doors: random_doors(rng, doors),
        }
    }
}

/// Mostly the likely one, and otherwise one that no plan has, or that is right in its low bits alone.
fn some_number_of_tasks(rng: &mut Rng, likely: usize) -> usize {
    if !rng.one_in(10) {
        return likely;
    }
    let power = rng.pick(&[8, 16, 32, 63]);
    let (low, any) = ((1 << power) + likely % 16, rng.next() as usize);
    // 2^63 less 16 more is where 32 + 2 n is small in 64 bits.
    let wrapped = (1 << 63) - 16 + likely % 16;
    rng.pick(&[0, MOST_TASKS + 1, usize::MAX, low, wrapped, any])
}

/// As much as is needed, more, one less, less, or none.
fn some_length(rng: &mut Rng, needed: usize) -> usize {
    match rng.below(20) {
        0..10 => needed,
        10..16 => needed + rng.between(1, 40),
        16..18 => needed.saturating_sub(1),
        18 => rng.below(needed + 1),
        _ => 0,
    }
}

/// Room for planning with anything in it: any numbers, small ones as costs are, the greatest, or none.
fn some_room(rng: &mut Rng, solved: &Result<Solved, u32>) -> Room {
    let (cells, plan) = match solved {
        Ok(solved) => needed(&solved.due),
        Err(_) => (rng.below(200), plan_len(rng.between(1, MOST_TASKS))),
    };
    let (cells, plan) = (some_length(rng, cells), some_length(rng, plan));
    let mut room = Room::noise(rng, cells, plan);
    refill(rng, [&mut room.cells]);
    room
}

/// Layers for pricing, with anything in them too.
fn some_layers(rng: &mut Rng, solved: &Result<Solved, u32>) -> Layers {
    let cells = match solved {
        Ok(solved) => layer_cells(&solved.due),
        Err(_) => rng.below(100),
    };
    let (even, odd) = (some_length(rng, cells), some_length(rng, cells));
    let mut layers = Layers::noise(rng, even, odd);
    refill(rng, [&mut layers.even, &mut layers.odd]);
    layers
}

/// Now and then puts small numbers, as costs are, the greatest or none in place of any.
fn refill<const N: usize>(rng: &mut Rng, lists: [&mut Vec<u64>; N]) {
    let kind = rng.below(6);
    for cells in lists {
        match kind {
            0 => cells.fill(0),
            1 => cells.fill(u64::MAX),
            2 => cells.iter_mut().for_each(|cell| *cell %= 8),
            _ => {}
        }
    }
}
