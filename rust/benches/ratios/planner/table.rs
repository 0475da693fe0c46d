//! The table of costs to finish: the lists in increasing order; for each, one pass over the rules, one over the doors
//! that gathers those whose task may come next, then for each point the least over what was gathered.

use super::sheet::{u16_at, u32_at, Sheet, DOOR_BYTES, RULE_BYTES};
use std::array;

const MAX_DOORS: usize = 64;
const MAX_RULES: usize = 32;
const NO_COST: u64 = 1 << 60;

/// What a list has is put together from two halves, those of its tasks below 6 and of its other tasks.
const HALF_TASKS: usize = 6;
const HALF_LISTS: usize = 1 << HALF_TASKS;

#[derive(Clone, Copy, Default)]
struct Half {
    load: i32,
    receivers: u32,
    doors: u64,
}

/// What filling asks of a sheet, computed once.
struct Round {
    ndoors: usize,
    nrules: usize,
    work: [u64; MAX_DOORS],
    /// Where the cell of the rest is, from the beginning of the open list's row.
    rest: [isize; MAX_DOORS],
    /// Where the arrival point is in a row of distances, in bytes.
    to: [u16; MAX_DOORS],
    charge: [u64; MAX_RULES],
    watched: [u16; MAX_RULES],
    least: [u16; MAX_RULES],
    rule_door: [u8; MAX_RULES],
    low: [Half; HALF_LISTS],
    high: [Half; HALF_LISTS],
}

/// The doors gathered for a list: where each arrives, and the part of its cost that does not hang on the point, which
/// is work, charges and the cell of the rest.
struct Gathered {
    to: [u16; MAX_DOORS],
    part: [u64; MAX_DOORS],
    /// Work and charges of all doors.
    sums: [u64; MAX_DOORS],
}

impl Round {
    fn of(sheet: &Sheet) -> Round {
        let mut round = Round {
            ndoors: sheet.doors.len() / DOOR_BYTES,
            nrules: sheet.rules.len() / RULE_BYTES,
            work: [0; MAX_DOORS],
            rest: [0; MAX_DOORS],
            to: [0; MAX_DOORS],
            charge: [0; MAX_RULES],
            watched: [0; MAX_RULES],
            least: [0; MAX_RULES],
            rule_door: [0; MAX_RULES],
            low: [Half::default(); HALF_LISTS],
            high: [Half::default(); HALF_LISTS],
        };
        let mut doors_of = [0; 16];
        for (d, door) in sheet.doors.chunks_exact(DOOR_BYTES).enumerate() {
            let task = u16_at(door, 0) as usize;
            round.work[d] = u32_at(door, 6).into();
            round.rest[d] = u16_at(door, 4) as isize - (sheet.npoints << task) as isize;
            round.to[d] = 2 * u16_at(door, 2) as u16;
            doors_of[task] |= 1 << d;
        }
        for (i, rule) in sheet.rules.chunks_exact(RULE_BYTES).enumerate() {
            round.charge[i] = u32_at(rule, 6).into();
            round.watched[i] = u16_at(rule, 2) as u16;
            round.least[i] = u16_at(rule, 4) as u16;
            round.rule_door[i] = u16_at(rule, 0) as u8;
        }
        fill_half(sheet, &doors_of, 0, &mut round.low);
        fill_half(sheet, &doors_of, HALF_TASKS, &mut round.high);
        round
    }

    fn halves(&self, list: u32) -> (&Half, &Half) {
        let list = list as usize;
        (
            &self.low[list % HALF_LISTS],
            &self.high[list / HALF_LISTS % HALF_LISTS],
        )
    }

    /// Work and charges of each door while a list is open: a rule that does not apply adds nothing.
    #[inline(always)]
    fn sum_up(&self, list: u32, sums: &mut [u64; MAX_DOORS]) {
        let (doors, rules) = (self.ndoors.min(MAX_DOORS), self.nrules.min(MAX_RULES));
        let mut mask = [0i16; MAX_RULES];
        sums[..doors].copy_from_slice(&self.work[..doors]);
        let rule = self.watched.iter().zip(&self.least);
        for (mask, (&watched, &least)) in mask[..rules].iter_mut().zip(rule) {
            *mask = -i16::from(least <= count_bits(watched & list as u16));
        }
        for i in 0..rules {
            sums[usize::from(self.rule_door[i]) % MAX_DOORS] += self.charge[i] & mask[i] as u64;
        }
    }

    /// Gathers the doors of the tasks that may come next, and answers how many. The list's row begins at cell `row`.
    #[inline(always)]
    fn gather(&self, list: u32, first: u32, cells: &[u64], row: usize, g: &mut Gathered) -> usize {
        self.sum_up(list, &mut g.sums);
        let (low, high) = self.halves(first);
        let mut doors = low.doors | high.doors;
        let mut m = 0;
        while doors != 0 {
            let d = doors.trailing_zeros() as usize;
            // SAFETY: m and d are below 64, since `doors` has 64 bits; the task of d is in the list, and so the cell of
            // the rest is that of a list below it and of a point.
            unsafe {
                *g.to.get_unchecked_mut(m) = self.to[d];
                let rest = *cells.get_unchecked(row.wrapping_add_signed(self.rest[d]));
                *g.part.get_unchecked_mut(m) = g.sums[d] + rest;
            }
            m += 1;
            doors &= doors - 1;
        }
        m
    }
}

/// How many are in a set. Plain x86-64 has no instruction for it; this is done for eight rules at once.
#[inline(always)]
fn count_bits(set: u16) -> u16 {
    let pairs = set - (set >> 1 & 0x5555);
    let fours = (pairs & 0x3333) + (pairs >> 2 & 0x3333);
    let eights = (fours + (fours >> 4)) & 0x0f0f;
    (eights + (eights >> 8)) & 0x1f
}

/// The half of the tasks from `lowest` on.
fn fill_half(sheet: &Sheet, doors_of: &[u64; 16], lowest: usize, half: &mut [Half; HALF_LISTS]) {
    for i in 1..HALF_LISTS {
        let task = lowest + i.trailing_zeros() as usize;
        if task >= sheet.ntasks {
            return;
        }
        let less = half[i & (i - 1)];
        half[i] = Half {
            load: less.load + sheet.load_change(task),
            receivers: less.receivers | u32::from(sheet.receivers[task]),
            doors: less.doors | doors_of[task],
        };
    }
}

/// Through door i of those gathered, from the point that these distances are from.
///
/// # Safety
/// So many doors were gathered, and the distances from a point to all begin there.
#[inline(always)]
unsafe fn through(distances: &[u8], load: u64, g: &Gathered, i: usize) -> u64 {
    // SAFETY: the caller's, and the door arrives at a point of the sheet.
    unsafe {
        let to = usize::from(*g.to.get_unchecked(i));
        let distance = distances.as_ptr().add(to).cast::<u16>().read_unaligned();
        u64::from(u16::from_le(distance)) * load + *g.part.get_unchecked(i)
    }
}

/// Writes for each point the least over the m doors gathered, `STEP` points at a time and then the others one by one.
/// The distances from neighbouring points stand `stride` bytes apart.
#[inline(always)]
fn fill_row<const STEP: usize>(
    distances: &[u8],
    stride: usize,
    load: u64,
    g: &Gathered,
    m: usize,
    row: &mut [u64],
) {
    let mut steps = row.chunks_exact_mut(STEP);
    let mut from = 0;
    for cells in &mut steps {
        let here: [&[u8]; STEP] = array::from_fn(|j| &distances[from + j * stride..]);
        let mut best = [NO_COST; STEP];
        for i in 0..m {
            for (here, best) in here.iter().zip(&mut best) {
                // SAFETY: m doors were gathered, and the row has a cell for each point.
                *best = unsafe { through(here, load, g, i) }.min(*best);
            }
        }
        cells.copy_from_slice(&best);
        from += STEP * stride;
    }
    if STEP > 1 {
        let rest = steps.into_remainder();
        fill_row::<1>(&distances[from..], stride, load, g, m, rest);
    }
}

/// Fills the cells of the empty list and of every essential one.
pub fn fill<const STEP: usize>(sheet: &Sheet, cells: &mut [u64]) {
    let round = Round::of(sheet);
    let points = sheet.npoints;
    let mut g = Gathered {
        to: [0; MAX_DOORS],
        part: [0; MAX_DOORS],
        sums: [0; MAX_DOORS],
    };
    for (cell, end_cost) in cells.iter_mut().zip(sheet.points.chunks_exact(4)) {
        *cell = u32_at(end_cost, 0).into();
    }
    for list in 1..=sheet.full() {
        let (low, high) = round.halves(list);
        let receivers = low.receivers | high.receivers;
        if receivers & !list == 0 {
            let load = (sheet.end_load as i32 + low.load + high.load) as u64;
            let row = list as usize * points;
            let m = round.gather(list, list & !receivers, cells, row, &mut g);
            let row = &mut cells[row..row + points];
            fill_row::<STEP>(sheet.distances, 2 * points, load, &g, m, row);
        }
    }
}
