//! vanplan_plan in Rust, in the shape that is the fastest in C: doors gathered by bits, one and two points at a time.

mod sheet;
mod table;

use crate::calls::Plan;
use sheet::{u16_at, u32_at, Sheet, MAX_TASKS, RULE_BYTES};
use std::slice;

/// Each planner, and how many points it takes at a time.
pub const PLANNERS: [(&str, Plan); 2] = [("one point", plan_by::<1>), ("two points", plan_by::<2>)];

/// # Safety
/// As `vanplan_plan` asks of its caller.
unsafe extern "C" fn plan_by<const STEP: usize>(
    sheet: *const u8,
    len: usize,
    cells: *mut u64,
    ncells: usize,
    buffer: *mut u8,
    buffer_len: usize,
    cost: *mut u64,
) -> u32 {
    // SAFETY: the caller passes so many elements at each pointer, and nothing overlaps what is written.
    let (sheet, cells, buffer) = unsafe {
        (
            slice::from_raw_parts(sheet, len),
            slice::from_raw_parts_mut(cells, ncells),
            slice::from_raw_parts_mut(buffer, buffer_len),
        )
    };
    match plan::<STEP>(sheet, cells, buffer) {
        Ok(least) => {
            // SAFETY: the caller passes a number that may be written.
            unsafe { *cost = least };
            0
        }
        Err(number) => number,
    }
}

fn plan<const STEP: usize>(bytes: &[u8], cells: &mut [u64], buffer: &mut [u8]) -> Result<u64, u32> {
    let sheet = Sheet::read(bytes)?;
    if cells.len() < sheet.npoints << sheet.ntasks {
        return Err(20);
    }
    let buffer = buffer.get_mut(..32 + 2 * sheet.ntasks).ok_or(21u32)?;
    table::fill::<STEP>(&sheet, cells);
    Ok(write_plan(&sheet, cells, buffer))
}

/// Writes the cheapest plan, by cells that are filled, and answers its cost.
fn write_plan(sheet: &Sheet, cells: &[u64], buffer: &mut [u8]) -> u64 {
    let mut list = sheet.full();
    let row = list as usize * sheet.npoints;
    let cost_from = |&start: &usize| cells[row + sheet.start_point(start)];
    let starts = 0..sheet.starts.len() / 2;
    let start = starts.min_by_key(cost_from).expect("a start");
    let cost = cost_from(&start);
    let n = sheet.ntasks as u16;
    let mut numbers = [0; 12 + MAX_TASKS];
    numbers[..12].copy_from_slice(&[2, 0, 1, 22, 1, 2, 24, n, 3, 24 + 2 * n, 1, start as u16]);
    let mut from = sheet.start_point(start);
    for number in &mut numbers[12..12 + sheet.ntasks] {
        let d = next_door(sheet, cells, list, from);
        *number = d as u16;
        list &= !(1 << u16_at(sheet.door(d), 0));
        from = u16_at(sheet.door(d), 4) as usize;
    }
    let (head, stated) = buffer.split_at_mut(24 + 2 * sheet.ntasks);
    for (bytes, number) in head.chunks_exact_mut(2).zip(numbers) {
        bytes.copy_from_slice(&number.to_le_bytes());
    }
    stated.copy_from_slice(&cost.to_le_bytes());
    cost
}

/// The first door, of a task that may come next, through which finishing costs what the cell here says.
fn next_door(sheet: &Sheet, cells: &[u64], list: u32, from: usize) -> usize {
    let mut charges = [0; 64];
    for rule in sheet.rules.chunks_exact(RULE_BYTES) {
        if u16_at(rule, 4) <= (u16_at(rule, 2) & list).count_ones() {
            charges[u16_at(rule, 0) as usize % 64] += u64::from(u32_at(rule, 6));
        }
    }
    let first = list & !sheet.receivers_of(list);
    let load = u64::from(sheet.load(list));
    let here = cells[list as usize * sheet.npoints + from];
    let found = (0..).zip(charges).find(|&(d, charge)| {
        let door = sheet.door(d);
        let (task, arrival, departure) = (u16_at(door, 0), u16_at(door, 2), u16_at(door, 4));
        let rest = (list & !(1 << task)) as usize * sheet.npoints + departure as usize;
        let leg = u64::from(sheet.distance(from, arrival as usize)) * load;
        let cost = leg + u64::from(u32_at(door, 6)) + charge + cells[rest];
        (cost == here) & (first >> task & 1 == 1)
    });
    found.expect("a door with the cost of the cell").0
}
