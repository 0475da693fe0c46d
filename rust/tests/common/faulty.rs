//! Random sheets with exactly the faults that are asked for, put into sheets that read.

use super::layout::{body_number, offset, Field, HEAD, KIND};
use super::lists::{essential, least_end_load, load};
use super::reading::faults;
use super::rng::Rng;
use super::sheet::{Door, Rule, Sheet};
use super::tested::{all_applying, in_order, READING};
use super::valid::{draw_end_load, valid, ROOMY};

/// The numbers that can apply to a sheet of at least 46 bytes, in the order in which they are tested.
pub fn all_but_10() -> Vec<u32> {
    all_applying(&READING, |number| number != 10)
}

/// Whether two numbers can apply to one sheet: with fewer than 46 bytes it has no bodies, so 10 comes with 11, 12 and
/// 13 alone.
pub fn can_come_together(one: u32, other: u32) -> bool {
    let of_the_head = |number| (10..=13).contains(&number);
    (one != 10 && other != 10) || (of_the_head(one) && of_the_head(other))
}

/// A sheet of at least 46 bytes to which exactly these numbers, each from 11 to 17, apply: 11 and 13 are put into the
/// bytes, the others into the lists.
pub fn with_faults(rng: &mut Rng, numbers: &[u32]) -> Vec<u8> {
    let sheet = lists_with_faults(rng, numbers);
    let mut bytes = sheet.encode();
    if numbers.contains(&11) {
        KIND.put(&mut bytes, wrong_kind(rng));
    }
    if numbers.contains(&13) {
        wrong_layout(rng, &sheet, &mut bytes);
    }
    bytes
}

/// A sheet to which this number, from 10 to 17, applies and no other.
pub fn with_fault(rng: &mut Rng, number: u32) -> Vec<u8> {
    match number {
        10 => short_with_faults(rng, &[]),
        _ => with_faults(rng, &[number]),
    }
}

/// A sheet of fewer than 46 bytes to which 10 and exactly these numbers, each from 11 to 13, apply: the beginning of
/// a longer one, of any length that still shows the faults.
pub fn short_with_faults(rng: &mut Rng, numbers: &[u32]) -> Vec<u8> {
    const TRIES: usize = 10_000;
    let due = in_order(&READING, &[&[10], numbers].concat());
    for _ in 0..TRIES {
        let mut bytes = with_faults(rng, numbers);
        bytes.truncate(rng.below(HEAD));
        if faults(&bytes) == due {
            return bytes;
        }
    }
    panic!("no sheet with the faults {due:?} in {TRIES} tries");
}

/// Faults 12, 15, 17 and 14 are put in, in this order because ranges depend on the numbers of entries, and 16 behind
/// them, because the pairs tell which lists it speaks of. They may come to allow none; then another sheet is drawn.
fn lists_with_faults(rng: &mut Rng, numbers: &[u32]) -> Sheet {
    const TRIES: usize = 1_000;
    for _ in 0..TRIES {
        let mut sheet = valid(rng, ROOMY);
        for number in [12, 15, 17, 14] {
            if numbers.contains(&number) {
                put_into_lists(rng, &mut sheet, number, numbers);
            }
        }
        if !numbers.contains(&16) {
            // The lists that the pairs allow may be others now.
            draw_end_load(rng, &mut sheet);
            return sheet;
        }
        if !essential(&sheet).is_empty() {
            make_too_light(rng, &mut sheet);
            return sheet;
        }
    }
    panic!("no sheet with the faults {numbers:?} in {TRIES} tries");
}

fn put_into_lists(rng: &mut Rng, sheet: &mut Sheet, number: u32, numbers: &[u32]) {
    match number {
        12 => wrong_number_of_entries(rng, sheet),
        14 => out_of_range(rng, sheet, numbers),
        15 => task_without_door(rng, sheet),
        17 => cycle(rng, sheet),
        _ => unreachable!("{number} is not put in here"),
    }
}

fn wrong_kind(rng: &mut Rng) -> u32 {
    let any = rng.between(2, 0xffff) as u32;
    rng.pick(&[0, 2, 3, 256, 257, any])
}

/// One list gets too many entries, or too few, and nothing in it is out of range.
fn wrong_number_of_entries(rng: &mut Rng, sheet: &mut Sheet) {
    let (door, rule) = (sheet.doors[0], sheet.rules[0]);
    match rng.below(9) {
        0 => add_tasks(sheet, 13),
        1 => sheet.doors.resize(65, door),
        2 => sheet.starts.clear(),
        3 => sheet.starts.resize(17, 0),
        4 => {
            let pair = sheet.pairs.first().copied().unwrap_or((1, 0));
            sheet.pairs.resize(33, pair);
        }
        5 => sheet.rules.resize(33, rule),
        6 => {
            sheet.points.resize(65, 1);
            sheet.distances.resize(65 * 65, 1);
        }
        7 => sheet.distances.push(1),
        _ => drop(sheet.distances.pop()),
    }
}

fn add_tasks(sheet: &mut Sheet, tasks: usize) {
    for task in sheet.tasks.len()..tasks {
        sheet.tasks.push(1);
        let door = Door {
            task: task as u16,
            ..sheet.doors[0]
        };
        sheet.doors.push(door);
    }
}

/// One entry leaves its range. A pair out of range is kept by no order, so it is chosen only where 17 is due too.
fn out_of_range(rng: &mut Rng, sheet: &mut Sheet, numbers: &[u32]) {
    let (n, d, p) = (sheet.tasks.len(), sheet.doors.len(), sheet.points.len());
    let door = rng.below(d);
    let rule = rng.below(sheet.rules.len());
    match rng.below(9) {
        0 => sheet.doors[door].arrival = at_least(rng, p),
        1 => sheet.doors[door].departure = at_least(rng, p),
        2 => spare_door(rng, sheet).task = at_least(rng, n),
        3 if !sheet.starts.is_empty() => {
            let start = rng.below(sheet.starts.len());
            sheet.starts[start] = at_least(rng, p);
        }
        4 if numbers.contains(&17) => {
            let pair = rng.below(sheet.pairs.len());
            sheet.pairs[pair].0 = at_least(rng, n);
        }
        5 if numbers.contains(&17) => {
            let pair = rng.below(sheet.pairs.len());
            sheet.pairs[pair].1 = at_least(rng, n);
        }
        6 => sheet.rules[rule].door = at_least(rng, d),
        7 => sheet.rules[rule].watched |= 1 << rng.between(n, 15),
        _ => wrong_least_count(rng, &mut sheet.rules[rule]),
    }
}

fn wrong_least_count(rng: &mut Rng, rule: &mut Rule) {
    rule.least = if rng.one_in(2) { 0 } else { at_least(rng, 13) };
}

/// The limit, or any greater number of 16 bits.
fn at_least(rng: &mut Rng, limit: usize) -> u16 {
    match rng.below(3) {
        0 => limit as u16,
        1 => u16::MAX,
        _ => rng.between(limit, u16::MAX.into()) as u16,
    }
}

/// A door whose task has another one; there are more doors than tasks.
fn spare_door<'a>(rng: &mut Rng, sheet: &'a mut Sheet) -> &'a mut Door {
    let doors_of = |task| sheet.doors.iter().filter(|d| d.task == task).count();
    let spare: Vec<usize> = (0..sheet.doors.len())
        .filter(|&door| doors_of(sheet.doors[door].task) > 1)
        .collect();
    let door = rng.pick(&spare);
    &mut sheet.doors[door]
}

/// Every door of one task is given to another task.
fn task_without_door(rng: &mut Rng, sheet: &mut Sheet) {
    let order = rng.order(sheet.tasks.len());
    let (task, other) = (order[0], order[1]);
    for door in sheet.doors.iter_mut().filter(|door| door.task == task) {
        door.task = other;
    }
}

/// Of some essential list, of which there is one, so many tasks become pick-ups that they bring its load down, and the
/// end load is too little for some such list.
pub fn make_too_light(rng: &mut Rng, sheet: &mut Sheet) {
    let list = rng.pick(&essential(sheet));
    let mut tasks = rng.order(sheet.tasks.len());
    tasks.retain(|task| list >> task & 1 == 1);
    sheet.end_load = 0;
    for task in tasks {
        if load(sheet, list) >= 0 {
            sheet.tasks[usize::from(task)] = -(rng.between(1, 40_000).min(32_768) as i32) as i16;
        }
    }
    let too_little = least_end_load(sheet).min(65_536) as usize - 1;
    sheet.end_load = if rng.one_in(2) {
        too_little
    } else {
        rng.between(0, too_little)
    } as u16;
}

/// Pairs lead from a task over others back to it; they take the place of pairs where there is no room for more.
fn cycle(rng: &mut Rng, sheet: &mut Sheet) {
    let length = rng.between(1, sheet.tasks.len());
    let tasks = &rng.order(sheet.tasks.len())[..length];
    let pairs = (0..length).map(|i| (tasks[i], tasks[(i + 1) % length]));
    if sheet.pairs.len() + length > 32 {
        sheet.pairs.truncate(sheet.pairs.len() - length);
    }
    sheet.pairs.extend(pairs);
}

/// A wrong body number or offset, or a length that is not the end of body 7. Only distances are cut off, so that the
/// other lists stay whole.
fn wrong_layout(rng: &mut Rng, sheet: &Sheet, bytes: &mut Vec<u8>) {
    let line = rng.between(1, 7);
    match rng.below(4) {
        0 => change(rng, body_number(line), bytes),
        1 => change(rng, offset(line), bytes),
        2 => {
            let distances = 2 * sheet.distances.len();
            bytes.truncate(bytes.len() - rng.between(1, distances));
        }
        _ => {
            let tail = rng.between(1, 100);
            bytes.extend(rng.bytes(tail));
        }
    }
}

fn change(rng: &mut Rng, field: Field, bytes: &mut [u8]) {
    let now = field.get(bytes);
    let by = rng.pick(&[1, 2, 256, 0xffff, 0x8000]);
    field.put(bytes, now + by);
}
