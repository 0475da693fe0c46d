//! Random sheets that read: every number is drawn from the whole range that documents 01 and 02 allow it. In a good part
//! of those with pairs all pick-ups together are more than the end load, which the pairs make enough.

use super::lists::least_end_load;
use super::rng::Rng;
use super::sheet::{Door, Rule, Sheet};

/// The fewest and most entries that a random sheet gets; at least one door for each task comes first.
#[derive(Clone, Copy)]
pub struct Size {
    pub tasks: (usize, usize),
    pub more_doors: (usize, usize),
    pub starts: (usize, usize),
    pub pairs: (usize, usize),
    pub rules: (usize, usize),
    pub points: (usize, usize),
}

/// Few tasks, so that every order of them is soon tried.
pub const SMALL: Size = Size {
    tasks: (1, 5),
    more_doors: (0, 3),
    starts: (1, 3),
    pairs: (0, 4),
    rules: (0, 3),
    points: (1, 4),
};

/// As much as the layout allows.
pub const ANY: Size = Size {
    tasks: (1, 12),
    more_doors: (0, 52),
    starts: (1, 16),
    pairs: (0, 32),
    rules: (0, 32),
    points: (1, 64),
};

/// The longest sheets, with as many pairs as are asked for.
pub const fn longest(pairs: (usize, usize)) -> Size {
    Size {
        tasks: (12, 12),
        more_doors: (52, 52),
        starts: (16, 16),
        pairs,
        rules: (32, 32),
        points: (64, 64),
    }
}

/// Small, with something in every body that a fault may be put into.
pub const ROOMY: Size = Size {
    tasks: (2, 6),
    more_doors: (2, 6),
    starts: (1, 4),
    pairs: (0, 4),
    rules: (1, 4),
    points: (2, 5),
};

pub fn valid(rng: &mut Rng, size: Size) -> Sheet {
    let n = draw(rng, size.tasks);
    let p = draw(rng, size.points);
    let doors = doors(rng, n, p, size.more_doors);
    let mut sheet = Sheet {
        kind: 1,
        end_load: 0,
        tasks: loads(rng, n),
        starts: many(rng, size.starts, |rng| rng.below(p) as u16),
        pairs: pairs(rng, n, size.pairs),
        rules: many(rng, size.rules, |rng| rule(rng, n, doors.len())),
        doors,
        points: (0..p).map(|_| rng.u32()).collect(),
        distances: (0..p * p).map(|_| rng.u16()).collect(),
    };
    if rng.one_in(2) {
        let heaviest = rng.pick(&[3, 1_000, i16::MAX as usize]);
        take_aboard(rng, &mut sheet, heaviest);
    }
    draw_end_load(rng, &mut sheet);
    sheet
}

/// Some senders pick up what their receivers deliver, up to the heaviest crate; now and then a kilogram more or less.
fn take_aboard(rng: &mut Rng, sheet: &mut Sheet, heaviest: usize) {
    for (sender, receiver) in sheet.pairs.clone() {
        if rng.one_in(2) {
            continue;
        }
        let weight = rng.between(1, heaviest) as i16;
        let more = rng.pick(&[0, 0, 0, 1, -1]);
        sheet.tasks[usize::from(sender)] = -weight;
        sheet.tasks[usize::from(receiver)] = weight.saturating_add(more);
    }
}

/// Draws an end load that is enough for every essential list. Where it need not be as much as all pick-ups together, it
/// often is not. Pick-ups that are too much for any end load are left out.
pub fn draw_end_load(rng: &mut Rng, sheet: &mut Sheet) {
    const MOST: usize = u16::MAX as usize;
    while least_end_load(sheet) > MOST as i64 {
        let pick_up = sheet.tasks.iter_mut().find(|w| **w < 0);
        *pick_up.expect("a list is too light by a pick-up") = 0;
    }
    let (least, picked_up) = (least_end_load(sheet) as usize, sheet.picked_up() as usize);
    sheet.end_load = match rng.below(6) {
        0 => least,
        1 => MOST,
        2 | 3 if least < picked_up => rng.between(least, MOST.min(picked_up - 1)),
        _ => rng.between(least, MOST),
    } as u16;
}

fn draw(rng: &mut Rng, (fewest, most): (usize, usize)) -> usize {
    rng.between(fewest, most)
}

fn many<T>(rng: &mut Rng, count: (usize, usize), one: impl Fn(&mut Rng) -> T) -> Vec<T> {
    (0..draw(rng, count)).map(|_| one(rng)).collect()
}

/// Load changes of either sign; the pick-ups together stay within the greatest end load.
fn loads(rng: &mut Rng, n: usize) -> Vec<i16> {
    let mut left = i64::from(u16::MAX);
    let mut loads = Vec::new();
    for _ in 0..n {
        let w = match rng.below(4) {
            0 => rng.u16() as i16,
            1 => rng.pick(&[0, 1, -1, i16::MAX, i16::MIN]),
            _ => rng.between(0, 2_000) as i16 - 1_000,
        };
        let w = if left + i64::from(w) < 0 { 0 } else { w };
        left += i64::from(w).min(0);
        loads.push(w);
    }
    loads
}

fn doors(rng: &mut Rng, n: usize, p: usize, more: (usize, usize)) -> Vec<Door> {
    let mut tasks = rng.order(n);
    let more = many(rng, more, |rng| rng.below(n) as u16);
    tasks.extend(more);
    rng.shuffle(&mut tasks);
    let door = |task| Door {
        task,
        arrival: rng.below(p) as u16,
        departure: rng.below(p) as u16,
        work: rng.u32(),
    };
    tasks.into_iter().map(door).collect()
}

/// Pairs that one random order of the tasks keeps; a single task has none.
pub fn pairs(rng: &mut Rng, n: usize, count: (usize, usize)) -> Vec<(u16, u16)> {
    if n < 2 {
        return Vec::new();
    }
    let order = rng.order(n);
    many(rng, count, |rng| {
        let after = rng.between(1, n - 1);
        (order[rng.below(after)], order[after])
    })
}

fn rule(rng: &mut Rng, n: usize, doors: usize) -> Rule {
    Rule {
        door: rng.below(doors) as u16,
        watched: rng.below(1 << n) as u16,
        least: rng.between(1, 12) as u16,
        charge: rng.u32(),
    }
}

/// Sets load changes to -3 to 4, the end load to little more than needed, and every other number that a cost is made of
/// to one below the limit.
pub fn make_small(rng: &mut Rng, sheet: &mut Sheet, limit: usize) {
    for w in &mut sheet.tasks {
        *w = rng.below(7) as i16 - 3;
    }
    if rng.one_in(2) {
        take_aboard(rng, sheet, 3);
    }
    sheet.end_load = least_end_load(sheet) as u16 + rng.below(4) as u16;
    for door in &mut sheet.doors {
        door.work = rng.below(limit) as u32;
    }
    for rule in &mut sheet.rules {
        rule.charge = rng.below(limit) as u32;
    }
    for end_cost in &mut sheet.points {
        *end_cost = rng.below(limit) as u32;
    }
    for distance in &mut sheet.distances {
        *distance = rng.below(limit) as u16;
    }
}
