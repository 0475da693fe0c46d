//! Sheets that are given and not drawn at random: sheet A of document 01, and plain sheets of given sizes.

use super::plan::Plan;
use super::sheet::{Door, Rule, Sheet};

/// Sheet A: two tasks, three points, 102 bytes.
pub fn sheet_a() -> Sheet {
    Sheet {
        kind: 1,
        end_load: 10,
        tasks: vec![5, -3],
        doors: vec![
            Door {
                task: 0,
                arrival: 1,
                departure: 1,
                work: 4,
            },
            Door {
                task: 1,
                arrival: 2,
                departure: 2,
                work: 6,
            },
        ],
        starts: vec![0],
        pairs: vec![],
        rules: vec![],
        points: vec![0, 20, 30],
        distances: vec![0, 2, 3, 2, 0, 4, 3, 4, 0],
    }
}

/// The plan of A, as in the document.
pub const PLAN_OF_A: [u8; 36] = [
    0x02, 0x00, 0x00, 0x00, 0x01, 0x00, 0x16, 0x00, 0x01, 0x00, 0x02, 0x00, 0x18, 0x00, 0x02, 0x00,
    0x03, 0x00, 0x1c, 0x00, 0x01, 0x00, 0x00, 0x00, 0x00, 0x00, 0x01, 0x00, 0x5c, 0x00, 0x00, 0x00,
    0x00, 0x00, 0x00, 0x00,
];

/// Sheet A with another end load.
pub fn sheet_a_with_end_load(end_load: u16) -> Sheet {
    Sheet {
        end_load,
        ..sheet_a()
    }
}

/// Sheet A with pairs.
pub fn sheet_a_with_pairs(pairs: &[(u16, u16)]) -> Sheet {
    Sheet {
        pairs: pairs.to_vec(),
        ..sheet_a()
    }
}

/// Sheet A with another end load and pairs.
pub fn sheet_a_with_end_load_and_pairs(end_load: u16, pairs: &[(u16, u16)]) -> Sheet {
    Sheet {
        end_load,
        ..sheet_a_with_pairs(pairs)
    }
}

/// Sheet A with one more access rule, on door 0.
pub fn sheet_a_with_rule(watched: u16, least: u16, charge: u32) -> Sheet {
    let rule = Rule {
        door: 0,
        watched,
        least,
        charge,
    };
    Sheet {
        rules: vec![rule],
        ..sheet_a()
    }
}

/// Three tasks with a door each and four access rules of least count 2: two points, three starts, no pairs.
pub fn four_rules() -> Sheet {
    let door = |task, arrival, departure, work| Door {
        task,
        arrival,
        departure,
        work,
    };
    let rule = |door, watched, charge| Rule {
        door,
        watched,
        least: 2,
        charge,
    };
    Sheet {
        kind: 1,
        end_load: 10,
        tasks: vec![4, -2, 1],
        doors: vec![door(0, 1, 1, 1), door(1, 0, 1, 2), door(2, 1, 0, 4)],
        starts: vec![0, 0, 1],
        pairs: vec![],
        rules: vec![
            rule(0, 6, 100),
            rule(0, 5, 7),
            rule(1, 5, 30),
            rule(1, 6, 11),
        ],
        points: vec![5, 9],
        distances: vec![0, 2, 3, 0],
    }
}

/// Sheet A with as many tasks as asked, at least two; each new one has a door and changes no load.
pub fn sheet_a_with_tasks(tasks: usize) -> Sheet {
    let mut sheet = sheet_a();
    for task in 2..tasks {
        sheet.tasks.push(0);
        sheet.doors.push(Door {
            task: task as u16,
            arrival: 0,
            departure: 2,
            work: 1,
        });
    }
    sheet
}

/// The number of entries of each body.
#[derive(Clone, Copy, Debug)]
pub struct Entries {
    pub tasks: usize,
    pub doors: usize,
    pub starts: usize,
    pub pairs: usize,
    pub rules: usize,
    pub points: usize,
    pub distances: usize,
}

/// The fewest entries of each body: 66 bytes.
pub const FEWEST: Entries = Entries {
    tasks: 1,
    doors: 1,
    starts: 1,
    pairs: 0,
    rules: 0,
    points: 1,
    distances: 1,
};

/// The most entries of each body: 9,638 bytes.
pub const MOST: Entries = Entries {
    tasks: 12,
    doors: 64,
    starts: 16,
    pairs: 32,
    rules: 32,
    points: 64,
    distances: 64 * 64,
};

/// Numbers of entries strictly between the fewest and the most, with two doors or more for each task.
pub const MIDDLE: Entries = Entries {
    tasks: 5,
    doors: 11,
    starts: 3,
    pairs: 4,
    rules: 3,
    points: 3,
    distances: 3 * 3,
};

/// A sheet with these numbers of entries and nothing in it out of range, if there are two tasks and a point or more:
/// the doors serve the tasks in turn, and every pair is (0, 1).
pub fn plain(entries: Entries) -> Sheet {
    let door = |i: usize| Door {
        task: (i % entries.tasks.max(1)) as u16,
        arrival: 0,
        departure: 0,
        work: 7,
    };
    let rule = Rule {
        door: 0,
        watched: 1,
        least: 1,
        charge: 9,
    };
    Sheet {
        kind: 1,
        end_load: 100,
        tasks: vec![1; entries.tasks],
        doors: (0..entries.doors).map(door).collect(),
        starts: vec![0; entries.starts],
        pairs: vec![(0, 1); entries.pairs],
        rules: vec![rule; entries.rules],
        points: vec![3; entries.points],
        distances: vec![5; entries.distances],
    }
}

/// The cost of doing the first twelve doors of `largest`, between 2^38 and 2^39.
pub const GREATEST: u64 = 412_307_619_885;

/// The longest sheet with every number at its largest: each rule applies wherever its door is done.
pub fn largest() -> Sheet {
    let mut sheet = plain(MOST);
    sheet.end_load = u16::MAX;
    sheet.tasks.fill(i16::MAX);
    sheet.points.fill(u32::MAX);
    sheet.distances.fill(u16::MAX);
    sheet.starts.fill(63);
    for (i, door) in sheet.doors.iter_mut().enumerate() {
        (door.arrival, door.departure) = (i as u16, 63 - i as u16);
        door.work = u32::MAX;
    }
    for (i, rule) in sheet.rules.iter_mut().enumerate() {
        rule.door = i as u16 % 12;
        rule.watched = 0xfff;
        rule.charge = u32::MAX;
    }
    sheet
}

/// The longest sheet in which nothing costs anything.
pub fn free() -> Sheet {
    let mut sheet = plain(MOST);
    sheet.end_load = 0;
    sheet.tasks.fill(0);
    sheet.points.fill(0);
    sheet.doors.iter_mut().for_each(|door| door.work = 0);
    sheet.rules.iter_mut().for_each(|rule| rule.charge = 0);
    sheet
}

/// A plan from start 0 by doors 0 to 11.
pub fn first_twelve_doors(cost: u64) -> Plan {
    let doors: Vec<u16> = (0..12).collect();
    Plan::of(0, &doors, cost)
}
