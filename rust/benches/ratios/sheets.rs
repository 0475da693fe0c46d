//! The sheets that are timed, the same in every run.

use crate::common::rng::Rng;
use crate::common::sheet::{Door, Rule, Sheet};
use crate::common::valid::pairs;

/// A sheet that is timed, and its cheapest plan.
pub struct Subject {
    pub name: &'static str,
    pub tasks: usize,
    pub points: usize,
    pub sheet: Vec<u8>,
    pub plan: Vec<u8>,
}

impl Subject {
    fn new(name: &'static str, sheet: &Sheet) -> Subject {
        let (tasks, points) = (sheet.tasks.len(), sheet.points.len());
        let sheet = sheet.encode();
        let plan = vanplan::plan(&sheet).expect("a sheet that reads");
        let plan = plan.to_bytes().expect("a plan of the planner");
        Subject {
            name,
            tasks,
            points,
            sheet,
            plan,
        }
    }
}

/// All sheets that are timed.
pub struct Subjects {
    pub worst: Subject,
    pub middle: Subject,
    pub longest: Subject,
    pub laden: Subject,
    pub light: Subject,
}

impl Subjects {
    pub fn new() -> Subjects {
        let [laden, light] = laden_and_light();
        Subjects {
            worst: Subject::new("worst case", &draw(WORST)),
            middle: Subject::new("middle case", &draw(MIDDLE)),
            longest: Subject::new("longest sheet", &longest()),
            laden: Subject::new("laden sheet", &laden),
            light: Subject::new("light sheet", &light),
        }
    }

    pub fn all(&self) -> [&Subject; 5] {
        [
            &self.worst,
            &self.middle,
            &self.longest,
            &self.laden,
            &self.light,
        ]
    }
}

/// The numbers of entries of a sheet.
struct Entries {
    tasks: usize,
    doors: usize,
    starts: usize,
    pairs: usize,
    rules: usize,
    points: usize,
}

/// The most work for the planner: every list is essential.
const WORST: Entries = Entries {
    tasks: 12,
    doors: 64,
    starts: 4,
    pairs: 0,
    rules: 32,
    points: 64,
};

const MIDDLE: Entries = Entries {
    tasks: 10,
    doors: 30,
    starts: 2,
    pairs: 3,
    rules: 10,
    points: 20,
};

/// The most entries of each body: 9,638 bytes.
const LONGEST: Entries = Entries {
    tasks: 12,
    doors: 64,
    starts: 16,
    pairs: 32,
    rules: 32,
    points: 64,
};

fn longest() -> Sheet {
    let longest = draw(LONGEST);
    assert_eq!(longest.encode().len(), 9_638);
    longest
}

/// The longest sheet with other changes and pairs, twice: laden, so that not even the lightest list is below zero; and
/// with little at the end.
///
/// One task picks up, and the last delivers. Each list with the pick-up and without the delivery is below zero, which
/// makes 1,024. None of them is essential, but that shows late: the pairs to the pick-up come first, which all these
/// lists keep, then the one from it to the delivery.
fn laden_and_light() -> [Sheet; 2] {
    const PICK_UP: u16 = 10;
    const DELIVERY: u16 = 11;
    const PICKED_UP: i16 = 4_000;
    let mut laden = longest();
    for (task, change) in (0..).zip(&mut laden.tasks) {
        *change = match task {
            PICK_UP => -PICKED_UP,
            DELIVERY => 2 * PICKED_UP,
            _ => change.abs() / 10,
        };
    }
    let before = (0..PICK_UP).map(|task| (task, PICK_UP)).cycle();
    laden.pairs = before.take(31).chain([(PICK_UP, DELIVERY)]).collect();
    let light = Sheet {
        end_load: 1_000,
        ..laden.clone()
    };
    assert!(lightest(&laden) >= 0);
    assert!(lightest(&light) < 0);
    assert_eq!(looked_at(&light), [1_024, 32_768]);
    [laden, light]
}

/// The load of the lightest list of all: the end load and all negative changes.
pub fn lightest(sheet: &Sheet) -> i64 {
    let negative = sheet.tasks.iter().map(|&change| i64::from(change.min(0)));
    i64::from(sheet.end_load) + negative.sum::<i64>()
}

/// How many lists have a load below zero, and how many pairs are looked at, for each up to the first that it breaks.
fn looked_at(sheet: &Sheet) -> [usize; 2] {
    let has = |list: usize, task: u16| list >> task & 1 == 1;
    let mut looked_at = [0, 0];
    for list in 1..1 << sheet.tasks.len() {
        let tasks = (0..).zip(&sheet.tasks).filter(|&(task, _)| has(list, task));
        let load = tasks.map(|(_, &change)| i64::from(change)).sum::<i64>();
        if i64::from(sheet.end_load) + load < 0 {
            let mut pairs = sheet.pairs.iter();
            let broken = pairs.position(|&(from, to)| has(list, from) && !has(list, to));
            looked_at[0] += 1;
            looked_at[1] += 1 + broken.expect("a sheet that reads");
        }
    }
    looked_at
}

/// A sheet that reads, with all its numbers drawn at random: loads stay positive, and a good part of the rules applies.
fn draw(entries: Entries) -> Sheet {
    const SEED: u64 = 2026;
    const MOST_CHANGE: usize = 2_000;
    let mut rng = Rng::new(SEED);
    let rng = &mut rng;
    let Entries { tasks, points, .. } = entries;
    let mut door_tasks: Vec<u16> = (0..entries.doors).map(|d| (d % tasks) as u16).collect();
    rng.shuffle(&mut door_tasks);
    Sheet {
        kind: 1,
        end_load: 60_000,
        tasks: times(tasks, || {
            rng.below(2 * MOST_CHANGE + 1) as i16 - MOST_CHANGE as i16
        }),
        doors: (door_tasks.into_iter())
            .map(|task| Door {
                task,
                arrival: rng.below(points) as u16,
                departure: rng.below(points) as u16,
                work: rng.u32(),
            })
            .collect(),
        starts: times(entries.starts, || rng.below(points) as u16),
        pairs: pairs(rng, tasks, (entries.pairs, entries.pairs)),
        rules: times(entries.rules, || Rule {
            door: rng.below(entries.doors) as u16,
            watched: rng.below(1 << tasks) as u16,
            least: rng.between(1, 4) as u16,
            charge: rng.u32(),
        }),
        points: times(points, || rng.u32()),
        distances: times(points * points, || rng.u16()),
    }
}

fn times<T>(count: usize, mut one: impl FnMut() -> T) -> Vec<T> {
    (0..count).map(|_| one()).collect()
}
