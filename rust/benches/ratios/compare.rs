//! Whether all calls answer alike: the number, and every value, cell and byte afterwards are compared with what the
//! proved library answers and leaves; and what it prices with what it plans.

use crate::calls::{plan, price, read, validate, Calls, Entry};
use crate::common::plan::{plan_len, MOST_TASKS};
use crate::common::rng::Rng;
use crate::rooms::{cells, layer_cells, Layers, Room, MOST_CELLS, MOST_LAYER_CELLS};
use crate::sheets::Subject;
use std::collections::BTreeMap;

/// Every number that a call can answer with; 0 stands for no refusal.
const NUMBERS: [u32; 17] = [
    0, 10, 11, 12, 13, 14, 15, 17, 16, 20, 21, 22, 30, 31, 32, 33, 34,
];

/// What a call answers, and what then stands in each place that it was lent.
struct Answer {
    number: u32,
    places: Vec<(&'static str, Vec<u64>)>,
}

impl Answer {
    /// The first thing in which another answer differs from this one.
    fn difference(&self, other: &Answer) -> Option<String> {
        if self.number != other.number {
            return Some(format!("{} and not {}", other.number, self.number));
        }
        for ((name, ours), (_, theirs)) in self.places.iter().zip(&other.places) {
            if let Some(i) = (0..ours.len()).find(|&i| ours[i] != theirs[i]) {
                return Some(format!("{name} {i}: {} and not {}", theirs[i], ours[i]));
            }
        }
        None
    }
}

/// Compares calls, and keeps count of the calls and of the numbers answered.
#[derive(Default)]
pub struct Comparison {
    calls: usize,
    met: BTreeMap<u32, usize>,
    differences: Vec<String>,
    /// What else there is to say of the sheets.
    pub notes: Vec<String>,
}

/// Stands in a number that is lent.
const LENT: u64 = 0xdead_beef_0bad_f00d;

impl Comparison {
    /// All calls on a sheet that is timed: planning and pricing with more than they need, with just that, and with a
    /// cell less.
    pub fn all(&mut self, calls: &Calls, subject: &Subject) {
        let Subject {
            name, sheet, plan, ..
        } = subject;
        assert_eq!(self.reading(calls, sheet, name), 0, "{name}");
        assert_eq!(self.validating(calls, sheet, plan, name), 0, "{name}");
        let (tasks, points) = (subject.tasks, subject.points);
        let rng = &mut Rng::new(1);
        let needed = cells(tasks, points);
        for (cells, due) in [(MOST_CELLS + 9, 0), (needed, 0), (needed - 1, 20)] {
            let room = Room::noise(rng, cells, plan_len(MOST_TASKS) + 9);
            assert_eq!(self.planning(calls, sheet, &room, name), due, "{name}");
        }
        let needed = layer_cells(tasks, points);
        for (cells, due) in [(MOST_LAYER_CELLS + 9, 0), (needed, 0), (needed - 1, 22)] {
            let layers = Layers::noise(rng, cells, cells);
            assert_eq!(self.pricing(calls, sheet, &layers, name), due, "{name}");
        }
    }

    pub fn reading(&mut self, calls: &Calls, sheet: &[u8], case: &str) -> u32 {
        self.compare(&calls.reads, &[], &format!("reading {case}"), |call| {
            let (mut tasks, mut points) = (LENT, LENT);
            Answer {
                number: read(call, sheet, &mut tasks, &mut points),
                places: vec![("tasks", vec![tasks]), ("points", vec![points])],
            }
        })
        .number
    }

    pub fn validating(&mut self, calls: &Calls, sheet: &[u8], bytes: &[u8], case: &str) -> u32 {
        self.compare(
            &calls.validates,
            &[],
            &format!("validating {case}"),
            |call| {
                let mut cost = LENT;
                Answer {
                    number: validate(call, sheet, bytes, &mut cost),
                    places: vec![("cost", vec![cost])],
                }
            },
        )
        .number
    }

    pub fn planning(&mut self, calls: &Calls, sheet: &[u8], room: &Room, case: &str) -> u32 {
        let triple_loops = &calls.triple_loops;
        self.compare(
            &calls.plans,
            triple_loops,
            &format!("planning {case}"),
            |call| {
                let (mut room, mut cost) = (room.clone(), LENT);
                Answer {
                    number: plan(call, sheet, &mut room.cells, &mut room.plan, &mut cost),
                    places: vec![
                        ("cost", vec![cost]),
                        ("cell", room.cells),
                        ("byte", room.plan.into_iter().map(u64::from).collect()),
                    ],
                }
            },
        )
        .number
    }

    /// Cost and start are also those of the plan; a refusal is planning's unless it is 22.
    pub fn pricing(&mut self, calls: &Calls, sheet: &[u8], layers: &Layers, case: &str) -> u32 {
        let case = format!("pricing {case}");
        let due = self.compare(&calls.prices, &[], &case, |call| {
            let (mut layers, mut cost, mut start) = (layers.clone(), LENT, LENT as u16);
            let Layers { even, odd } = &mut layers;
            Answer {
                number: price(call, sheet, even, odd, &mut cost, &mut start),
                places: vec![
                    ("cost", vec![cost]),
                    ("start", vec![start.into()]),
                    ("even cell", layers.even),
                    ("odd cell", layers.odd),
                ],
            }
        });
        if due.number != 22 {
            self.as_planned(sheet, &due, &case);
        }
        due.number
    }

    /// Compares the price, or the refusal, with the plan that the proved library makes of the sheet.
    fn as_planned(&mut self, sheet: &[u8], due: &Answer, case: &str) {
        let planned = match vanplan::plan(sheet) {
            Ok(plan) => Answer {
                number: 0,
                places: vec![
                    ("cost", vec![plan.cost]),
                    ("start", vec![plan.start.into()]),
                ],
            },
            Err(refusal) => Answer {
                number: refusal.number(),
                places: Vec::new(),
            },
        };
        if let Some(difference) = planned.difference(due) {
            let told = format!("{case}: unlike planning it has {difference}");
            self.differences.push(told);
        }
    }

    /// Compares all entries, and more of them, with the first, and returns what that answers.
    fn compare<F: Copy>(
        &mut self,
        entries: &[Entry<F>],
        more: &[Entry<F>],
        case: &str,
        ask: impl Fn(F) -> Answer,
    ) -> Answer {
        let due = ask(entries[0].call);
        for entry in entries[1..].iter().chain(more) {
            if let Some(difference) = due.difference(&ask(entry.call)) {
                let (maker, name) = (entry.maker, entry.name());
                let told = format!("{case}: {maker:?} by {name} has {difference}");
                self.differences.push(told);
            }
        }
        self.calls += entries.len() + more.len();
        *self.met.entry(due.number).or_default() += 1;
        due
    }

    /// Why it failed: something was not alike, or a number was never met.
    pub fn failure(&self) -> Option<String> {
        let missed: Vec<u32> = NUMBERS
            .into_iter()
            .filter(|number| !self.met.contains_key(number))
            .collect();
        match (self.differences.len(), &missed[..]) {
            (0, []) => None,
            (0, missed) => Some(format!("numbers that no call answered: {missed:?}")),
            (differences, _) => Some(format!("answers differ, {differences} times")),
        }
    }

    /// Prints what was compared, and each difference.
    pub fn print(&self) {
        for line in self.differences.iter().chain(&self.notes) {
            println!("{line}");
        }
        let met: Vec<String> = (self.met.iter())
            .map(|(number, times)| format!("{number} ({times})"))
            .collect();
        println!(
            "{} calls compared, {} differences; answers met: {}",
            self.calls,
            self.differences.len(),
            met.join(", ")
        );
    }
}
