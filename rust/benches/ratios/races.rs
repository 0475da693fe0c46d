//! What is timed: each call on two sheets, and reading on two more.

use crate::calls::{self, Calls, Entry, Plan, Price, Read, Validate};
use crate::common::plan::{plan_len, MOST_TASKS};
use crate::report::Row;
use crate::rooms::{MOST_CELLS, MOST_LAYER_CELLS};
use crate::sheets::{Subject, Subjects};
use crate::time::Race;
use std::hint::black_box;

/// All calls but the triple loops come so often in a round.
const PASSES: usize = 2;

/// Calls of a batch of readings or validations.
const BATCH: usize = 2_000;

/// And of readings that look at every list.
const SHORT_BATCH: usize = 10;

pub struct Races<'a> {
    planning: [Race<'a, Plan>; 2],
    pricing: [Race<'a, Price>; 2],
    triple_loops: [Race<'a, Plan>; 2],
    reading: [Race<'a, Read>; 4],
    validating: [Race<'a, Validate>; 2],
}

/// The rows of planning and of pricing, each on the worst and middle case; and those of reading and of validating, each
/// on the longest and middle sheet, of reading also on the laden and the light one.
pub struct Rows {
    pub planning: [Row; 2],
    pub pricing: [Row; 2],
    pub reading: [Row; 4],
    pub validating: [Row; 2],
}

impl<'a> Races<'a> {
    pub fn new(calls: &'a Calls, subjects: &'a Subjects) -> Races<'a> {
        let Subjects {
            worst,
            middle,
            longest,
            laden,
            light,
        } = subjects;
        Races {
            planning: [
                planning("planning, worst case", &calls.plans, worst, 1),
                planning("planning, middle case", &calls.plans, middle, 10),
            ],
            pricing: [
                pricing("pricing, worst case", calls, worst, 1),
                pricing("pricing, middle case", calls, middle, 10),
            ],
            triple_loops: [
                planning("triple loop", &calls.triple_loops, worst, 1),
                planning("triple loop", &calls.triple_loops, middle, 10),
            ],
            reading: [
                reading("reading, longest sheet", calls, longest, BATCH),
                reading("reading, middle sheet", calls, middle, BATCH),
                reading("reading, lightest list holds", calls, laden, BATCH),
                reading("reading, every list looked at", calls, light, SHORT_BATCH),
            ],
            validating: [
                validating("validating, longest sheet", calls, longest),
                validating("validating, middle sheet", calls, middle),
            ],
        }
    }

    pub fn round(&mut self) {
        self.triple_loops.iter_mut().for_each(Race::run);
        for _ in 0..PASSES {
            self.planning.iter_mut().for_each(Race::run);
            self.pricing.iter_mut().for_each(Race::run);
            self.reading.iter_mut().for_each(Race::run);
            self.validating.iter_mut().for_each(Race::run);
        }
    }

    pub fn rows(&self) -> Rows {
        let planning = [0, 1].map(|i| Row::of(&self.planning[i]).and(&self.triple_loops[i]));
        Rows {
            planning,
            pricing: self.pricing.each_ref().map(Row::of),
            reading: self.reading.each_ref().map(Row::of),
            validating: self.validating.each_ref().map(Row::of),
        }
    }
}

fn planning<'a>(
    title: &'static str,
    plans: &'a [Entry<Plan>],
    subject: &'a Subject,
    batch: usize,
) -> Race<'a, Plan> {
    let mut cells = vec![0; MOST_CELLS];
    let mut plan = vec![0; plan_len(MOST_TASKS)];
    let mut cost = 0;
    Race::new(title, plans, batch, move |call| {
        let sheet = black_box(&subject.sheet);
        let number = calls::plan(call, sheet, &mut cells, &mut plan, &mut cost);
        assert_eq!(number, 0);
    })
}

fn pricing<'a>(
    title: &'static str,
    calls: &'a Calls,
    subject: &'a Subject,
    batch: usize,
) -> Race<'a, Price> {
    let [mut even, mut odd] = [0; 2].map(|cell| vec![cell; MOST_LAYER_CELLS]);
    let (mut cost, mut start) = (0, 0);
    Race::new(title, &calls.prices, batch, move |call| {
        let sheet = black_box(&subject.sheet);
        let number = calls::price(call, sheet, &mut even, &mut odd, &mut cost, &mut start);
        assert_eq!(number, 0);
    })
}

fn reading<'a>(
    title: &'static str,
    calls: &'a Calls,
    subject: &'a Subject,
    batch: usize,
) -> Race<'a, Read> {
    let (mut tasks, mut points) = (0, 0);
    Race::new(title, &calls.reads, batch, move |call| {
        let number = calls::read(call, black_box(&subject.sheet), &mut tasks, &mut points);
        assert_eq!(number, 0);
    })
}

fn validating<'a>(
    title: &'static str,
    calls: &'a Calls,
    subject: &'a Subject,
) -> Race<'a, Validate> {
    let mut cost = 0;
    Race::new(title, &calls.validates, BATCH, move |call| {
        let (sheet, plan) = (black_box(&subject.sheet), black_box(&subject.plan));
        let number = calls::validate(call, sheet, plan, &mut cost);
        assert_eq!(number, 0);
    })
}
