//! Whether the goals are met, and whether the C is what it should be.

use crate::calls::Maker;
use crate::races::Rows;
use crate::report::{time, Row, Timed};

/// To plan and to price, the proved library takes at most so much of the best C for the same target, which for each
/// list passes once over the rules and once over the doors.
const PLANNING: f64 = 1.05;

/// And of C in its fastest shape without columns, on the worst and on the middle case: to plan, and to price.
const FASTEST: [f64; 2] = [0.50, 0.70];
const FASTEST_PRICING: [f64; 2] = [0.50, 0.80];

/// And to plan of C that takes the distances by columns.
const COLUMNS: [f64; 2] = [1.15, 1.25];

/// To price, it takes at most so much of what it takes to plan.
const PRICING_TO_PLANNING: [f64; 2] = [1.10, 1.30];

/// To read and to validate, at most so much of the best C. Where the lightest list of all is below zero, C in the shape
/// of the goal looks at the lists one by one, sums each load over the tasks and asks the pairs one by one. What C can do
/// in another shape is told beside it, with no goal.
const READING: f64 = 1.2;

/// The triple loop takes at least so much of the best C, on the worst and on the middle case; and on the worst case by
/// gcc alone.
const TRIPLE_LOOP: [f64; 2] = [19.0, 6.0];
const TRIPLE_LOOP_BY_GCC: f64 = 17.0;

/// What C took to read each sheet and to validate on each, on a machine where the triple loop took so long on the worst
/// case; on the laden and the light sheet it was measured on another, and scaled. C that takes more than this much of
/// it, scaled by the triple loop, is not tuned.
const MEASURED_READING: [f64; 4] = [0.53e-6, 0.12e-6, 0.17e-6, 16e-6];
const MEASURED_VALIDATING: [f64; 2] = [0.98e-6, 0.32e-6];
const MEASURED_TRIPLE_LOOP: f64 = 137e-3;
const TUNED: f64 = 1.15;

/// A line of the result: what was found, and, unless it is only told, the goal and whether it is met.
struct Line {
    title: &'static str,
    what: String,
    goal: Option<(String, bool)>,
}

/// All goals.
#[derive(Default)]
pub struct Goals {
    lines: Vec<Line>,
}

impl Goals {
    pub fn of(rows: &Rows) -> Goals {
        let Rows {
            planning,
            pricing,
            reading,
            validating,
        } = rows;
        let mut goals = Goals::default();
        for (case, row) in planning.iter().enumerate() {
            goals.shapes(row, FASTEST[case]);
            goals.ratio(row, BY_COLUMNS, columns(row), COLUMNS[case]);
        }
        for (case, row) in pricing.iter().enumerate() {
            goals.shapes(row, FASTEST_PRICING[case]);
            goals.told(row, BY_COLUMNS, columns(row));
            let most = PRICING_TO_PLANNING[case];
            goals.ratio(row, "its planning", planning[case].rattle(), most);
        }
        for row in reading {
            goals.best(row, READING);
            goals.told(row, "C in its fastest shape", row.fastest_c());
        }
        for row in validating {
            goals.best(row, READING);
        }
        for (row, least) in planning.iter().zip(TRIPLE_LOOP) {
            goals.triple_loop(row, "", least, |_| true);
        }
        goals.triple_loop(&planning[0], "by gcc alone ", TRIPLE_LOOP_BY_GCC, |by| {
            by == "gcc"
        });
        goals.tuned(&planning[0], reading, MEASURED_READING);
        goals.tuned(&planning[0], validating, MEASURED_VALIDATING);
        goals
    }

    /// How many are met, and each that is not.
    pub fn verdict(&self) -> String {
        let goals = || self.lines.iter().filter(|line| line.goal.is_some());
        let missed: Vec<String> = goals().filter_map(Line::missed).collect();
        let (all, met) = (goals().count(), goals().count() - missed.len());
        match &missed[..] {
            [] => format!("{met} of {all} goals met"),
            missed => format!("{met} of {all} goals met; missed: {}", missed.join("; ")),
        }
    }

    /// Prints a line for each.
    pub fn print(&self) {
        for Line { title, what, goal } in &self.lines {
            match goal {
                None => println!("- {title}: {what}"),
                Some((goal, true)) => println!("- {title}: {what}, {goal}: met"),
                Some((goal, false)) => println!("- {title}: {what}, {goal}: NOT met"),
            }
        }
    }

    fn add(&mut self, row: &Row, what: String, goal: Option<(String, bool)>) {
        let title = row.title;
        self.lines.push(Line { title, what, goal });
    }

    /// The two goals that planning and pricing share.
    fn shapes(&mut self, row: &Row, most: f64) {
        self.best(row, PLANNING);
        self.ratio(row, "the fastest C without columns", row.fastest_c(), most);
    }

    /// The ratio of the proved library to the best C.
    fn best(&mut self, row: &Row, most: f64) {
        self.ratio(row, "the best C", row.best_c(), most);
    }

    /// The ratio of the proved library to another.
    fn ratio(&mut self, row: &Row, name: &str, other: &Timed, most: f64) {
        let goal = (format!("at most {most:.2}"), row.ratio_to(other) <= most);
        self.add(row, takes(row, name, other), Some(goal));
    }

    /// The same with no goal.
    fn told(&mut self, row: &Row, name: &str, other: &Timed) {
        self.add(row, takes(row, name, other), None);
    }

    /// The ratio of the triple loop to the best C, both by the compilers that are wanted, if there is one.
    fn triple_loop(&mut self, row: &Row, by: &str, least: f64, wanted: impl Fn(&str) -> bool) {
        let best =
            |maker| row.best(|timed| timed.maker == maker && timed.plain && wanted(timed.by));
        if let (Some(triple_loop), Some(c)) = (best(Maker::TripleLoop), best(Maker::C)) {
            let ratio = triple_loop.seconds / c.seconds;
            let what = format!("{by}the triple loop takes {ratio:.1} of the best C");
            let goal = (format!("at least {least}"), ratio >= least);
            self.add(row, what, Some(goal));
        }
    }

    /// Whether the C that reads or validates is tuned, by what was measured for each row.
    fn tuned<const N: usize>(&mut self, worst: &Row, rows: &[Row; N], measured: [f64; N]) {
        let triple_loop = worst.best_of(Maker::TripleLoop);
        let scale = triple_loop.map_or(1.0, |timed| timed.seconds / MEASURED_TRIPLE_LOOP);
        for (row, measured) in rows.iter().zip(measured) {
            let (taken, most) = (row.best_c().seconds, measured * TUNED * scale);
            let goal = (format!("at most {}", time(most)), taken <= most);
            self.add(row, format!("C takes {}", time(taken)), Some(goal));
        }
    }
}

impl Line {
    /// What is missed, if it is.
    fn missed(&self) -> Option<String> {
        let Line { title, what, goal } = self;
        let (goal, met) = goal.as_ref()?;
        (!met).then(|| format!("{title} ({what}, {goal})"))
    }
}

const BY_COLUMNS: &str = "C by columns";

fn columns(row: &Row) -> &Timed {
    row.columns_c().expect("C by columns for plain x86-64")
}

fn takes(row: &Row, name: &str, other: &Timed) -> String {
    format!("Rattle takes {:.2} of {name}", row.ratio_to(other))
}
