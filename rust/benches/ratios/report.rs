//! The tables that are printed: one of ratios, one of pricing beside planning, and those of the times of every call.

use crate::calls::Maker;
use crate::races::Rows;
use crate::rooms::{cells, layer_cells};
use crate::sheets::Subject;
use crate::time::Race;

/// One call and the least time of it.
pub struct Timed {
    pub maker: Maker,
    pub by: &'static str,
    pub seconds: f64,
    name: String,
    /// What the goal is set by: for each list one pass over the rules and one over the doors; to read, its load as a
    /// sum over its tasks, and the pairs one by one. Validating has no other shape.
    pub plain: bool,
    /// Whether the distances stand by columns. Reading and validating have none.
    pub columns: bool,
}

/// What was timed: one sheet and one call by everyone.
pub struct Row {
    pub title: &'static str,
    timed: Vec<Timed>,
}

impl Row {
    pub fn of<F: Copy>(race: &Race<F>) -> Row {
        let row = Row {
            title: race.title,
            timed: Vec::new(),
        };
        row.and(race)
    }

    /// The same with the times of another race.
    pub fn and<F: Copy>(mut self, race: &Race<F>) -> Row {
        let times = race.entries.iter().zip(&race.least);
        let timed = times.map(|(entry, &seconds)| Timed {
            maker: entry.maker,
            by: entry.by,
            seconds,
            name: entry.name(),
            plain: matches!(
                entry.shape,
                None | Some(["branches", _] | ["sums", "pairs"])
            ),
            columns: entry
                .shape
                .is_some_and(|[_, points]| points.starts_with("columns")),
        });
        self.timed.extend(timed);
        self
    }

    /// The fastest of those that are wanted.
    pub fn best(&self, wanted: impl Fn(&Timed) -> bool) -> Option<&Timed> {
        let wanted = self.timed.iter().filter(|timed| wanted(timed));
        wanted.min_by(|a, b| a.seconds.total_cmp(&b.seconds))
    }

    pub fn best_of(&self, maker: Maker) -> Option<&Timed> {
        self.best(|timed| timed.maker == maker)
    }

    pub fn rattle(&self) -> &Timed {
        &self.timed[0]
    }

    /// The best C of the plain shape for the same target.
    pub fn best_c(&self) -> &Timed {
        let best = self.best(|timed| timed.maker == Maker::C && timed.plain);
        best.expect("a build for plain x86-64")
    }

    /// The best C for the same target in any shape without columns.
    pub fn fastest_c(&self) -> &Timed {
        let fastest = self.best(|timed| timed.maker == Maker::C && !timed.columns);
        fastest.expect("a build for plain x86-64")
    }

    /// The best C by columns for the same target, where there is one.
    pub fn columns_c(&self) -> Option<&Timed> {
        self.best(|timed| timed.maker == Maker::C && timed.columns)
    }

    /// The proved library's time over that of another.
    pub fn ratio_to(&self, other: &Timed) -> f64 {
        self.rattle().seconds / other.seconds
    }
}

pub fn time(seconds: f64) -> String {
    match seconds {
        s if s >= 1e-3 => format!("{:.2} ms", s * 1e3),
        s if s >= 1e-5 => format!("{:.1} µs", s * 1e6),
        s => format!("{:.3} µs", s * 1e6),
    }
}

/// A time, whose it is, and a ratio; a dash where there is none.
fn cell(timed: Option<&Timed>, ratio: impl Fn(&Timed) -> f64) -> String {
    match timed {
        None => "–".to_string(),
        Some(timed) => {
            let (time, name) = (time(timed.seconds), &timed.name);
            format!("{time} ({name}), {:.2}", ratio(timed))
        }
    }
}

/// Prints the tables. The rows of planning and of pricing are those of these subjects.
pub fn print(rows: &Rows, subjects: &[&Subject]) {
    let Rows {
        planning,
        pricing,
        reading,
        validating,
    } = rows;
    let others = reading.iter().chain(validating);
    println!();
    print_ratios(planning.iter().chain(pricing).chain(others));
    println!();
    print_beside(subjects, planning, pricing);
    for rows in [&planning[..], pricing, reading, validating] {
        println!();
        print_details(rows);
    }
}

/// The one table of ratios.
fn print_ratios<'a>(rows: impl Iterator<Item = &'a Row>) {
    println!(
        "| call and sheet | Rattle | Rattle / best C | best C, same target \
         | fastest C without columns; Rattle / it | C by columns; Rattle / it \
         | best C, native target; Rattle / it | Rust; Rattle / it | triple loop; it / best C |"
    );
    println!("|---|---|---|---|---|---|---|---|---|");
    for row in rows {
        let against = |timed: &Timed| row.ratio_to(timed);
        let best = row.best_c();
        println!(
            "| {} | {} | **{:.2}** | {} ({}) | {} | {} | {} | {} | {} |",
            row.title,
            time(row.rattle().seconds),
            row.ratio_to(best),
            time(best.seconds),
            best.name,
            cell(Some(row.fastest_c()), against),
            cell(row.columns_c(), against),
            cell(row.best_of(Maker::NativeC), against),
            cell(row.best_of(Maker::Rust), against),
            cell(row.best_of(Maker::TripleLoop), |timed| timed.seconds
                / best.seconds),
        );
    }
}

/// What pricing and planning by the proved library take, side by side: cells, and time.
fn print_beside(subjects: &[&Subject], planning: &[Row], pricing: &[Row]) {
    println!(
        "| by Rattle | cells, planning | cells, pricing | pricing / planning | time, planning | time, pricing \
         | pricing / planning |"
    );
    println!("|---|---|---|---|---|---|---|");
    for (subject, (planning, pricing)) in subjects.iter().zip(planning.iter().zip(pricing)) {
        let Subject { tasks, points, .. } = **subject;
        let (cells, layer) = (cells(tasks, points), layer_cells(tasks, points));
        println!(
            "| {} | {cells} | {} (2 layers of {layer}) | {:.2} | {} | {} | **{:.2}** |",
            subject.name,
            2 * layer,
            (2 * layer) as f64 / cells as f64,
            time(planning.rattle().seconds),
            time(pricing.rattle().seconds),
            pricing.ratio_to(planning.rattle()),
        );
    }
}

/// The least time of every call; rows of the same calls side by side.
fn print_details(rows: &[Row]) {
    let titles: Vec<&str> = rows.iter().map(|row| row.title).collect();
    println!("| by | {} |", titles.join(" | "));
    println!("|---|{}", "---|".repeat(rows.len()));
    for (i, timed) in rows[0].timed.iter().enumerate() {
        let times: Vec<String> = (rows.iter())
            .map(|row| time(row.timed[i].seconds))
            .collect();
        println!(
            "| {}{} | {} |",
            label(timed.maker),
            timed.name,
            times.join(" | ")
        );
    }
}

fn label(maker: Maker) -> &'static str {
    match maker {
        Maker::Rattle | Maker::C | Maker::Rust => "",
        Maker::NativeC => "native, ",
        Maker::TripleLoop => "triple loop, ",
    }
}
