//! A task sheet in Rust, built field by field; `layout` writes it as bytes.

#[derive(Clone, Debug, PartialEq)]
pub struct Sheet {
    pub kind: u16,
    pub end_load: u16,
    /// The signed load change w of each task.
    pub tasks: Vec<i16>,
    pub doors: Vec<Door>,
    /// The point of each start.
    pub starts: Vec<u16>,
    /// Sender task and receiver task.
    pub pairs: Vec<(u16, u16)>,
    pub rules: Vec<Rule>,
    /// The end cost of each point.
    pub points: Vec<u32>,
    /// P rows "from" of P columns "to".
    pub distances: Vec<u16>,
}

#[derive(Clone, Copy, Debug, PartialEq)]
pub struct Door {
    pub task: u16,
    pub arrival: u16,
    pub departure: u16,
    pub work: u32,
}

#[derive(Clone, Copy, Debug, PartialEq)]
pub struct Rule {
    pub door: u16,
    pub watched: u16,
    pub least: u16,
    pub charge: u32,
}

impl Sheet {
    /// How far all pick-ups together bring the load down: an end load E of at least that is enough, whatever the pairs.
    pub fn picked_up(&self) -> i64 {
        -self.tasks.iter().map(|&w| i64::from(w).min(0)).sum::<i64>()
    }

    /// The old 16, up to version 0.3.0: E plus all negative w is below zero. Sheets are drawn and counted by it.
    pub fn old_16_applies(&self) -> bool {
        i64::from(self.end_load) < self.picked_up()
    }
}
