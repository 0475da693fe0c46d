//! Random sheets that read, in which much happens: many rounds of equal cost, rules that apply, repeated entries.

use super::rng::Rng;
use super::sheet::Sheet;
use super::valid::{make_small, valid, Size};

/// Few tasks, doors and points: every round is tried.
fn size(tasks: usize) -> Size {
    Size {
        tasks: (tasks, tasks),
        more_doors: (0, 4),
        starts: (1, 4),
        pairs: (0, 4),
        rules: (0, 5),
        points: (1, 4),
    }
}

/// A lively sheet of one to five tasks.
pub fn small(rng: &mut Rng) -> Sheet {
    let tasks = rng.pick(&[1, 2, 2, 3, 3, 3, 4, 4, 5]);
    lively(rng, size(tasks))
}

/// A sheet that reads, with rules that apply. Mostly its numbers are so small that several rounds cost the same. A start or
/// a pair may be repeated, so the size is to leave room for one more of either.
pub fn lively(rng: &mut Rng, size: Size) -> Sheet {
    let mut sheet = valid(rng, size);
    let tasks = sheet.tasks.len();
    for rule in &mut sheet.rules {
        rule.least = rng.between(1, tasks + 1) as u16;
    }
    if !rng.one_in(4) {
        let limit = rng.between(1, 4);
        make_small(rng, &mut sheet, limit);
    }
    if rng.one_in(3) {
        let listed = rng.pick(&sheet.starts);
        sheet.starts.push(listed);
    }
    if !sheet.pairs.is_empty() && rng.one_in(3) {
        let repeated = rng.pick(&sheet.pairs);
        sheet.pairs.push(repeated);
    }
    sheet
}
