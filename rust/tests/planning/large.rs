//! Sheets with more rounds than can be tried, up to the longest there are, against the recursion of `common`.

use super::calls::{check_own_room, expect, needed, Room};
use crate::common::finishing::recurse;
use crate::common::lists::is_allowed;
use crate::common::rng::Rng;
use crate::common::sheet::Sheet;
use crate::common::valid::{longest, make_small, valid, Size, ANY};

/// Plans a sheet with just enough room, or for odd seeds with more, and tries it with too little.
fn plan_sheet(rng: &mut Rng, sheet: &Sheet, seed: u64) {
    let due = recurse(sheet);
    let bytes = sheet.encode();
    let (cells, plan) = needed(&due);
    let more = 9 * (seed as usize % 2);
    for (number, cells, plan) in [
        (0, cells + more, plan + more),
        (20, cells - 1, plan - 1),
        (21, cells, plan - 1),
    ] {
        let room = Room::noise(rng, cells, plan);
        expect(number, &bytes, Ok(&due), &room, format_args!("seed {seed}"));
    }
    check_own_room(&bytes, Ok(&due), format_args!("seed {seed}"));
}

#[test]
fn six_to_nine_tasks() {
    let size = Size {
        tasks: (6, 9),
        more_doors: (0, 20),
        pairs: (0, 12),
        points: (1, 20),
        ..ANY
    };
    for seed in 0..150 {
        let mut rng = Rng::new(seed);
        let mut sheet = valid(&mut rng, size);
        if seed % 4 > 1 {
            make_small(&mut rng, &mut sheet, 3);
        }
        plan_sheet(&mut rng, &sheet, seed);
    }
}

#[test]
fn any_size() {
    for seed in 0..40 {
        let mut rng = Rng::new(seed);
        let mut sheet = valid(&mut rng, ANY);
        if seed % 4 > 1 {
            make_small(&mut rng, &mut sheet, 4);
        }
        plan_sheet(&mut rng, &sheet, seed);
    }
}

/// Some of the longest sheets, half of them with small numbers and so with many ties.
fn plan_longest(seeds: std::ops::Range<u64>, pairs: (usize, usize)) {
    for seed in seeds {
        let mut rng = Rng::new(seed);
        let mut sheet = valid(&mut rng, longest(pairs));
        if seed % 4 > 1 {
            make_small(&mut rng, &mut sheet, 5);
        }
        assert_eq!(sheet.encode().len(), 9_638 - 4 * (32 - sheet.pairs.len()));
        plan_sheet(&mut rng, &sheet, seed);
    }
}

/// Every list is allowed then, 262,144 cells.
#[test]
fn the_longest_without_pairs() {
    plan_longest(0..4, (0, 0));
}

#[test]
fn the_longest_with_a_few_pairs() {
    plan_longest(0..8, (1, 8));
}

#[test]
fn the_longest_with_32_pairs() {
    plan_longest(0..8, (32, 32));
}

/// A chain of pairs leaves a single order, and thirteen lists.
#[test]
fn twelve_tasks_in_a_row() {
    for seed in 0..4 {
        let mut rng = Rng::new(seed);
        let mut sheet = valid(&mut rng, longest((0, 0)));
        let order = rng.order(12);
        sheet.pairs = order.windows(2).map(|two| (two[0], two[1])).collect();
        let allowed = (0..1 << 12).filter(|&list| is_allowed(&sheet, list));
        assert_eq!(allowed.count(), 13);
        plan_sheet(&mut rng, &sheet, seed);
    }
}
