//! Sheets with more rounds than can be tried, up to the longest there are, against the recursion of `common`.

use super::calls::{check_own_room, expect, layer_cells, Layers};
use crate::common::finishing::recurse;
use crate::common::rng::Rng;
use crate::common::sheet::Sheet;
use crate::common::valid::{longest, make_small, valid, Size, ANY};

/// Prices a sheet with just enough cells, or for odd seeds with more, and tries it with too few.
fn price_sheet(rng: &mut Rng, sheet: &Sheet, seed: u64) {
    let due = recurse(sheet);
    let bytes = sheet.encode();
    let cells = layer_cells(&due);
    let more = 9 * (seed as usize % 2);
    for (number, even, odd) in [
        (0, cells + more, cells + 2 * more),
        (22, cells - 1, cells + more),
        (22, cells + more, cells - 1),
    ] {
        let layers = Layers::noise(rng, even, odd);
        expect(
            number,
            &bytes,
            Ok(&due),
            &layers,
            format_args!("seed {seed}"),
        );
    }
    check_own_room(&bytes, Ok(&due), format_args!("seed {seed}"));
}

fn price_sheets(seeds: u64, size: Size) {
    for seed in 0..seeds {
        let mut rng = Rng::new(seed);
        let mut sheet = valid(&mut rng, size);
        if seed % 4 > 1 {
            make_small(&mut rng, &mut sheet, 4);
        }
        price_sheet(&mut rng, &sheet, seed);
    }
}

#[test]
fn six_to_nine_tasks() {
    let size = Size {
        tasks: (6, 9),
        more_doors: (0, 20),
        pairs: (0, 12),
        points: (1, 20),
        ..ANY
    };
    price_sheets(100, size);
}

/// Every list is allowed.
#[test]
fn ten_to_twelve_tasks_without_pairs() {
    let size = Size {
        tasks: (10, 12),
        more_doors: (0, 12),
        pairs: (0, 0),
        points: (1, 8),
        ..ANY
    };
    price_sheets(24, size);
}

#[test]
fn any_size() {
    price_sheets(24, ANY);
}

#[test]
fn the_longest() {
    price_sheets(3, longest((0, 8)));
}

/// A chain of pairs leaves a single order, and one list of each size.
#[test]
fn twelve_tasks_in_a_row() {
    for seed in 0..3 {
        let mut rng = Rng::new(seed);
        let mut sheet = valid(&mut rng, longest((0, 0)));
        let order = rng.order(12);
        sheet.pairs = order.windows(2).map(|two| (two[0], two[1])).collect();
        price_sheet(&mut rng, &sheet, seed);
    }
}
