//! Sheets of six to twelve tasks that the old 16 refused and that are planned, against the recursion of `common`.

use super::calls::accept;
use crate::common::finishing::recurse;
use crate::common::rng::Rng;
use crate::common::sheet::Sheet;
use crate::common::valid::{longest, make_small, valid, Size, ANY};

/// The first sheet of this size that is drawn so.
fn once_refused(rng: &mut Rng, size: Size) -> Sheet {
    const TRIES: usize = 100;
    for _ in 0..TRIES {
        let mut sheet = valid(rng, size);
        if rng.one_in(2) {
            make_small(rng, &mut sheet, 4);
        }
        if sheet.old_16_applies() {
            return sheet;
        }
    }
    panic!("no sheet that the old 16 refused in {TRIES} tries");
}

fn accept_sheets(seeds: u64, size: Size) {
    for seed in 0..seeds {
        let mut rng = Rng::new(seed);
        let sheet = once_refused(&mut rng, size);
        accept(
            &mut rng,
            &sheet,
            &recurse(&sheet),
            format_args!("seed {seed}"),
        );
    }
}

#[test]
fn six_to_nine_tasks() {
    let size = Size {
        tasks: (6, 9),
        more_doors: (0, 12),
        pairs: (1, 12),
        points: (1, 12),
        ..ANY
    };
    accept_sheets(80, size);
}

#[test]
fn ten_to_twelve_tasks() {
    let size = Size {
        tasks: (10, 12),
        more_doors: (0, 12),
        pairs: (1, 12),
        points: (1, 6),
        ..ANY
    };
    accept_sheets(20, size);
}

#[test]
fn the_longest() {
    accept_sheets(2, longest((8, 32)));
}
