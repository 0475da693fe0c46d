//! No answer hangs on what stood before: the same sheet with other numbers in the layers.

use super::calls::{check, expect, layer_cells, Layers};
use crate::common::interface;
use crate::common::lively::small;
use crate::common::rng::Rng;
use crate::common::rounds::enumerate;
use vanplan::price;

/// Layers that hold nothing, ones, the greatest numbers, small numbers, or any.
fn some_layers(rng: &mut Rng, even: usize, odd: usize) -> Vec<Layers> {
    let filled = |cell: u64| Layers {
        even: vec![cell; even],
        odd: vec![cell; odd],
        cost: cell,
        start: cell as u16,
    };
    let mut small = Layers::noise(rng, even, odd);
    small.even.fill_with(|| rng.next() % 8);
    small.odd.fill_with(|| rng.next() % 8);
    let any = Layers::noise(rng, even, odd);
    let signed = filled(i64::MAX as u64);
    vec![filled(0), filled(1), filled(u64::MAX), signed, small, any]
}

/// Where the pairs do not allow a list, its cells may hold less than any cost; they are not looked at.
#[test]
fn the_same_whatever_was_lent() {
    let mut with_other_lists = 0;
    for seed in 0..400 {
        let mut rng = Rng::new(seed);
        let sheet = small(&mut rng);
        let due = enumerate(&sheet).0;
        with_other_lists += usize::from(due.cells.contains(&None));
        let bytes = sheet.encode();
        let cells = layer_cells(&due);
        for (even, odd) in [(cells, cells), (cells + rng.below(9), cells + rng.below(9))] {
            for layers in some_layers(&mut rng, even, odd) {
                expect(0, &bytes, Ok(&due), &layers, format_args!("seed {seed}"));
            }
        }
    }
    assert!(with_other_lists > 100, "{with_other_lists}");
}

/// What one sheet left is lent to the next, and the second time to the same.
#[test]
fn one_sheet_after_the_other_in_the_same_layers() {
    let mut layers = Layers::noise(&mut Rng::new(1), 60, 70);
    for seed in 0..400 {
        let sheet = small(&mut Rng::new(seed));
        let due = enumerate(&sheet).0;
        let bytes = sheet.encode();
        for _ in 0..2 {
            let number = check(&bytes, Ok(&due), &layers, format_args!("seed {seed}"));
            assert_eq!(number, 0, "seed {seed}");
            let Layers {
                even,
                odd,
                cost,
                start,
            } = &mut layers;
            interface::price(&bytes, even, odd, cost, start);
        }
    }
}

#[test]
fn the_same_from_one_call_to_the_next() {
    for seed in 0..300 {
        let mut rng = Rng::new(seed);
        let (one, other) = (small(&mut rng).encode(), small(&mut rng).encode());
        let first = price(&one);
        price(&other).expect("a sheet that reads");
        assert_eq!(price(&one), first, "seed {seed}");
    }
}
