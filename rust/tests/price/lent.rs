//! What is lent: empty layers, layers of every size, at any address, and layers far longer than needed.

use super::calls::{expect, Layers};
use crate::common::examples::sheet_a;
use crate::common::interface;
use crate::common::lent::lend_long;
use crate::common::rng::Rng;
use crate::common::rounds::{enumerate, Due};
use vanplan::raw;

fn due_of_a() -> Due {
    enumerate(&sheet_a()).0
}

/// An empty layer may be lent by any pointer but NULL; nothing is read or written through it.
#[test]
fn empty_layers() {
    let sheet = sheet_a().encode();
    let (mut even, mut odd, mut cost, mut start) = ([7; 6], [8; 6], 9, 10);
    let numbers = [
        interface::price(&[], &mut [], &mut [], &mut cost, &mut start),
        interface::price(&[], &mut even, &mut odd, &mut cost, &mut start),
        interface::price(&sheet, &mut [], &mut [], &mut cost, &mut start),
        interface::price(&sheet, &mut [], &mut odd, &mut cost, &mut start),
        interface::price(&sheet, &mut even, &mut [], &mut cost, &mut start),
    ];
    assert_eq!(numbers, [10, 10, 22, 22, 22]);
    assert_eq!((even, odd, cost, start), ([7; 6], [8; 6], 9, 10));
    let (mut layer, mut cells) = (7, 8);
    let numbers = [
        interface::price_row(&[], &[], &[], &mut layer, &mut cells),
        interface::price_row(&sheet, &[], &[], &mut layer, &mut cells),
        interface::price_row(&sheet, &[], &odd, &mut layer, &mut cells),
        interface::price_row(&sheet, &even, &[], &mut layer, &mut cells),
    ];
    assert_eq!((numbers, layer, cells), ([10, 22, 22, 22], 7, 8));
}

/// Every two numbers of cells up to a little more than A needs, which are 6 and 6, each with 50 seeds of noise.
#[test]
fn every_size() {
    let (sheet, due) = (sheet_a().encode(), due_of_a());
    let mut rng = Rng::new(1);
    for (even, odd) in (0..=9).flat_map(|even| (0..=9).map(move |odd| (even, odd))) {
        let number = if even.min(odd) < 6 { 22 } else { 0 };
        for _ in 0..50 {
            let layers = Layers::noise(&mut rng, even, odd);
            expect(number, &sheet, Ok(&due), &layers, format_args!("sheet A"));
        }
    }
}

/// Lengths that are too little for sheet A in their low 8 or 16 bits.
#[test]
fn long_layers() {
    let (sheet, due) = (sheet_a().encode(), due_of_a());
    let mut rng = Rng::new(1);
    for even in [256, 256 + 5, 65_536, 65_536 + 5] {
        for odd in [256, 256 + 5, 65_536, 65_536 + 5] {
            let layers = Layers::noise(&mut rng, even, odd);
            expect(0, &sheet, Ok(&due), &layers, format_args!("sheet A"));
        }
    }
}

#[test]
fn sheets_at_any_address() {
    let (sheet, due) = (sheet_a().encode(), due_of_a());
    let mut rng = Rng::new(1);
    for shift in 0..16 {
        let sheet = [rng.bytes(shift), sheet.clone()].concat();
        let layers = Layers::noise(&mut rng, 6, 6);
        let case = format_args!("shifted by {shift}");
        expect(0, &sheet[shift..], Ok(&due), &layers, case);
    }
}

#[test]
fn a_layer_that_is_too_short_in_its_low_32_bits() {
    let sheet = sheet_a().encode();
    lend_long((1 << 32) + 5, |long: &mut [u64]| {
        let (mut other, mut cost, mut start) = ([7; 6], 8, 9);
        let number = interface::price(&sheet, long, &mut other, &mut cost, &mut start);
        assert_eq!((number, cost, start), (0, 92, 0));
        assert_eq!(long[..3], [92, 68, 90]);
        assert_eq!(long[6..1_000], [0; 994]);
        assert_eq!(raw::price_row(&sheet, long, &other), Ok(&[92, 68, 90][..]));
        (other, cost, start) = ([7; 6], 8, 9);
        let number = interface::price(&sheet, &mut other, long, &mut cost, &mut start);
        assert_eq!((number, cost, start), (0, 92, 0));
        assert_eq!(other[..3], [92, 68, 90]);
        assert_eq!(raw::price_row(&sheet, &other, long), Ok(&[92, 68, 90][..]));
    });
}

/// The row is a part of the layers and not of the sheet, which may be gone.
#[test]
fn the_row_outlives_the_sheet() {
    let (mut even, mut odd) = ([0; 6], [0; 6]);
    let row = {
        let sheet = sheet_a().encode();
        raw::price(&sheet, &mut even, &mut odd).expect("sheet A is priced");
        raw::price_row(&sheet, &even, &odd).expect("it was priced")
    };
    assert_eq!(row, [92, 68, 90]);
}
