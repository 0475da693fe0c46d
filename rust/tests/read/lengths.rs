//! Sheets cut short at every length, and sheets with bytes behind their end.

use crate::common::check::{expect, Tally};
use crate::common::examples::{plain, sheet_a, FEWEST, MOST};
use crate::common::layout::HEAD;
use crate::common::lent::lend_long;
use crate::common::rng::Rng;
use crate::common::valid::{valid, ANY, SMALL};

/// The rest of the sheet stands behind the bytes that are given, so looking further than the length would show.
fn cut_at_every_length(sheet: &[u8], case: std::fmt::Arguments) {
    for len in 0..sheet.len() {
        let number = if len < HEAD { 10 } else { 13 };
        expect(
            number,
            &sheet[..len],
            format_args!("{case}, {len} bytes of it"),
        );
    }
    expect(0, sheet, case);
}

#[test]
fn cut_at_every_length_known_sheets() {
    cut_at_every_length(&sheet_a().encode(), format_args!("sheet A"));
    cut_at_every_length(&plain(FEWEST).encode(), format_args!("the shortest"));
    cut_at_every_length(&plain(MOST).encode(), format_args!("the longest"));
}

#[test]
fn cut_at_every_length_random_sheets() {
    for seed in 0..200 {
        let sheet = valid(&mut Rng::new(seed), SMALL).encode();
        cut_at_every_length(&sheet, format_args!("seed {seed}"));
    }
    for seed in 200..205 {
        let sheet = valid(&mut Rng::new(seed), ANY).encode();
        cut_at_every_length(&sheet, format_args!("seed {seed}"));
    }
}

#[test]
fn bytes_behind_the_end() {
    for seed in 0..300 {
        let mut rng = Rng::new(seed);
        let sheet = valid(&mut rng, if seed < 250 { SMALL } else { ANY }).encode();
        let tail = if rng.one_in(2) {
            vec![0; 64]
        } else {
            rng.bytes(64)
        };
        let longer = [sheet.clone(), tail].concat();
        for more in 1..=64 {
            let case = format_args!("seed {seed}, {more} bytes behind the end");
            expect(13, &longer[..sheet.len() + more], case);
        }
    }
}

#[test]
fn more_than_65535_bytes() {
    for seed in 0..30 {
        let mut rng = Rng::new(seed);
        let sheet = valid(&mut rng, if seed < 20 { SMALL } else { ANY }).encode();
        let tail = if rng.one_in(2) {
            vec![0; 140_000]
        } else {
            rng.bytes(140_000)
        };
        let long = [sheet.clone(), tail].concat();
        // In 16 bits, 65,536 bytes more are none.
        let wrapped = [65_536 + sheet.len(), 2 * 65_536 + sheet.len()];
        let near = [-2, -1, 0, 1, 2].map(|by| 65_536usize.wrapping_add_signed(by));
        for len in wrapped.into_iter().chain(near).chain([70_000, 131_072]) {
            let case = format_args!("seed {seed}, {len} bytes");
            expect(13, &long[..len], case);
        }
    }
}

#[test]
fn a_length_that_is_right_in_its_low_32_bits() {
    let sheet = sheet_a().encode();
    lend_long((1 << 32) + sheet.len(), |long: &mut [u8]| {
        long[..sheet.len()].copy_from_slice(&sheet);
        expect(13, long, format_args!("sheet A and 2^32 zero bytes"));
        expect(0, &long[..sheet.len()], format_args!("sheet A before them"));
    });
}

#[test]
fn random_bytes_of_70000() {
    let mut tally = Tally::default();
    for seed in 0..60 {
        let mut rng = Rng::new(seed);
        let mut bytes = rng.bytes(70_000);
        if seed % 3 == 1 {
            bytes[..2].copy_from_slice(&[1, 0]);
        }
        if seed % 3 == 2 {
            let head = valid(&mut rng, ANY).encode();
            bytes[..HEAD].copy_from_slice(&head[..HEAD]);
        }
        tally.check(&bytes, format_args!("seed {seed}, 70,000 bytes"));
    }
    tally.assert_met(&[11, 12, 13], 15);
}
