//! The head at its edges: kind, end load, body numbers and offsets.

use crate::common::check::{check, expect};
use crate::common::examples::{plain, sheet_a, FEWEST, MIDDLE, MOST};
use crate::common::layout::{body_number, offset, Field, END_LOAD, HEAD, KIND};

fn sheets() -> [Vec<u8>; 4] {
    [sheet_a(), plain(FEWEST), plain(MIDDLE), plain(MOST)].map(|sheet| sheet.encode())
}

fn changed(sheet: &[u8], field: Field, value: u32) -> Vec<u8> {
    let mut changed = sheet.to_vec();
    field.put(&mut changed, value);
    changed
}

#[test]
fn only_kind_1_is_read() {
    for sheet in sheets() {
        for kind in 0..=65_535 {
            let number = if kind == 1 { 0 } else { 11 };
            let case = format_args!("{} bytes, kind {kind}", sheet.len());
            expect(number, &changed(&sheet, KIND, kind), case);
        }
    }
}

#[test]
fn every_end_load_is_read_where_nothing_is_picked_up() {
    let sheet = plain(MIDDLE).encode();
    for end_load in 0..=65_535 {
        let case = format_args!("E {end_load}");
        expect(0, &changed(&sheet, END_LOAD, end_load), case);
    }
}

#[test]
fn line_i_names_body_i() {
    for sheet in sheets() {
        for line in 1..=7 {
            let field = body_number(line);
            for body in (0..=300).chain([0x7fff, 0x8000, 0xff01, 0xffff]) {
                let number = if body == line as u32 { 0 } else { 13 };
                let case = format_args!("{} bytes, {field} {body}", sheet.len());
                expect(number, &changed(&sheet, field, body), case);
            }
        }
    }
}

#[test]
fn each_body_starts_where_the_one_before_ends() {
    for sheet in sheets() {
        for line in 1..=7 {
            let field = offset(line);
            let right = field.get(&sheet);
            for by in (-300..=300).chain([0x4000, 0x8000, -0x100, 0x7f00]) {
                let told = right.wrapping_add_signed(by) & 0xffff;
                let number = if told == right { 0 } else { 13 };
                let case = format_args!("{} bytes, {field} {told}", sheet.len());
                expect(number, &changed(&sheet, field, told), case);
            }
        }
    }
}

#[test]
fn lines_do_not_change_places() {
    for sheet in sheets() {
        for (one, other) in [(1, 2), (4, 5), (3, 4), (6, 7), (1, 7)] {
            let mut swapped = sheet.clone();
            for (a, b) in (body_number(one).at..).zip(body_number(other).at..).take(6) {
                swapped.swap(a, b);
            }
            // Line 7 in the place of another may hold a number of entries that the table does not allow.
            let case = format_args!("{} bytes, lines {one} and {other}", sheet.len());
            let number = check(&swapped, case);
            assert!(number == 12 || number == 13, "{case}: {number}");
        }
    }
}

/// Adds to the offsets of a body and of those after it.
fn shift_offsets(moved: &mut [u8], line: usize, by: i32) {
    for field in (line..=7).map(offset) {
        let shifted = field.get(moved).wrapping_add_signed(by);
        field.put(moved, shifted);
    }
}

#[test]
fn bodies_have_no_gap() {
    for sheet in sheets() {
        for (line, gap) in (1..=7).flat_map(|line| [1, 2, 4, 10].map(|gap| (line, gap))) {
            let at = offset(line).get(&sheet) as usize;
            let mut apart = sheet.clone();
            apart.splice(at..at, vec![0; gap]);
            let case = format_args!("{} bytes, {gap} bytes before body {line}", sheet.len());
            expect(13, &apart, case);
            shift_offsets(&mut apart, line, gap as i32);
            expect(13, &apart, case);
        }
    }
}

#[test]
fn bodies_do_not_overlap() {
    for sheet in sheets() {
        for (line, shared) in (2..=7).flat_map(|line| [1, 2, 4, 10].map(|by| (line, by))) {
            let at = offset(line).get(&sheet) as usize;
            if at < HEAD + shared {
                continue;
            }
            let mut overlapping = sheet.clone();
            overlapping.drain(at - shared..at);
            let case = format_args!("{} bytes, {shared} lost before body {line}", sheet.len());
            expect(13, &overlapping, case);
            shift_offsets(&mut overlapping, line, -(shared as i32));
            expect(13, &overlapping, case);
        }
    }
}
