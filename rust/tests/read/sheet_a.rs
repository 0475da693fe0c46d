//! Sheet A of document 01 and its neighbours, with the numbers that the document gives.

use crate::common::check::expect;
use crate::common::examples::*;
use crate::common::sheet::Sheet;
use vanplan::{read, Counts};

/// Sheet A as typed from the document's tables, line by line.
const A: &str = "
    0100 0a00
    0100 2e00 0200
    0200 3200 0200
    0300 4600 0100
    0400 4800 0000
    0500 4800 0000
    0600 4800 0300
    0700 5400 0900
    0500 fdff
    0000 0100 0100 04000000
    0100 0200 0200 06000000
    0000
    00000000 14000000 1e000000
    0000 0200 0300  0200 0000 0400  0300 0400 0000";

fn typed() -> Vec<u8> {
    let digits: Vec<u32> = A.chars().filter_map(|c| c.to_digit(16)).collect();
    digits
        .chunks_exact(2)
        .map(|pair| (16 * pair[0] + pair[1]) as u8)
        .collect()
}

#[test]
fn a_has_102_bytes_and_reads_as_two_tasks_and_three_points() {
    assert_eq!(typed().len(), 102, "the typed sheet A");
    assert_eq!(sheet_a().encode(), typed(), "the sheet A of the tests");
    let example = include_bytes!("../../../examples/a.sheet");
    assert_eq!(example[..], typed(), "examples/a.sheet");
    let counts = Counts {
        tasks: 2,
        points: 3,
    };
    assert_eq!(read(&typed()), Ok(counts));
    expect(0, &typed(), format_args!("sheet A"));
}

#[test]
fn a_with_pairs() {
    for (number, pairs) in [
        (0, &[(1, 0)][..]),
        (0, &[(0, 1)]),
        (17, &[(0, 1), (1, 0)]),
        (17, &[(1, 0), (0, 1)]),
        (17, &[(0, 0)]),
        (17, &[(1, 1)]),
    ] {
        let sheet = sheet_a_with_pairs(pairs).encode();
        expect(number, &sheet, format_args!("A with pairs {pairs:?}"));
    }
}

#[test]
fn a_with_a_rule() {
    for (number, watched, least) in [
        (0, 2, 1),
        (0, 0, 1),
        (0, 3, 12),
        (14, 4, 1),
        (14, 2, 0),
        (14, 2, 13),
    ] {
        for charge in [50, 34, u32::MAX] {
            let sheet = sheet_a_with_rule(watched, least, charge).encode();
            expect(
                number,
                &sheet,
                format_args!("A with a rule: watched {watched}, least count {least}"),
            );
        }
    }
}

#[test]
fn a_with_other_end_loads() {
    for (number, end_load) in [(16, 0), (16, 2), (0, 3), (0, 4), (0, 65_535)] {
        let sheet = sheet_a_with_end_load(end_load).encode();
        expect(number, &sheet, format_args!("A with E {end_load}"));
    }
}

#[test]
fn twelve_tasks_are_read_and_thirteen_are_not() {
    for tasks in 2..=12 {
        let sheet = sheet_a_with_tasks(tasks).encode();
        expect(0, &sheet, format_args!("A with {tasks} tasks"));
    }
    for tasks in 13..=20 {
        let sheet = sheet_a_with_tasks(tasks).encode();
        expect(12, &sheet, format_args!("A with {tasks} tasks"));
    }
}

#[test]
fn a_start_listed_twice_is_read() {
    for starts in [vec![0, 0], vec![2, 1, 2], vec![1; 16]] {
        let sheet = Sheet {
            starts: starts.clone(),
            ..sheet_a()
        };
        expect(0, &sheet.encode(), format_args!("A with starts {starts:?}"));
    }
}

#[test]
fn a_is_read_at_any_address() {
    let mut buffer = vec![0xff; 8];
    buffer.extend(typed());
    for shift in 0..8 {
        buffer[shift..shift + 102].copy_from_slice(&typed());
        let sheet = &buffer[shift..shift + 102];
        expect(0, sheet, format_args!("A {shift} bytes into a buffer"));
    }
}
