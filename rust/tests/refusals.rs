//! A refusal says its number and what it means, and its name is the same in Rust and in C. The header says in which order
//! the numbers are tested, and the README too for a sheet, and what to do about each.

mod common;

use common::tested::{JUDGING, PLANNING, PRICING, READING, READING_A_PLAN, WRITING_A_PLAN};
use vanplan::{read, Refusal};

const README: &str = include_str!("../../README.md");

/// The numbers of documents 01 and 02 that the calls can answer with, and the name of each in C.
const TABLE: [(u32, Refusal, &str); 16] = {
    use Refusal::*;
    [
        (10, TooShort, "TOO_SHORT"),
        (11, WrongKind, "WRONG_KIND"),
        (12, WrongEntries, "WRONG_ENTRIES"),
        (13, WrongPlaces, "WRONG_PLACES"),
        (14, OutOfRange, "OUT_OF_RANGE"),
        (15, NoDoor, "NO_DOOR"),
        (16, TooLight, "TOO_LIGHT"),
        (17, NoOrder, "NO_ORDER"),
        (20, FewCells, "FEW_CELLS"),
        (21, ShortBuffer, "SHORT_BUFFER"),
        (22, ShortLayer, "SHORT_LAYER"),
        (30, IllFormed, "ILL_FORMED"),
        (31, NotInSheet, "NOT_IN_SHEET"),
        (32, DoneTwice, "DONE_TWICE"),
        (33, ReceiverFirst, "RECEIVER_FIRST"),
        (34, WrongCost, "WRONG_COST"),
    ]
};

#[test]
fn every_number_has_its_refusal() {
    let due: Vec<u32> = (10..=17).chain(20..=22).chain(30..=34).collect();
    assert_eq!(TABLE.map(|row| row.0)[..], due);
    for number in 0..100 {
        let row = TABLE.iter().find(|row| row.0 == number);
        assert_eq!(Refusal::from_number(number), row.map(|row| row.1));
    }
    for (number, refusal, _) in TABLE {
        assert_eq!(refusal.number(), number);
        let words = refusal.meaning();
        assert_eq!(refusal.to_string(), format!("refused {number}: {words}"));
    }
}

#[test]
fn the_header_has_the_same_names() {
    let header = include_str!("../../include/vanplan.h");
    let named: Vec<(&str, u32)> = header
        .lines()
        .filter_map(|line| line.trim().strip_prefix("VANPLAN_")?.split_once(" = "))
        .map(|(name, rest)| {
            let digits: String = rest.chars().take_while(char::is_ascii_digit).collect();
            (name, digits.parse().expect("a number behind the name"))
        })
        .collect();
    let due: Vec<(&str, u32)> = TABLE.iter().map(|row| (row.2, row.0)).collect();
    assert_eq!(named, due);
}

/// A row of its table has the number, the name in Rust, what it says, in the refusal's own words first, and what to do.
#[test]
fn the_readme_has_them_all() {
    let rows: Vec<Vec<&str>> = README
        .lines()
        .filter_map(|line| Some(line.strip_prefix("| ")?.split(" | ").collect()))
        .filter(|columns: &Vec<&str>| columns[0].parse::<u32>().is_ok())
        .collect();
    assert_eq!(rows.len(), TABLE.len());
    for (columns, (number, refusal, _)) in rows.iter().zip(TABLE) {
        let [at, name, says, to_do] = columns[..] else {
            panic!("four columns: {columns:?}");
        };
        assert_eq!(at, number.to_string());
        assert_eq!(name, format!("`{refusal:?}`"));
        assert!(says.starts_with(refusal.meaning()), "{number}: {says}");
        assert!(to_do.len() > 20, "{number}: {to_do}");
    }
}

#[test]
fn the_header_has_the_same_order() {
    let header = include_str!("../../include/vanplan.h");
    for (call, first, order) in [
        ("vanplan_read", "", &READING[..]),
        ("vanplan_plan", "as vanplan_read, then ", &PLANNING),
        ("vanplan_price", "as vanplan_read, then ", &PRICING),
        ("vanplan_price_row", "as vanplan_read, then ", &PRICING),
        ("vanplan_validate", "as vanplan_read, then ", &JUDGING),
        ("vanplan_write_plan", "", &WRITING_A_PLAN),
        ("vanplan_read_plan", "", &READING_A_PLAN),
    ] {
        let numbers: Vec<String> = order.iter().map(u32::to_string).collect();
        let due = format!(" *     {call:<20}{first}{}", numbers.join(", "));
        let has_it = header.lines().any(|line| line == due);
        assert!(has_it, "the header has no line {due:?}");
    }
}

#[test]
fn the_readme_has_the_same_order_for_a_sheet() {
    let numbers = READING.map(|number| number.to_string());
    let (last, before) = numbers.split_last().expect("numbers");
    let due = format!(": {} and {last} for the sheet,", before.join(", "));
    assert!(README.contains(&due), "the README has no {due:?}");
}

#[test]
fn a_refusal_is_an_error() {
    let error: Box<dyn std::error::Error> = read(&[]).expect_err("no bytes are no sheet").into();
    assert_eq!(
        error.to_string(),
        "refused 10: the sheet has fewer than 46 bytes"
    );
}
