//! Sheet A of document 01 and its neighbours, with the lines and numbers that the document gives.

use super::program::{check, due, prints, refuses};
use crate::common::examples::*;
use crate::common::sheet::Sheet;

/// For A it prints exactly these lines.
const LINES: &str = "\
cost 92
start 0
door 0 task 0 open 3
door 1 task 1 open 2
";

/// The same doors at another cost.
fn doors_0_1(cost: u64) -> String {
    LINES.replace("92", &cost.to_string())
}

const DOORS_1_0: &str = "\
cost 126
start 0
door 1 task 1 open 3
door 0 task 0 open 1
";

/// These lines are printed, and the tests hold them to be due.
fn prints_for(sheet: &Sheet, lines: &str) {
    let input = sheet.encode();
    assert_eq!(due(&input), (0, lines.to_string()), "{sheet:?}");
    prints(lines, &input, format_args!("{sheet:?}"));
}

fn refuses_for(sheet: &Sheet, number: u32) {
    refuses(number, &sheet.encode(), format_args!("{sheet:?}"));
}

#[test]
fn a_printed() {
    prints_for(&sheet_a(), LINES);
}

#[test]
fn a_with_pairs() {
    prints_for(&sheet_a_with_pairs(&[(1, 0)]), DOORS_1_0);
    prints_for(&sheet_a_with_pairs(&[(1, 0), (1, 0)]), DOORS_1_0);
    prints_for(&sheet_a_with_pairs(&[(0, 1)]), LINES);
    refuses_for(&sheet_a_with_pairs(&[(0, 1), (1, 0)]), 17);
    refuses_for(&sheet_a_with_pairs(&[(0, 0)]), 17);
}

#[test]
fn four_rules_printed() {
    let lines = "\
cost 16
start 2
door 2 task 2 open 7
door 1 task 1 open 3
door 0 task 0 open 1
";
    prints_for(&four_rules(), lines);
}

#[test]
fn a_with_a_rule_on_door_0() {
    prints_for(&sheet_a_with_rule(2, 1, 50), DOORS_1_0);
    prints_for(&sheet_a_with_rule(2, 1, 35), DOORS_1_0);
    // Both cost 126.
    prints_for(&sheet_a_with_rule(2, 1, 34), &doors_0_1(126));
    prints_for(&sheet_a_with_rule(2, 1, 33), &doors_0_1(125));
}

#[test]
fn a_with_other_end_loads() {
    refuses_for(&sheet_a_with_end_load(2), 16);
    refuses_for(&sheet_a_with_end_load(0), 16);
    // The van is empty while task 1 alone is open, so the second leg costs nothing.
    prints_for(&sheet_a_with_end_load(3), &doors_0_1(2 * 5 + 4 + 6 + 30));
}

/// What task 1 picks up is delivered in the round where it is done before task 0; the other way round it is not.
#[test]
fn a_with_end_load_2_and_pairs() {
    let with_pairs = |pairs| sheet_a_with_end_load_and_pairs(2, pairs);
    let cost = 3 * 4 + 6 + 4 * 7 + 4 + 20;
    let lines = DOORS_1_0.replace("126", &cost.to_string());
    prints_for(&with_pairs(&[(1, 0)]), &lines);
    refuses_for(&with_pairs(&[]), 16);
    refuses_for(&with_pairs(&[(0, 1)]), 16);
    refuses_for(&with_pairs(&[(0, 0)]), 17);
    refuses_for(&with_pairs(&[(0, 1), (1, 0)]), 17);
}

/// From point 1 the cost is 68 and from point 2 it is 90: the start's number in body 3 is printed, and not its point.
#[test]
fn a_with_other_starts() {
    for (starts, start, cost) in [
        (&[0, 2, 1][..], 2, 68),
        (&[1, 2, 0], 0, 68),
        (&[0, 0, 2, 1, 1, 2], 3, 68),
        (&[0, 0], 0, 92),
    ] {
        let sheet = Sheet {
            starts: starts.to_vec(),
            ..sheet_a()
        };
        let lines = doors_0_1(cost).replace("start 0", &format!("start {start}"));
        prints_for(&sheet, &lines);
    }
    let at_point_2 = Sheet {
        starts: vec![0, 2],
        ..sheet_a()
    };
    let lines = "cost 90\nstart 1\ndoor 1 task 1 open 3\ndoor 0 task 0 open 1\n";
    prints_for(&at_point_2, lines);
}

/// Doors and tasks have numbers of their own.
#[test]
fn a_with_its_doors_the_other_way_round() {
    let mut sheet = sheet_a();
    sheet.doors.reverse();
    let lines = "cost 92\nstart 0\ndoor 1 task 0 open 3\ndoor 0 task 1 open 2\n";
    prints_for(&sheet, lines);
}

/// Each new task has a door from point 0 to point 2 with work 1. There are three points, so ten tasks need 3,072 cells,
/// and eleven 6,144.
#[test]
fn a_with_more_tasks() {
    let mut sheet = sheet_a_with_tasks(3);
    // 24+4+14+1+0+6+30
    let lines =
        "cost 79\nstart 0\ndoor 0 task 0 open 7\ndoor 2 task 2 open 6\ndoor 1 task 1 open 2\n";
    prints_for(&sheet, lines);
    sheet.pairs = vec![(2, 0), (2, 1)];
    // 0+1+0+6+60+4+20
    let lines =
        "cost 91\nstart 0\ndoor 2 task 2 open 7\ndoor 1 task 1 open 3\ndoor 0 task 0 open 1\n";
    prints_for(&sheet, lines);
    for tasks in 2..=14 {
        let input = sheet_a_with_tasks(tasks).encode();
        let number = check(&input, format_args!("A with {tasks} tasks"));
        let due = match tasks {
            2..=10 => 0,
            11..=12 => 20,
            _ => 12,
        };
        assert_eq!(number, due, "A with {tasks} tasks");
    }
}
