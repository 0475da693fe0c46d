//! Numbers of entries at their edges: the sheet is laid out right around them, so that only the table decides.

use crate::common::check::{check, expect};
use crate::common::examples::{plain, Entries, FEWEST, MIDDLE, MOST};
use crate::common::layout::entries;
use vanplan::{read, Counts};

/// A sheet with so many entries in one body and middling numbers in the others.
fn with_entries(body: usize, count: usize) -> Vec<u8> {
    let mut size = MIDDLE;
    match body {
        1 => size.tasks = count,
        2 => size.doors = count,
        3 => size.starts = count,
        4 => size.pairs = count,
        5 => size.rules = count,
        6 => size.points = count,
        _ => size.distances = count,
    }
    if body == 1 {
        // A door for every task, and no pairs, because pair (0, 1) needs two tasks.
        size.doors = count.clamp(1, 64);
        size.pairs = 0;
    }
    if body == 2 {
        size.tasks = 1;
        size.pairs = 0;
    }
    if body == 6 {
        // In the 16 bits that the contents line has for it.
        size.distances = (count * count) % 65_536;
    }
    plain(size).encode()
}

#[test]
fn the_shortest_and_the_longest_sheet_are_read() {
    for (size, len, tasks, points) in [(FEWEST, 66, 1, 1), (MOST, 9_638, 12, 64)] {
        let sheet = plain(size).encode();
        assert_eq!(sheet.len(), len, "{size:?}");
        expect(0, &sheet, format_args!("{size:?}"));
        assert_eq!(read(&sheet), Ok(Counts { tasks, points }));
    }
}

#[test]
fn every_number_of_tasks_and_points_is_returned() {
    for (tasks, points) in (2..=12).flat_map(|n| (1..=64).map(move |p| (n, p))) {
        let sheet = plain(Entries {
            tasks,
            doors: 12,
            points,
            distances: points * points,
            ..MIDDLE
        })
        .encode();
        let case = format_args!("{tasks} tasks, {points} points");
        expect(0, &sheet, case);
        assert_eq!(read(&sheet), Ok(Counts { tasks, points }), "{case}");
    }
}

#[test]
fn each_number_of_entries_within_the_table_is_read_and_no_other() {
    for (body, fewest, most) in [
        (1, 1, 12),
        (2, 1, 64),
        (3, 1, 16),
        (4, 0, 32),
        (5, 0, 32),
        (6, 1, 64),
    ] {
        for count in 0..=most + 5 {
            let number = if fewest <= count && count <= most {
                0
            } else {
                12
            };
            let sheet = with_entries(body, count);
            expect(
                number,
                &sheet,
                format_args!("{count} entries of body {body}"),
            );
        }
    }
}

#[test]
fn numbers_of_entries_are_read_whole() {
    // The low byte alone would be within the table.
    for body in 1..=7 {
        for count in [256, 256 + 1, 256 + 9, 512 + 3, 1_024 + 1] {
            let sheet = with_entries(body, count);
            expect(12, &sheet, format_args!("{count} entries of body {body}"));
        }
    }
}

#[test]
fn distances_are_exactly_p_times_p() {
    for points in 1..=64 {
        let square = points * points;
        for distances in [
            0,
            points,
            square - 1,
            square,
            square + 1,
            square + points,
            4_096,
        ] {
            let number = if distances == square { 0 } else { 12 };
            let size = Entries {
                points,
                distances,
                ..MIDDLE
            };
            let case = format_args!("{points} points and {distances} distances");
            expect(number, &plain(size).encode(), case);
        }
    }
}

#[test]
fn a_number_of_entries_changed_in_its_line_alone() {
    // Within the table the next offset or the length is then wrong.
    for size in [FEWEST, MIDDLE, MOST] {
        let sheet = plain(size).encode();
        for line in 1..=7 {
            let field = entries(line);
            let now = field.get(&sheet);
            for count in (0..=70).chain([4_096, 4_097, 0x7fff, 0x8000, 0xff00, 0xffff]) {
                if count == now {
                    continue;
                }
                let mut changed = sheet.clone();
                field.put(&mut changed, count);
                let number = check(&changed, format_args!("{size:?}, {field} {count}"));
                assert!(number == 12 || number == 13, "{size:?}, {field} {count}");
            }
        }
    }
}
