//! Tasks, points, doors, watched sets and least counts at their edges, in every entry of every list.

use crate::common::check::expect;
use crate::common::examples::{plain, Entries, FEWEST, MIDDLE, MOST};
use crate::common::layout::Field;
use crate::common::sheet::Sheet;

/// Tries a value in every field of this name, one field at a time.
fn try_in_every(sheet: &Sheet, body: usize, name: &str, value: usize, number: u32) {
    let written = sheet.written();
    let named = |field: &&Field| field.body == body && field.name == name;
    let fields: Vec<&Field> = written.fields.iter().filter(named).collect();
    assert!(!fields.is_empty(), "body {body} has no {name}");
    for field in fields {
        let mut bytes = written.bytes.clone();
        field.put(&mut bytes, value as u32);
        expect(number, &bytes, format_args!("{field} = {value}"));
    }
}

/// Every number below the limit is read, and from the limit on none is.
fn try_limit(sheet: &Sheet, body: usize, name: &str, limit: usize) {
    for value in [0, 1, limit - 1] {
        if value < limit {
            try_in_every(sheet, body, name, value, 0);
        }
    }
    for value in [
        limit,
        limit + 1,
        256,
        256 + limit - 1,
        0x8000,
        0xff00,
        0xffff,
    ] {
        try_in_every(sheet, body, name, value, 14);
    }
}

/// Two doors or more for every task, so that each door may change its task; every pair is (2, 3), so that another
/// sender or receiver leads to no cycle.
fn sheets() -> [Sheet; 2] {
    [MIDDLE, MOST].map(|entries| {
        let pairs = vec![(2, 3); entries.pairs];
        Sheet {
            pairs,
            ..plain(entries)
        }
    })
}

#[test]
fn points_of_doors_and_starts() {
    for sheet in sheets() {
        let points = sheet.points.len();
        try_limit(&sheet, 2, "arrival point", points);
        try_limit(&sheet, 2, "departure point", points);
        try_limit(&sheet, 3, "point", points);
    }
    let shortest = plain(FEWEST);
    for value in [1, 2, 256, 0xffff] {
        try_in_every(&shortest, 2, "arrival point", value, 14);
        try_in_every(&shortest, 2, "departure point", value, 14);
        try_in_every(&shortest, 3, "point", value, 14);
    }
}

#[test]
fn tasks_of_doors_and_pairs() {
    for sheet in sheets() {
        let tasks = sheet.tasks.len();
        try_limit(&sheet, 2, "task", tasks);
        try_limit(&sheet, 4, "sender task", tasks);
        try_limit(&sheet, 4, "receiver task", tasks);
    }
}

#[test]
fn doors_of_rules() {
    for sheet in sheets() {
        try_limit(&sheet, 5, "door", sheet.doors.len());
    }
}

#[test]
fn least_counts_run_from_1_to_12_whatever_n_is() {
    for tasks in 2..=12 {
        let sheet = plain(Entries { tasks, ..MOST });
        for least in 0..=20 {
            let number = if (1..=12).contains(&least) { 0 } else { 14 };
            try_in_every(&sheet, 5, "least count", least, number);
        }
        for least in [256, 256 + 1, 256 + 12, 0x8001, 0xffff] {
            try_in_every(&sheet, 5, "least count", least, 14);
        }
    }
}

#[test]
fn watched_bits_below_n_are_read_and_those_from_n_on_are_not() {
    for tasks in 1..=12 {
        let pairs = if tasks == 1 { 0 } else { MOST.pairs };
        let sheet = plain(Entries {
            tasks,
            pairs,
            ..MOST
        });
        let all = (1 << tasks) - 1;
        for bit in 0..16 {
            let number = if bit < tasks { 0 } else { 14 };
            try_in_every(&sheet, 5, "watched tasks", 1 << bit, number);
            try_in_every(&sheet, 5, "watched tasks", all | 1 << bit, number);
        }
        try_in_every(&sheet, 5, "watched tasks", 0, 0);
        try_in_every(&sheet, 5, "watched tasks", 0xffff, 14);
    }
}

#[test]
fn every_watched_set_of_twelve_tasks_is_read_and_no_greater_number() {
    let sheet = plain(Entries { rules: 1, ..MIDDLE });
    let sheet = Sheet {
        tasks: vec![1; 12],
        doors: plain(MOST).doors,
        ..sheet
    };
    for watched in 0..=0xffff {
        let number = if watched < 4_096 { 0 } else { 14 };
        try_in_every(&sheet, 5, "watched tasks", watched, number);
    }
}

#[test]
fn work_charges_end_costs_and_distances_may_be_any_number() {
    let sheet = plain(MIDDLE);
    for value in [0, 1, 0xffff, 0x10000, 0x7fff_ffff, 0x8000_0000, 0xffff_ffff] {
        try_in_every(&sheet, 2, "work", value, 0);
        try_in_every(&sheet, 5, "charge", value, 0);
        try_in_every(&sheet, 6, "end cost", value, 0);
        try_in_every(&sheet, 7, "distance", value & 0xffff, 0);
    }
}
