//! Costs worked by hand on a sheet in which every number that a cost is made of is different.

use super::calls::expect_cost;
use crate::common::sheet::{Door, Rule, Sheet};

/// Three tasks, two doors for task 0, two starts. Doors 0 to 2 leave from other points than they are reached at, and no
/// distance is the same both ways.
fn sheet() -> Sheet {
    let door = |task, arrival, departure, work| Door {
        task,
        arrival,
        departure,
        work,
    };
    Sheet {
        kind: 1,
        end_load: 100,
        tasks: vec![7, -20, 1],
        doors: vec![
            door(0, 0, 1, 1_000_000),
            door(1, 1, 2, 2_000_000),
            door(2, 2, 0, 4_000_000),
            door(0, 2, 2, 8_000_000),
        ],
        starts: vec![1, 2],
        pairs: vec![],
        rules: vec![],
        points: vec![16_000_000, 32_000_000, 64_000_000],
        distances: vec![1, 2, 3, 5, 7, 11, 13, 17, 19],
    }
}

#[test]
fn legs_work_and_end_costs() {
    // Loads: 88 with all open; 81, 108 and 87 without task 0, 1 and 2; 107, 80 and 101 with task 0, 1 and 2 alone.
    for (start, doors, legs, work, end_cost) in [
        (
            0,
            [0, 1, 2],
            5 * 88 + 7 * 81 + 19 * 101,
            7_000_000,
            16_000_000,
        ),
        (
            1,
            [0, 1, 2],
            13 * 88 + 7 * 81 + 19 * 101,
            7_000_000,
            16_000_000,
        ),
        (
            0,
            [2, 1, 0],
            11 * 88 + 2 * 87 + 13 * 107,
            7_000_000,
            32_000_000,
        ),
        (
            0,
            [1, 2, 3],
            7 * 88 + 19 * 108 + 3 * 107,
            14_000_000,
            64_000_000,
        ),
        (
            1,
            [3, 2, 1],
            19 * 88 + 19 * 81 + 2 * 80,
            14_000_000,
            64_000_000,
        ),
    ] {
        expect_cost(&sheet(), start, &doors, legs + work + end_cost);
    }
}

#[test]
fn every_charge_of_a_door_counts() {
    const WITHOUT_CHARGES: u64 = 5 * 88 + 7 * 81 + 19 * 101 + 7_000_000 + 16_000_000;
    let rule = |door, watched, least, charge| Rule {
        door,
        watched,
        least,
        charge,
    };
    // With doors 0, 1, 2 all tasks are open at door 0, tasks 1 and 2 at door 1, and task 2 at door 2.
    let applying = [
        rule(0, 7, 3, 100),
        rule(0, 7, 3, 100),
        rule(0, 1, 1, 200),
        rule(1, 7, 2, 400),
        rule(1, 6, 1, 800),
        rule(2, 4, 1, 1_600),
        rule(2, 7, 1, 3_200),
    ];
    let not_applying = [
        rule(0, 3, 3, 7),
        rule(1, 7, 3, 7),
        rule(1, 1, 1, 7),
        rule(2, 3, 1, 7),
        rule(2, 7, 2, 7),
        rule(3, 7, 1, 7),
        rule(0, 0, 1, 7),
    ];
    let charges = 2 * 100 + 200 + 400 + 800 + 1_600 + 3_200;
    for rules in [[applying, not_applying], [not_applying, applying]] {
        let rules = rules.concat();
        let sheet = Sheet { rules, ..sheet() };
        expect_cost(&sheet, 0, &[0, 1, 2], WITHOUT_CHARGES + charges);
    }
}

#[test]
fn one_task_of_one_door() {
    let sheet = Sheet {
        tasks: vec![-100],
        doors: vec![sheet().doors[0]],
        ..sheet()
    };
    // The load is 0, and the van leaves from point 1.
    expect_cost(&sheet, 0, &[0], 1_000_000 + 32_000_000);
    expect_cost(&sheet, 1, &[0], 1_000_000 + 32_000_000);
}
