//! Sums as large as a sheet allows, and as small: the cost is below 2^40 and nothing of it is lost.

use super::calls::{expect, Judged};
use super::plans::{solution, with_its_cost};
use crate::common::examples::{free, largest, plain, Entries, GREATEST, MOST};
use crate::common::judging::cost;
use crate::common::plan::Plan;
use crate::common::rng::Rng;
use crate::common::sheet::Sheet;
use crate::common::tally::Times;
use crate::common::valid::{valid, Size, ANY};

fn in_sheet_order(sheet: &Sheet) -> Plan {
    let doors: Vec<u16> = (0..sheet.tasks.len() as u16).collect();
    with_its_cost(sheet, sheet.starts.len() as u16 - 1, &doors)
}

/// Accepted with this cost, and refused with others.
fn costs(sheet: &Sheet, plan: &Plan, cost: u64) {
    let bytes = sheet.encode();
    expect(0, &bytes, &plan.encode(), format_args!("{plan:?}"));
    assert_eq!(vanplan::validate(&bytes, &plan.encode()), Ok(cost));
    let mut other = plan.clone();
    for cost in [
        cost + 1,
        cost.wrapping_sub(1),
        cost ^ 1 << 32,
        cost ^ 1 << 39,
    ] {
        other.cost = cost;
        expect(34, &bytes, &other.encode(), format_args!("{other:?}"));
    }
}

/// Twelve legs, with 12, 11 .. 1 tasks open (78 in sum), twelve doors' work, 32 charges, one end cost.
#[test]
fn the_greatest_cost() {
    let load_sum = 12 * 65_535 + 78 * 32_767;
    let due = 65_535 * load_sum + (12 + 32 + 1) * u64::from(u32::MAX);
    assert_eq!(due, GREATEST);
    let sheet = largest();
    costs(&sheet, &in_sheet_order(&sheet), due);
}

/// The same with all charges on one door, the first, the last, or one between.
#[test]
fn all_charges_on_one_door() {
    for door in [0, 5, 11] {
        let mut sheet = largest();
        sheet.rules.iter_mut().for_each(|rule| rule.door = door);
        costs(&sheet, &in_sheet_order(&sheet), GREATEST);
    }
}

/// With the greatest least count a rule that watches all applies at the first step alone.
#[test]
fn the_greatest_least_count() {
    let mut sheet = largest();
    sheet.rules.iter_mut().for_each(|rule| rule.least = 12);
    // Rules 0, 12 and 24 are on door 0.
    let due = GREATEST - 29 * u64::from(u32::MAX);
    costs(&sheet, &in_sheet_order(&sheet), due);
}

#[test]
fn the_least_cost() {
    let mut sheet = free();
    costs(&sheet, &in_sheet_order(&sheet), 0);
    sheet.distances.fill(0);
    (sheet.end_load, sheet.tasks) = (u16::MAX, vec![i16::MAX; 12]);
    costs(&sheet, &in_sheet_order(&sheet), 0);
}

/// The greatest pick-ups that a sheet can have, two of 65,535 kilograms together: with both open the van weighs nothing.
#[test]
fn the_greatest_pick_ups() {
    let entries = Entries {
        tasks: 2,
        doors: 2,
        pairs: 0,
        rules: 0,
        points: 1,
        distances: 1,
        ..MOST
    };
    let mut sheet = plain(entries);
    sheet.end_load = u16::MAX;
    sheet.tasks = vec![i16::MIN, i16::MIN + 1];
    sheet.distances = vec![u16::MAX];
    let ends = 7 + 7 + 3;
    for (doors, left) in [([0, 1], 65_535 - 32_767), ([1, 0], 65_535 - 32_768)] {
        let plan = with_its_cost(&sheet, 0, &doors);
        costs(&sheet, &plan, 65_535 * left + ends);
    }
}

/// Sheets of twelve tasks and 64 doors in which every number is 0, 1, the greatest, or any.
#[test]
fn twelve_tasks_with_numbers_at_their_ends() {
    let longest = Size {
        tasks: (12, 12),
        more_doors: (52, 52),
        rules: (32, 32),
        ..ANY
    };
    let mut times = Times::default();
    let mut greatest = 0;
    for seed in 0..400 {
        let mut rng = Rng::new(seed);
        let mut sheet = valid(&mut rng, longest);
        assert_eq!((sheet.tasks.len(), sheet.doors.len()), (12, 64));
        drive_to_the_ends(&mut rng, &mut sheet);
        let mut plan = solution(&mut rng, &sheet);
        let due = cost(&sheet, plan.start, &plan.doors).expect("a solution");
        assert!((0..1 << 40).contains(&due), "seed {seed}: {due}");
        greatest = due.max(greatest);
        let mut judged = Judged::new(&sheet, &mut times);
        judged.expect(0, &plan.encode(), format_args!("seed {seed}"));
        plan.cost += 1;
        judged.expect(34, &plan.encode(), format_args!("seed {seed}"));
    }
    assert!(greatest > 1 << 37, "{greatest}");
}

/// Sets most numbers of the sheet to 0, 1 or the greatest; loads stay as they are or become deliveries.
fn drive_to_the_ends(rng: &mut Rng, sheet: &mut Sheet) {
    let end = |rng: &mut Rng, any: u32| rng.pick(&[0, 1, u32::MAX, u32::MAX, any]);
    if rng.one_in(2) {
        sheet.tasks.fill_with(|| rng.pick(&[0, 1, i16::MAX]));
    }
    for door in &mut sheet.doors {
        door.work = end(rng, door.work);
    }
    for end_cost in &mut sheet.points {
        *end_cost = end(rng, *end_cost);
    }
    for distance in &mut sheet.distances {
        *distance = end(rng, (*distance).into()) as u16;
    }
    for rule in &mut sheet.rules {
        rule.charge = end(rng, rule.charge);
        rule.watched |= rng.pick(&[0, 0xfff]);
    }
}
