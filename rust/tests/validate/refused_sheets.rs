//! Sheets that are refused with 10 to 17, with plans of every kind: the sheet's number is answered.

use super::calls::expect;
use super::plans::{damage_layout, other_cost, solution, unknown};
use crate::common::examples::{sheet_a, sheet_a_with_pairs, sheet_a_with_rule};
use crate::common::faulty::{all_but_10, with_fault, with_faults};
use crate::common::plan::Plan;
use crate::common::reading::decode;
use crate::common::rng::Rng;
use crate::common::sheet::{Door, Sheet};
use crate::common::tested::{every_two, READING};

/// As good a plan as the sheet allows. Wrong kinds and loads below zero leave solutions; otherwise the first door of
/// each task in turn will do.
fn good_plan(rng: &mut Rng, number: u32, sheet: &[u8]) -> Plan {
    match number {
        10 => solution(rng, &sheet_a()),
        11 | 16 => solution(rng, &decode(sheet)),
        _ => in_turn(&decode(sheet)),
    }
}

fn in_turn(sheet: &Sheet) -> Plan {
    let door_of = |task: usize| {
        let serves = |door: &Door| usize::from(door.task) == task;
        sheet.doors.iter().position(serves).unwrap_or(0) as u16
    };
    let doors: Vec<u16> = (0..sheet.tasks.len()).map(door_of).collect();
    Plan::of(0, &doors, 0)
}

/// This plan, the same with each of the faults that a plan can have, bytes that are no plan, and the sheet itself.
fn plans(rng: &mut Rng, good: &Plan, sheet: &[u8]) -> Vec<Vec<u8>> {
    let mut faulty = vec![good.clone(); 4];
    faulty[0].start = unknown(rng, 16);
    faulty[1].doors.fill(good.doors[0]);
    faulty[2].doors.reverse();
    faulty[3].cost = other_cost(rng, good.cost);
    let mut plans: Vec<Vec<u8>> = faulty.iter().map(Plan::encode).collect();
    let mut damaged = good.encode();
    damage_layout(rng, &mut damaged);
    let len = rng.below(60);
    let no_plan = rng.bytes(len);
    plans.extend([good.encode(), damaged, no_plan, vec![], sheet.to_vec()]);
    plans
}

#[test]
fn random_sheets_with_one_fault() {
    for number in READING {
        for seed in 0..300 {
            let mut rng = Rng::new(seed);
            let sheet = with_fault(&mut rng, number);
            let good = good_plan(&mut rng, number, &sheet);
            for plan in plans(&mut rng, &good, &sheet) {
                expect(number, &sheet, &plan, format_args!("seed {seed}"));
            }
        }
    }
}

#[test]
fn random_sheets_with_two_faults() {
    for (earlier, later) in every_two(&all_but_10()) {
        for seed in 0..60 {
            let mut rng = Rng::new(seed);
            let sheet = with_faults(&mut rng, &[earlier, later]);
            let good = in_turn(&decode(&sheet));
            for plan in plans(&mut rng, &good, &sheet) {
                let case = format_args!("seed {seed}, {earlier} and {later}");
                expect(earlier, &sheet, &plan, case);
            }
        }
    }
}

/// Each with the plan that would be accepted if the sheet's fault were left out of account, where there is one.
#[test]
fn neighbours_of_sheet_a() {
    let mut wrong_kind = sheet_a();
    wrong_kind.kind = 2;
    let mut too_many_starts = sheet_a();
    too_many_starts.starts = vec![0; 17];
    let mut no_door_for_1 = sheet_a();
    no_door_for_1.doors[1].task = 0;
    let mut too_light = sheet_a();
    too_light.end_load = 2;
    let sheets = [
        (11, 92, wrong_kind),
        (12, 92, too_many_starts),
        (14, 92, sheet_a_with_rule(4, 1, 50)),
        (14, 92 + 50, sheet_a_with_rule(2, 0, 50)),
        (14, 92, sheet_a_with_rule(2, 13, 50)),
        (15, 92, no_door_for_1),
        // The van would weigh 4 and then less than nothing, -1.
        (16, 2 * 4 + 4 - 4 + 6 + 30, too_light),
        (17, 92, sheet_a_with_pairs(&[(0, 1), (1, 0)])),
        (17, 92, sheet_a_with_pairs(&[(0, 0)])),
    ];
    let a = sheet_a().encode();
    let longer = [&a[..], &[0]].concat();
    let cut = [(10, &a[..45]), (13, &a[..101]), (13, &longer)];
    let cut = cut.map(|(number, bytes)| (number, 92, bytes.to_vec()));
    let whole = sheets.map(|(number, cost, sheet)| (number, cost, sheet.encode()));
    let mut rng = Rng::new(1);
    for (number, cost, sheet) in whole.into_iter().chain(cut) {
        let good = Plan::of(0, &[0, 1], cost);
        for plan in plans(&mut rng, &good, &sheet) {
            expect(number, &sheet, &plan, format_args!("cost {cost}"));
        }
    }
}
