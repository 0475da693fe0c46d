//! Every call on one sheet: with enough room and with too little, all that is answered and left compared with what is due.

use super::planning::{self, needed, Room};
use super::pricing::{self, layer_cells, Layers};
use super::validating;
use crate::common::check;
use crate::common::plan::Plan;
use crate::common::plans::{other_cost, put_into_steps, solution, state_cost};
use crate::common::rng::Rng;
use crate::common::rounds::Due;
use crate::common::sheet::Sheet;
use std::fmt::Arguments;

/// A sheet that reads: it is planned and priced so, and its plan and others are validated.
pub fn accept(rng: &mut Rng, sheet: &Sheet, due: &Due, case: Arguments) {
    let bytes = sheet.encode();
    check::expect(0, &bytes, case);
    plan_in_rooms(rng, &bytes, due, case);
    price_in_layers(rng, &bytes, due, case);
    validate_plans(rng, sheet, &due.plan, case);
}

fn plan_in_rooms(rng: &mut Rng, sheet: &[u8], due: &Due, case: Arguments) {
    let (cells, plan) = needed(due);
    for (number, cells, plan) in [
        (0, cells, plan),
        (20, cells - 1, plan),
        (21, cells, plan - 1),
        (20, rng.below(cells), rng.below(plan)),
        (0, cells + rng.below(9), plan + rng.below(9)),
    ] {
        let room = Room::noise(rng, cells, plan);
        planning::expect(number, sheet, Ok(due), &room, case);
    }
    planning::check_own_room(sheet, Ok(due), case);
}

fn price_in_layers(rng: &mut Rng, sheet: &[u8], due: &Due, case: Arguments) {
    let cells = layer_cells(due);
    for (number, even, odd) in [
        (0, cells, cells),
        (22, cells - 1, cells),
        (22, cells, cells - 1),
        (0, cells + rng.below(9), cells + rng.below(9)),
    ] {
        let layers = Layers::noise(rng, even, odd);
        pricing::expect(number, sheet, Ok(due), &layers, case);
    }
    pricing::check_own_room(sheet, Ok(due), case);
}

/// The plan itself and a random solution are accepted, with another cost they are not, and a solution with a pair the
/// other way round is refused for that, though a leg of it may have a load below zero.
fn validate_plans(rng: &mut Rng, sheet: &Sheet, plan: &Plan, case: Arguments) {
    let bytes = sheet.encode();
    for mut plan in [plan.clone(), solution(rng, sheet)] {
        validating::expect(0, &bytes, &plan.encode(), case);
        plan.cost = other_cost(rng, plan.cost);
        validating::expect(34, &bytes, &plan.encode(), case);
    }
    if !sheet.pairs.is_empty() {
        let mut backwards = solution(rng, sheet);
        put_into_steps(rng, sheet, &mut backwards, 33);
        state_cost(sheet, &mut backwards);
        validating::expect(33, &bytes, &backwards.encode(), case);
    }
}

/// A sheet that is refused with this number, whatever room is lent and whichever plan is passed.
pub fn refuse(rng: &mut Rng, number: u32, sheet: &Sheet, case: Arguments) {
    let bytes = sheet.encode();
    check::expect(number, &bytes, case);
    for enough in [true, false] {
        let (cells, plan) = if enough { (200, 56) } else { (0, 0) };
        let room = Room::noise(rng, cells, plan);
        planning::expect(number, &bytes, Err(number), &room, case);
        let layers = Layers::noise(rng, cells, cells);
        pricing::expect(number, &bytes, Err(number), &layers, case);
    }
    planning::check_own_room(&bytes, Err(number), case);
    pricing::check_own_room(&bytes, Err(number), case);
    let plan = Plan::random(rng, sheet.tasks.len()).encode();
    for plan in [&plan[..], &[]] {
        validating::expect(number, &bytes, plan, case);
    }
}
