//! Small sheets and plans to compare the calls on, among them some for every refusal.

use crate::calls::Calls;
use crate::common::corrupt::change_some_field;
use crate::common::faulty::with_fault;
use crate::common::judging::cost;
use crate::common::plan::{plan_len, Plan};
use crate::common::reading::faults;
use crate::common::rng::Rng;
use crate::common::sheet::Sheet;
use crate::common::tested::READING;
use crate::common::valid::{make_small, valid, Size, ROOMY, SMALL};
use crate::compare::Comparison;
use crate::rooms::{cells, layer_cells, Layers, Room};
use crate::sheets::lightest;

/// Seeds of each kind of case.
const SEEDS: u64 = 100;

/// Sheets that read, sheets with each fault, and sheets with a field changed.
pub fn compare_small(calls: &Calls, all: &mut Comparison) {
    for seed in 0..SEEDS {
        let mut rng = Rng::new(seed);
        let mut sheet = valid(&mut rng, if seed % 2 == 0 { SMALL } else { ROOMY });
        if seed % 4 < 2 {
            make_small(&mut rng, &mut sheet, 3); // so that plans tie
        }
        compare_valid(calls, all, &mut rng, &sheet, &format!("seed {seed}"));
        let mut written = sheet.written();
        change_some_field(&mut rng, &sheet, &mut written);
        let case = format!("seed {seed}, a field changed");
        compare_sheet(calls, all, &mut rng, &written.bytes, &case);
        for number in READING {
            let sheet = with_fault(&mut rng, number);
            let case = format!("seed {seed}, fault {number}");
            compare_sheet(calls, all, &mut rng, &sheet, &case);
        }
    }
}

/// Sheets whose lightest list of all is below zero: some read, some get 16, and some get 17 although 16 applies too.
pub fn compare_light(calls: &Calls, all: &mut Comparison) {
    let mut met = [0; 3];
    for seed in 0..SEEDS {
        let rng = &mut Rng::new(seed);
        let case = format!("seed {seed}, light");
        let small = carrying(rng, FEW_TASKS);
        compare_valid(calls, all, rng, &small, &case);
        for reads in [small, carrying(rng, MANY_TASKS)] {
            let lighter = with_less(rng, &reads);
            let circular = with_circle(rng, &lighter);
            for sheet in [reads, lighter, circular, any_light(rng)] {
                assert!(lightest(&sheet) < 0, "{case}");
                let bytes = sheet.encode();
                let number = compare_sheet(calls, all, rng, &bytes, &case);
                met[0] += usize::from(number == 0);
                met[1] += usize::from(number == 16);
                met[2] += usize::from(number == 17 && faults(&bytes).contains(&16));
            }
        }
    }
    let [read, light, circular] = met;
    all.notes.push(format!(
        "sheets whose lightest list is below zero: {read} read, {light} get 16, {circular} get 17 where 16 applies too"
    ));
    assert!(!met.contains(&0), "each of these is to be met");
}

/// With a pair at least, and room for one more.
const FEW_TASKS: Size = Size {
    pairs: (1, 4),
    ..ROOMY
};

const MANY_TASKS: Size = Size {
    tasks: (7, 12),
    pairs: (1, 31),
    ..ROOMY
};

/// A sheet that reads: whatever is picked up is delivered over a pair, so that an essential list is never lighter than
/// the empty one.
fn carrying(rng: &mut Rng, size: Size) -> Sheet {
    let mut sheet = valid(rng, size);
    sheet.tasks.fill(0);
    for &(sender, receiver) in &sheet.pairs {
        let carried = rng.between(1, 100) as i16;
        sheet.tasks[usize::from(sender)] -= carried;
        sheet.tasks[usize::from(receiver)] += carried;
    }
    make_light(rng, sheet)
}

/// Any end load with which the lightest list of all is below zero.
fn make_light(rng: &mut Rng, mut sheet: Sheet) -> Sheet {
    sheet.end_load = 0;
    sheet.end_load = rng.below(-lightest(&sheet) as usize) as u16;
    sheet
}

/// The same with a task that picks up more or delivers less, maybe more than the end load.
fn with_less(rng: &mut Rng, sheet: &Sheet) -> Sheet {
    let mut sheet = sheet.clone();
    let task = rng.below(sheet.tasks.len());
    sheet.tasks[task] -= rng.between(1, 2 * usize::from(sheet.end_load) + 2) as i16;
    sheet
}

/// The same with a pair that leads back.
fn with_circle(rng: &mut Rng, sheet: &Sheet) -> Sheet {
    let mut sheet = sheet.clone();
    let (sender, receiver) = rng.pick(&sheet.pairs);
    sheet.pairs.push((receiver, sender));
    sheet
}

/// Small changes of either sign.
fn any_light(rng: &mut Rng) -> Sheet {
    let mut sheet = valid(rng, ROOMY);
    make_small(rng, &mut sheet, 3);
    sheet.tasks[0] = -1;
    make_light(rng, sheet)
}

/// Any sheet, in a room that is large enough for all small ones. Answers the number that reading gets.
fn compare_sheet(
    calls: &Calls,
    all: &mut Comparison,
    rng: &mut Rng,
    sheet: &[u8],
    case: &str,
) -> u32 {
    let room = Room::noise(rng, 640, 56);
    let layers = Layers::noise(rng, 320, 320);
    let bytes = Plan::random(rng, 2).encode();
    all.planning(calls, sheet, &room, case);
    all.pricing(calls, sheet, &layers, case);
    all.validating(calls, sheet, &bytes, case);
    all.reading(calls, sheet, case)
}

/// A sheet that reads: rooms that are just enough and one too small, and plans that are good and damaged.
fn compare_valid(calls: &Calls, all: &mut Comparison, rng: &mut Rng, sheet: &Sheet, case: &str) {
    let bytes = sheet.encode();
    let (tasks, points) = (sheet.tasks.len(), sheet.points.len());
    let (cells, len) = (cells(tasks, points), plan_len(tasks));
    let layer = layer_cells(tasks, points);
    compare_sheet(calls, all, rng, &bytes, case);
    for (cells, len) in [(cells, len), (cells - 1, len), (cells, len - 1)] {
        let room = Room::noise(rng, cells, len);
        all.planning(calls, &bytes, &room, case);
    }
    for (even, odd) in [(layer, layer), (layer - 1, layer), (layer, layer - 1)] {
        let layers = Layers::noise(rng, even, odd);
        all.pricing(calls, &bytes, &layers, case);
    }
    let best = vanplan::plan(&bytes).expect("a sheet that reads");
    let best = Plan::of(best.start, &best.doors, best.cost);
    for plan in plans(rng, sheet, &best) {
        all.validating(calls, &bytes, &plan, case);
    }
}

/// The cheapest plan and others that are made of it: damaged, out of the sheet, with a task twice, with another cost,
/// and in another order with its own cost.
fn plans(rng: &mut Rng, sheet: &Sheet, best: &Plan) -> Vec<Vec<u8>> {
    let mut plans = vec![best.encode()];
    let mut damaged = best.encode();
    let at = rng.below(22);
    damaged[at] ^= 1 << rng.below(8);
    plans.push(damaged);
    plans.push(best.encode()[1..].to_vec());
    let step = rng.below(best.doors.len());
    let mut change = |change: &dyn Fn(&mut Plan)| {
        let mut plan = best.clone();
        change(&mut plan);
        plans.push(plan.encode());
    };
    change(&|plan| plan.start = sheet.starts.len() as u16);
    change(&|plan| plan.doors[step] = sheet.doors.len() as u16);
    change(&|plan| plan.doors[step] = plan.doors[0]);
    change(&|plan| plan.cost += 1);
    for swap in 0..best.doors.len() {
        change(&|plan| {
            plan.doors.swap(swap, step);
            plan.cost = cost(sheet, plan.start, &plan.doors).expect("doors of the sheet") as u64;
        });
    }
    plans
}
