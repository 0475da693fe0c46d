//! One planning by the product, through C and through the package, compared with what is due: the answer, and everything
//! lent as it is afterwards.

use crate::common::check::hex;
use crate::common::interface;
use crate::common::lent::Lent;
use crate::common::plan::Plan;
use crate::common::rounds::Due;
use std::cell::RefCell;
use std::fmt::Arguments;
use vanplan::{raw, Planner, Refusal};

pub use crate::common::room::{needed, Room};

/// What stands around the lent lists.
const AROUND: (u64, u8) = (0x0123_4567_89ab_cdef, 0xa5);

type Call = fn(&[u8], &mut [u64], &mut [u8], &mut u64) -> u32;

/// Plans with this room lent, compares the answer and all that is lent, and returns the number.
pub fn check(sheet: &[u8], due: Result<&Due, u32>, room: &Room, case: Arguments) -> u32 {
    let lengths = (room.cells.len(), room.plan.len());
    let case = format_args!("{case}, lent {lengths:?}: {}", hex(sheet));
    let before = sheet.to_vec();
    let (due_number, due_after) = room.after(due);
    for call in [interface::plan as Call, raw::plan] {
        let mut cells = Lent::new(&room.cells, AROUND.0);
        let mut plan = Lent::new(&room.plan, AROUND.1);
        let mut cost = Lent::new(&[room.cost], AROUND.0);
        let number = call(sheet, cells.lend(), plan.lend(), &mut cost.lend()[0]);
        assert_eq!(number, due_number, "{case}");
        assert_eq!(cost.returned(case), [due_after.cost], "the cost, {case}");
        assert_eq!(plan.returned(case), due_after.plan, "the plan, {case}");
        let cells = cells.returned(case);
        let differs = |&cell: &usize| cells[cell] != due_after.cells[cell];
        if let Some(cell) = (0..cells.len()).find(differs) {
            let (is, due) = (cells[cell], due_after.cells[cell]);
            panic!("cell {cell} is {is}, and not {due}, {case}");
        }
        assert_eq!(sheet, before, "the sheet, {case}");
    }
    due_number
}

/// Like `check`, and the number is told beforehand; 0 stands for a sheet that is planned.
pub fn expect(number: u32, sheet: &[u8], due: Result<&Due, u32>, room: &Room, case: Arguments) {
    let answer = check(sheet, due, room, case);
    assert_eq!(answer, number, "{case}: {}", hex(sheet));
}

thread_local! {
    /// Kept from round to round, so that what an earlier one left would show.
    static KEPT: RefCell<Planner> = const { RefCell::new(Planner::new()) };
}

/// The planner of the package, which lends its own room, and the judge's view of what it planned.
pub fn check_own_room(sheet: &[u8], due: Result<&Due, u32>, case: Arguments) {
    let case = format_args!("{case}: {}", hex(sheet));
    let planned = KEPT.with_borrow_mut(|planner| {
        let planned = planner.plan(sheet);
        if let Ok(due) = due {
            assert_eq!(figures(planner, due), due.cells, "{case}");
        }
        planned
    });
    assert_eq!(vanplan::plan(sheet), planned, "{case}");
    if let Ok(planned) = &planned {
        assert_eq!(planned.validate(sheet), Ok(planned.cost), "{case}");
    }
    let planned = planned.map(|plan| Plan::of(plan.start, &plan.doors, plan.cost));
    let due_plan = due.map(|due| due.plan.clone());
    assert_eq!(planned.map_err(Refusal::number), due_plan, "{case}");
}

/// What the planner tells of every list and point of the round that is due, in the order of the cells; of one more point
/// and one more task it tells nothing.
pub fn figures(planner: &Planner, due: &Due) -> Vec<Option<u64>> {
    let lists = 1 << due.plan.doors.len();
    let points = due.cells.len() / lists;
    for list in [0, lists - 1] {
        assert_eq!(planner.cost_to_finish(list as u32, points), None);
    }
    assert_eq!(planner.cost_to_finish(lists as u32, 0), None);
    assert_eq!(planner.cost_to_finish(u32::MAX, points - 1), None);
    let cell = |cell| planner.cost_to_finish((cell / points) as u32, cell % points);
    (0..due.cells.len()).map(cell).collect()
}
