//! One pricing by the product, through C and through the package, compared with what is due: the answer, everything lent
//! as it is afterwards, and the row.

use crate::common::check::hex;
use crate::common::interface;
use crate::common::lent::{Lent, Place};
use crate::common::pricing::{layer_of_row, price, row};
use crate::common::rng::Rng;
use crate::common::rounds::Due;
use crate::common::tested::ACCEPTED;
use std::cell::RefCell;
use std::fmt::Arguments;
use vanplan::{raw, Planner, Price, Pricer, Refusal};

pub use crate::common::pricing::{layer_cells, Layers};

/// What stands around the lent lists and numbers.
const AROUND: u64 = 0x0123_4567_89ab_cdef;

/// Prices with these layers lent, compares the answer, all that is lent and the row, and returns the number.
pub fn check(sheet: &[u8], due: Result<&Due, u32>, layers: &Layers, case: Arguments) -> u32 {
    let case = format_args!("{case}, lent {:?}: {}", layers.lengths(), hex(sheet));
    let before = sheet.to_vec();
    let due_number = layers.number(due);
    let (even, odd) = priced_by_c(sheet, due, layers, case);
    check_row(sheet, due, layers, &even, &odd, case);
    let mut too = [&layers.even, &layers.odd].map(|layer| Lent::new(layer, AROUND));
    let [even_too, odd_too] = &mut too;
    let priced = raw::price(sheet, even_too.lend(), odd_too.lend());
    assert_eq!(in_numbers(priced), price_or(due, due_number), "{case}");
    assert_eq!(too.map(|layer| layer.returned(case)), [even, odd], "{case}");
    assert_eq!(sheet, before, "the sheet, {case}");
    due_number
}

/// The layers as the C interface leaves them.
fn priced_by_c(
    sheet: &[u8],
    due: Result<&Due, u32>,
    layers: &Layers,
    case: Arguments,
) -> (Vec<u64>, Vec<u64>) {
    let mut even = Lent::new(&layers.even, AROUND);
    let mut odd = Lent::new(&layers.odd, AROUND);
    let mut cost = Lent::new(&[layers.cost], AROUND);
    let mut start = Lent::new(&[layers.start], AROUND as u16);
    let (cost_lent, start_lent) = (&mut cost.lend()[0], &mut start.lend()[0]);
    let number = interface::price(sheet, even.lend(), odd.lend(), cost_lent, start_lent);
    assert_eq!(number, layers.number(due), "{case}");
    let (due_cost, due_start) = layers.price_after(due);
    assert_eq!(cost.returned(case), [due_cost], "the cost, {case}");
    assert_eq!(start.returned(case), [due_start], "the start, {case}");
    let (even, odd) = (even.returned(case), odd.returned(case));
    assert_eq!(layers.expect(due, &even, &odd), Ok(()), "{case}");
    (even, odd)
}

/// The row of the layers before and after pricing: the same part of them, since it hangs on their lengths alone.
fn check_row(
    sheet: &[u8],
    due: Result<&Due, u32>,
    layers: &Layers,
    even: &[u64],
    odd: &[u64],
    case: Arguments,
) {
    let number = layers.number(due);
    let found = due.ok().filter(|_| number == ACCEPTED);
    let found = found.map(|due| (layer_of_row(due), row(due)));
    for (even, odd) in [(&layers.even[..], &layers.odd[..]), (even, odd)] {
        let mut rng = Rng::of(sheet);
        let lent = [0; 2].map(|_| Place::filled(|| rng.next() as usize));
        let [mut layer, mut cells] = lent;
        let answer = interface::price_row(sheet, even, odd, layer.lend(), cells.lend());
        let due_after = match &found {
            Some((layer, row)) => [lent[0].holding(*layer), lent[1].holding(row.len())],
            None => lent,
        };
        assert_eq!((answer, [layer, cells]), (number, due_after), "{case}");
        let part = raw::price_row(sheet, even, odd).map_err(Refusal::number);
        match &found {
            Some((layer, row)) => {
                let due = &[even, odd][*layer][..row.len()];
                assert_eq!(part.map(<[u64]>::as_ptr_range), Ok(due.as_ptr_range()));
            }
            None => assert_eq!(part, Err(number), "{case}"),
        }
    }
    if let Some((_, row)) = found {
        assert_eq!(raw::price_row(sheet, even, odd), Ok(&row[..]), "{case}");
    }
}

/// Like `check`, and the number is told beforehand; 0 stands for a sheet that is priced.
pub fn expect(number: u32, sheet: &[u8], due: Result<&Due, u32>, layers: &Layers, case: Arguments) {
    let answer = check(sheet, due, layers, case);
    assert_eq!(answer, number, "{case}: {}", hex(sheet));
}

fn in_numbers(priced: Result<Price, Refusal>) -> Result<(u64, u16), u32> {
    let price = priced.map(|Price { cost, start }| (cost, start));
    price.map_err(Refusal::number)
}

/// The price that is due, or this number.
fn price_or(due: Result<&Due, u32>, number: u32) -> Result<(u64, u16), u32> {
    match due {
        Ok(due) if number == ACCEPTED => Ok(price(&due.plan)),
        _ => Err(number),
    }
}

thread_local! {
    /// Kept from round to round, so that what an earlier one left would show.
    static KEPT: RefCell<(Pricer, Planner)> = const { RefCell::new((Pricer::new(), Planner::new())) };
}

/// The pricer of the package, which lends its own layers, against what is due and against the product's planner.
pub fn check_own_room(sheet: &[u8], due: Result<&Due, u32>, case: Arguments) {
    let case = format_args!("{case}: {}", hex(sheet));
    let (priced, planned) = KEPT.with_borrow_mut(|(pricer, planner)| {
        let both = (pricer.price(sheet), planner.plan(sheet));
        if let Ok(due) = due {
            assert_eq!(pricer.costs_to_finish(), row(due), "{case}");
            let full_list = (1 << due.plan.doors.len()) - 1;
            let points = 0..row(due).len();
            let planned = points.map(|point| planner.cost_to_finish(full_list, point));
            let costs = pricer.costs_to_finish().iter().copied().map(Some);
            assert!(planned.eq(costs), "{case}");
        }
        both
    });
    assert_eq!(vanplan::price(sheet), priced, "{case}");
    let by_plan = planned.map(|plan| Price {
        cost: plan.cost,
        start: plan.start,
    });
    assert_eq!(priced, by_plan, "{case}");
    let due = due.map(|due| price(&due.plan));
    assert_eq!(in_numbers(priced), due, "{case}");
}
