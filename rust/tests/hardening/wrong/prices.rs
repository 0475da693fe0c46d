//! Wrong pricing, and wrong rows.

use super::assert_told;
use crate::common::interface;
use crate::common::lists::is_allowed;
use crate::common::pricing::{most_lists, EVEN};
use crate::common::reading::{decode, faults};
use crate::common::tested::ACCEPTED;
use crate::stand_in::{price, price_row};

#[test]
fn prices_everything() {
    let wrong = price(|sheet, even, odd, cost, start| {
        interface::price(sheet, even, odd, cost, start);
        ACCEPTED
    });
    assert_told("answers 0, and not", wrong);
}

#[test]
fn pricing_tests_the_layers_before_the_sheet() {
    let wrong = price(|sheet, even, odd, cost, start| {
        let number = interface::price(sheet, even, odd, cost, start);
        if number != ACCEPTED && (even.is_empty() || odd.is_empty()) {
            return 22;
        }
        number
    });
    assert_told("answers 22, and not 1", wrong);
}

/// Prices in a copy of the layers, each made as long as any sheet needs.
fn in_longer_layers(sheet: &[u8], even: &[u64], odd: &[u64]) -> (u64, u16) {
    let (mut even, mut odd) = (even.to_vec(), odd.to_vec());
    let (mut cost, mut start) = (0, 0);
    for layer in [&mut even, &mut odd] {
        layer.resize(layer.len().max(59_136), 0);
    }
    interface::price(sheet, &mut even, &mut odd, &mut cost, &mut start);
    (cost, start)
}

#[test]
fn prices_with_one_layer_too_short() {
    let wrong = price(|sheet, even, odd, cost, start| {
        let number = interface::price(sheet, even, odd, cost, start);
        if number == 22 && even.len() < odd.len() {
            (*cost, *start) = in_longer_layers(sheet, even, odd);
            return ACCEPTED;
        }
        number
    });
    assert_told("answers 0, and not 22", wrong);
    let wrong = price(|sheet, even, odd, cost, start| {
        let number = interface::price(sheet, even, odd, cost, start);
        if number == 22 && odd.len() < even.len() {
            (*cost, *start) = in_longer_layers(sheet, even, odd);
            return ACCEPTED;
        }
        number
    });
    assert_told("answers 0, and not 22", wrong);
}

#[test]
fn pricing_writes_the_cost_on_refusal() {
    let wrong = price(|sheet, even, odd, cost, start| {
        let number = interface::price(sheet, even, odd, cost, start);
        if number != ACCEPTED {
            *cost = 0;
        }
        number
    });
    assert_told("*cost", wrong);
}

#[test]
fn pricing_writes_the_start_on_refusal() {
    let wrong = price(|sheet, even, odd, cost, start| {
        let number = interface::price(sheet, even, odd, cost, start);
        if number != ACCEPTED {
            *start = 0;
        }
        number
    });
    assert_told("*start", wrong);
}

#[test]
fn pricing_writes_a_cell_on_refusal() {
    let wrong = price(|sheet, even, odd, cost, start| {
        let number = interface::price(sheet, even, odd, cost, start);
        if number != ACCEPTED && !odd.is_empty() {
            odd[0] ^= 1;
        }
        number
    });
    assert_told("odd: element 0", wrong);
}

#[test]
fn leaves_the_row_in_the_other_layer() {
    let wrong = price(|sheet, even, odd, cost, start| {
        let number = interface::price(sheet, even, odd, cost, start);
        if number == ACCEPTED {
            let sheet = decode(sheet);
            let points = sheet.points.len();
            if sheet.tasks.len() % 2 == EVEN {
                even[..points].swap_with_slice(&mut odd[..points]);
            }
        }
        number
    });
    assert_told("even: element", wrong);
}

#[test]
fn prices_without_one_layer() {
    let wrong = price(|sheet, even, odd, cost, start| {
        interface::price(sheet, &mut even.to_vec(), odd, cost, start)
    });
    assert_told("even: element", wrong);
    let wrong = price(|sheet, even, odd, cost, start| {
        interface::price(sheet, even, &mut odd.to_vec(), cost, start)
    });
    assert_told("odd: element", wrong);
}

#[test]
fn prices_a_later_start_of_equal_cost() {
    let wrong = price(|sheet, even, odd, cost, start| {
        let number = interface::price(sheet, even, odd, cost, start);
        if number == ACCEPTED {
            let starts = decode(sheet).starts;
            let point = starts[usize::from(*start)];
            let last = starts.iter().rposition(|&other| other == point);
            *start = last.expect("the start itself") as u16;
        }
        number
    });
    assert_told("*start", wrong);
}

#[test]
fn states_a_cost_that_is_not_the_starts() {
    let wrong = price(|sheet, even, odd, cost, start| {
        let number = interface::price(sheet, even, odd, cost, start);
        if number == ACCEPTED {
            let sheet = decode(sheet);
            let row = if sheet.tasks.len() % 2 == EVEN {
                even
            } else {
                odd
            };
            *cost = row[usize::from(sheet.starts[0])];
        }
        number
    });
    assert_told("*cost", wrong);
}

/// The number of cells that a sheet which is priced needs in each layer.
fn needed(sheet: &[u8]) -> usize {
    let sheet = decode(sheet);
    most_lists(sheet.tasks.len()) * sheet.points.len()
}

#[test]
fn pricing_writes_a_cell_past_those_needed() {
    let wrong = price(|sheet, even, odd, cost, start| {
        let number = interface::price(sheet, even, odd, cost, start);
        if number == ACCEPTED {
            if let Some(cell) = even.get_mut(needed(sheet)) {
                *cell ^= 1;
            }
        }
        number
    });
    assert_told("even: element", wrong);
}

/// Of two tasks with a pair, the odd layer has the sender's list, which is never open alone.
#[test]
fn fills_a_list_that_the_pairs_do_not_allow() {
    let wrong = price(|sheet, even, odd, cost, start| {
        let number = interface::price(sheet, even, odd, cost, start);
        if number == ACCEPTED {
            let sheet = decode(sheet);
            let mut tasks = 0..sheet.tasks.len();
            if tasks.len() == 2 {
                if let Some(rank) = tasks.find(|&task| !is_allowed(&sheet, 1 << task)) {
                    odd[rank * sheet.points.len()] ^= 1;
                }
            }
        }
        number
    });
    assert_told("odd: element", wrong);
}

#[test]
fn leaves_another_list_where_the_row_is_due() {
    let wrong = price(|sheet, even, odd, cost, start| {
        let number = interface::price(sheet, even, odd, cost, start);
        if number == ACCEPTED {
            let sheet = decode(sheet);
            let points = sheet.points.len();
            if sheet.tasks.len() % 2 == EVEN {
                even.copy_within(points..2 * points, 0);
            }
        }
        number
    });
    assert_told("even: element", wrong);
}

#[test]
fn finds_the_row_of_any_sheet() {
    let wrong = price_row(|sheet, even, odd, layer, cells| {
        interface::price_row(sheet, even, odd, layer, cells);
        ACCEPTED
    });
    assert_told("answers 0, and not", wrong);
}

#[test]
fn refuses_the_row_with_the_last_number_that_applies() {
    let wrong = price_row(|sheet, even, odd, layer, cells| {
        let number = interface::price_row(sheet, even, odd, layer, cells);
        faults(sheet).pop().unwrap_or(number)
    });
    assert_told("answers 1", wrong);
}

#[test]
fn finds_the_row_in_the_other_layer() {
    let wrong = price_row(|sheet, even, odd, layer, cells| {
        let number = interface::price_row(sheet, even, odd, layer, cells);
        if number == ACCEPTED {
            *layer ^= 1;
        }
        number
    });
    assert_told("*layer", wrong);
}

#[test]
fn finds_a_row_of_n_cells() {
    let wrong = price_row(|sheet, even, odd, layer, cells| {
        let number = interface::price_row(sheet, even, odd, layer, cells);
        if number == ACCEPTED {
            *cells = decode(sheet).tasks.len();
        }
        number
    });
    assert_told("*cells", wrong);
}

#[test]
fn tells_an_empty_row_on_refusal() {
    let wrong = price_row(|sheet, even, odd, layer, cells| {
        let number = interface::price_row(sheet, even, odd, layer, cells);
        if number != ACCEPTED {
            *cells = 0;
        }
        number
    });
    assert_told("*cells", wrong);
}
