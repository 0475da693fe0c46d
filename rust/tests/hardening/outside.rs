//! Calls that reach outside of what they are lent: in front of it, which the comparison has to tell, and behind it or
//! into what is lent to be read, which has to end the process.

use super::cases::some_cases;
use super::probe::assert_is_ended;
use super::stand_in::{plan, price, price_row, read, read_plan, validate, write_plan, StandIn};
use crate::common::fuzzing::compare::Memory;
use crate::common::interface;
use std::ptr::{read_volatile, write_volatile};
use std::slice::from_mut;

// SAFETY, of these three: none, and that is what is tried. The byte in front is mapped, and the others are touched in a
// process of its own.

fn touch_in_front<T>(lent: &mut [T]) {
    let before = lent.as_mut_ptr().cast::<u8>().wrapping_sub(1);
    unsafe { write_volatile(before, !read_volatile(before)) };
}

fn look_behind<T>(lent: &[T]) -> u32 {
    unsafe { read_volatile(lent.as_ptr_range().end.cast::<u8>()) }.into()
}

fn touch<T>(lent: &[T]) -> u32 {
    unsafe { write_volatile(lent.as_ptr().cast_mut().cast::<u8>(), 0) };
    0
}

/// It is told on every case, whatever the answer is.
fn assert_told(name: &str, (call, calls): StandIn) {
    let mut memory = Memory::new();
    let due = format!("{name}: written in front of what was lent");
    for case in &some_cases()[..50] {
        let told = memory.compare(&calls, call, case);
        assert_eq!(told, Err(due.clone()), "{}", call.name());
    }
}

#[test]
fn in_front_of_a_number() {
    let wrong = read(|sheet, tasks, points| {
        touch_in_front(from_mut(tasks));
        interface::read(sheet, tasks, points)
    });
    assert_told("*tasks", wrong);
    let wrong = read(|sheet, tasks, points| {
        touch_in_front(from_mut(points));
        interface::read(sheet, tasks, points)
    });
    assert_told("*points", wrong);
    let wrong = plan(|sheet, cells, plan, cost| {
        touch_in_front(from_mut(cost));
        interface::plan(sheet, cells, plan, cost)
    });
    assert_told("*cost", wrong);
    let wrong = price(|sheet, even, odd, cost, start| {
        touch_in_front(from_mut(cost));
        interface::price(sheet, even, odd, cost, start)
    });
    assert_told("*cost", wrong);
    let wrong = price(|sheet, even, odd, cost, start| {
        touch_in_front(from_mut(start));
        interface::price(sheet, even, odd, cost, start)
    });
    assert_told("*start", wrong);
    let wrong = price_row(|sheet, even, odd, layer, cells| {
        touch_in_front(from_mut(layer));
        interface::price_row(sheet, even, odd, layer, cells)
    });
    assert_told("*layer", wrong);
    let wrong = price_row(|sheet, even, odd, layer, cells| {
        touch_in_front(from_mut(cells));
        interface::price_row(sheet, even, odd, layer, cells)
    });
    assert_told("*cells", wrong);
    let wrong = validate(|sheet, plan, cost| {
        touch_in_front(from_mut(cost));
        interface::validate(sheet, plan, cost)
    });
    assert_told("*cost", wrong);
    let wrong = write_plan(|n, start, doors, cost, buf, written| {
        touch_in_front(from_mut(written));
        interface::write_plan(n, start, doors, cost, buf, written)
    });
    assert_told("*written", wrong);
    let wrong = read_plan(|n, bytes, start, doors, cost| {
        touch_in_front(from_mut(start));
        interface::read_plan(n, bytes, start, doors, cost)
    });
    assert_told("*start", wrong);
    let wrong = read_plan(|n, bytes, start, doors, cost| {
        touch_in_front(from_mut(cost));
        interface::read_plan(n, bytes, start, doors, cost)
    });
    assert_told("*cost", wrong);
}

#[test]
fn in_front_of_a_list() {
    let wrong = plan(|sheet, cells, plan, cost| {
        touch_in_front(cells);
        interface::plan(sheet, cells, plan, cost)
    });
    assert_told("cells", wrong);
    let wrong = plan(|sheet, cells, plan, cost| {
        touch_in_front(plan);
        interface::plan(sheet, cells, plan, cost)
    });
    assert_told("plan", wrong);
    let wrong = price(|sheet, even, odd, cost, start| {
        touch_in_front(even);
        interface::price(sheet, even, odd, cost, start)
    });
    assert_told("even", wrong);
    let wrong = price(|sheet, even, odd, cost, start| {
        touch_in_front(odd);
        interface::price(sheet, even, odd, cost, start)
    });
    assert_told("odd", wrong);
    let wrong = write_plan(|n, start, doors, cost, buf, written| {
        touch_in_front(buf);
        interface::write_plan(n, start, doors, cost, buf, written)
    });
    assert_told("buf", wrong);
    let wrong = read_plan(|n, bytes, start, doors, cost| {
        touch_in_front(doors);
        interface::read_plan(n, bytes, start, doors, cost)
    });
    assert_told("doors", wrong);
}

/// The process is ended, whatever the case is.
fn assert_ended((call, calls): StandIn) {
    let mut memory = Memory::new();
    for case in &some_cases()[..4] {
        assert_is_ended(|| drop(memory.compare(&calls, call, case)));
    }
}

#[test]
fn behind_a_number() {
    assert_ended(read(|_, tasks, _| look_behind(from_mut(tasks))));
    assert_ended(read(|_, _, points| look_behind(from_mut(points))));
    assert_ended(plan(|_, _, _, cost| look_behind(from_mut(cost))));
    assert_ended(price(|_, _, _, cost, _| look_behind(from_mut(cost))));
    assert_ended(price(|_, _, _, _, start| look_behind(from_mut(start))));
    assert_ended(price_row(|_, _, _, layer, _| look_behind(from_mut(layer))));
    assert_ended(price_row(|_, _, _, _, cells| look_behind(from_mut(cells))));
    assert_ended(validate(|_, _, cost| look_behind(from_mut(cost))));
    assert_ended(write_plan(|_, _, _, _, _, written| {
        look_behind(from_mut(written))
    }));
    assert_ended(read_plan(|_, _, start, _, _| look_behind(from_mut(start))));
    assert_ended(read_plan(|_, _, _, _, cost| look_behind(from_mut(cost))));
}

#[test]
fn behind_a_list() {
    assert_ended(read(|sheet, _, _| look_behind(sheet)));
    assert_ended(plan(|sheet, _, _, _| look_behind(sheet)));
    assert_ended(plan(|_, cells, _, _| look_behind(cells)));
    assert_ended(plan(|_, _, plan, _| look_behind(plan)));
    assert_ended(price(|sheet, _, _, _, _| look_behind(sheet)));
    assert_ended(price(|_, even, _, _, _| look_behind(even)));
    assert_ended(price(|_, _, odd, _, _| look_behind(odd)));
    assert_ended(price_row(|sheet, _, _, _, _| look_behind(sheet)));
    assert_ended(price_row(|_, even, _, _, _| look_behind(even)));
    assert_ended(price_row(|_, _, odd, _, _| look_behind(odd)));
    assert_ended(validate(|sheet, _, _| look_behind(sheet)));
    assert_ended(validate(|_, plan, _| look_behind(plan)));
    assert_ended(write_plan(|_, _, doors, _, _, _| look_behind(doors)));
    assert_ended(write_plan(|_, _, _, _, buf, _| look_behind(buf)));
    assert_ended(read_plan(|_, bytes, _, _, _| look_behind(bytes)));
    assert_ended(read_plan(|_, _, _, doors, _| look_behind(doors)));
}

#[test]
fn into_what_is_lent_to_be_read() {
    assert_ended(read(|sheet, _, _| touch(sheet)));
    assert_ended(plan(|sheet, _, _, _| touch(sheet)));
    assert_ended(price(|sheet, _, _, _, _| touch(sheet)));
    assert_ended(price_row(|sheet, _, _, _, _| touch(sheet)));
    assert_ended(price_row(|_, even, _, _, _| touch(even)));
    assert_ended(price_row(|_, _, odd, _, _| touch(odd)));
    assert_ended(validate(|sheet, _, _| touch(sheet)));
    assert_ended(validate(|_, plan, _| touch(plan)));
    assert_ended(write_plan(|_, _, doors, _, _, _| touch(doors)));
    assert_ended(read_plan(|_, bytes, _, _, _| touch(bytes)));
}
