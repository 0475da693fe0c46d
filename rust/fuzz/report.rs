//! What is printed: a line of progress, in the end a table by call and answer, and what one case lends.

use crate::common::fuzzing::calls::Call;
use crate::common::fuzzing::case::Case;
use crate::common::fuzzing::counts::Counts;
use std::collections::BTreeSet;
use std::time::Duration;

pub fn progress(time: Duration, counts: &Counts) {
    let [calls, planned, accepted] =
        [counts.calls(), counts.planned(), counts.accepted()].map(figure);
    let (seconds, differences) = (time.as_secs(), counts.differences);
    println!("{seconds} s: {calls} calls, {planned} planned, {accepted} accepted, {differences} differences");
}

/// Every call by its answers, then what else was counted, and what there was too little of.
pub fn table(time: Duration, counts: &Counts) {
    let names = Call::ALL.map(|call| format!("{:>20}", call.name()));
    println!("answer{}", names.concat());
    let numbers: BTreeSet<u32> = Call::ALL.iter().flat_map(|call| call.numbers()).collect();
    for number in numbers {
        let times = Call::ALL.map(|call| format!("{:>20}", times(counts, call, number)));
        println!("{number:>6}{}", times.concat());
    }
    let a_second = counts.calls() as f64 / time.as_secs_f64();
    let others = [
        ("calls", counts.calls()),
        ("planned", counts.planned()),
        ("planned with a tie", counts.tied),
        ("planned with six tasks or more", counts.long),
        (
            "planned though the lightest list of tasks is below zero (the pairs never let it be open)",
            counts.taken_aboard,
        ),
        ("priced", counts.priced()),
        ("priced with tied starts", counts.starts_tied),
        ("accepted by the validator", counts.accepted()),
        ("differences", counts.differences),
        ("calls a second", a_second as u64),
    ];
    let width = others.iter().map(|(name, _)| name.len()).max();
    let width = width.unwrap_or_default();
    for (name, times) in others {
        println!("{name:<width$}{:>15}", figure(times));
    }
    for too_few in counts.too_few() {
        println!("too few: {too_few}");
    }
}

/// How often the call gave the number, if it can.
fn times(counts: &Counts, call: Call, number: u32) -> String {
    if !call.numbers().contains(&number) {
        return "-".to_string();
    }
    figure(counts.of(call, number))
}

/// How much a case lends.
pub fn lent(case: &Case) {
    let (room, writing, reading) = (&case.room, &case.writing, &case.reading);
    let (sheet, plan) = (case.sheet.len(), case.plan.len());
    println!("sheet: {sheet} bytes, plan: {plan} bytes");
    let (cells, bytes) = (room.cells.len(), room.plan.len());
    println!("planning: {cells} cells, {bytes} bytes");
    let (even, odd) = case.layers.lengths();
    println!("pricing: {even} cells in the even layer, {odd} in the odd");
    let (n, doors, bytes) = (writing.n, writing.plan.doors.len(), writing.buffer.len());
    println!("writing a plan: n {n}, {doors} doors, {bytes} bytes");
    let (n, doors) = (reading.n, reading.doors.len());
    println!("reading a plan: n {n}, {doors} doors");
}

/// A number with a comma before every three digits.
fn figure(number: u64) -> String {
    let digits = number.to_string();
    let mut figure = String::new();
    for (place, digit) in digits.chars().enumerate() {
        if place > 0 && (digits.len() - place) % 3 == 0 {
            figure.push(',');
        }
        figure.push(digit);
    }
    figure
}
