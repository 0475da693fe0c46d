//! The values that a field of a sheet is set to, so that every limit is met from both sides.

use super::layout::{Field, Written};
use super::rng::Rng;
use super::sheet::Sheet;
use super::valid::{valid, SMALL};

/// Fields of which document 01 allows every value.
const FREE: [&str; 4] = ["work", "charge", "end cost", "distance"];

/// Limits of the table of bodies, and of numbers of 8 and 16 bits.
const LIMITS: [u32; 9] = [1, 12, 16, 32, 64, 256, 0x8000, 0xff00, 0xffff];

/// Values to put in place of the one that the field has: each limit with its neighbours, single bits, random ones.
pub fn other_values(rng: &mut Rng, sheet: &Sheet, field: &Field, now: u32) -> Vec<u32> {
    let mut values = if FREE.contains(&field.name) {
        vec![0, 1 << 31, u32::MAX, rng.u32()]
    } else {
        edges(rng, sheet, now)
    };
    values.iter_mut().for_each(|value| *value &= field.most());
    values.sort_unstable();
    values.dedup();
    values.retain(|&value| value != now);
    values
}

fn edges(rng: &mut Rng, sheet: &Sheet, now: u32) -> Vec<u32> {
    let (n, d, p) = (sheet.tasks.len(), sheet.doors.len(), sheet.points.len());
    let own_limits = [n, d, p, p * p, 1 << n].map(|limit| limit as u32);
    let mut values = vec![now ^ 0x8000, rng.u32()];
    for limit in LIMITS.into_iter().chain(own_limits).chain([now]) {
        values.extend([limit.wrapping_sub(1), limit, limit.wrapping_add(1)]);
    }
    values.extend([now + 256, 1 << rng.below(16), rng.below(n + 2) as u32]);
    values
}

/// The bytes of a small random sheet with that many of its fields, from the fewest to the most, set to other values.
pub fn with_changed_fields(rng: &mut Rng, fewest: usize, most: usize) -> Vec<u8> {
    let sheet = valid(rng, SMALL);
    let mut written = sheet.written();
    for _ in 0..rng.between(fewest, most) {
        change_some_field(rng, &sheet, &mut written);
    }
    written.bytes
}

/// Sets a random field to another value, mostly one in a body and mostly so that it stays in its range, because then
/// the later faults are met.
pub fn change_some_field(rng: &mut Rng, sheet: &Sheet, written: &mut Written) {
    let in_head = rng.one_in(6);
    let wanted = |field: &&Field| (field.body == 0) == in_head && !FREE.contains(&field.name);
    let fields: Vec<&Field> = written.fields.iter().filter(wanted).collect();
    let field = rng.pick(&fields);
    let now = field.get(&written.bytes);
    let value = match field.name {
        "load change" => rng.u32(),
        "task" | "sender task" | "receiver task" if !rng.one_in(10) => {
            rng.below(sheet.tasks.len()) as u32
        }
        _ => {
            let values = other_values(rng, sheet, field, now);
            rng.pick(&values)
        }
    };
    field.put(&mut written.bytes, value);
}
