//! The sheets of the cases: those that read, of every size, and those that were damaged in every way.

use super::mutation::mutate;
use crate::common::corrupt::with_changed_fields;
use crate::common::faulty::{all_but_10, short_with_faults, with_fault, with_faults};
use crate::common::lively::{lively, small};
use crate::common::rng::Rng;
use crate::common::sheet::Sheet;
use crate::common::tested::READING;
use crate::common::valid::{longest, make_small, valid, Size};

/// As many doors, points and the rest as the layout allows.
const FEW_TASKS: Size = Size {
    tasks: (1, 4),
    more_doors: (0, 60),
    starts: (1, 15),
    pairs: (0, 31),
    rules: (0, 32),
    points: (1, 64),
};

const SIX_TO_EIGHT: Size = Size {
    tasks: (6, 8),
    more_doors: (0, 8),
    starts: (1, 4),
    pairs: (0, 10),
    rules: (0, 8),
    points: (1, 8),
};

const NINE_TO_TWELVE: Size = Size {
    tasks: (9, 12),
    more_doors: (0, 12),
    starts: (1, 8),
    pairs: (0, 16),
    rules: (0, 16),
    points: (1, 6),
};

pub fn some_sheet(rng: &mut Rng) -> Vec<u8> {
    match rng.below(100) {
        0..18 => {
            let number = rng.pick(&READING);
            with_fault(rng, number)
        }
        18..24 => several_faults(rng),
        24..32 => with_changed_fields(rng, 1, 4),
        32..44 => mutated(rng),
        44 => noise(rng),
        _ => readable(rng).encode(),
    }
}

/// Mostly up to five tasks, since planning takes the independent implementation long on the others.
fn readable(rng: &mut Rng) -> Sheet {
    match rng.below(2_500) {
        0 => largest(rng),
        1..50 => lively(rng, NINE_TO_TWELVE),
        50..500 => lively(rng, SIX_TO_EIGHT),
        500..700 => lively(rng, FEW_TASKS),
        _ => small(rng),
    }
}

pub fn largest(rng: &mut Rng) -> Sheet {
    let mut sheet = valid(rng, longest((0, 32)));
    if rng.one_in(2) {
        make_small(rng, &mut sheet, 5);
    }
    sheet
}

/// Two to four numbers that can come together, one with 10, or the two that hang on the pairs.
fn several_faults(rng: &mut Rng) -> Vec<u8> {
    match rng.below(4) {
        0 => {
            let number = rng.pick(&[11, 12, 13]);
            short_with_faults(rng, &[number])
        }
        1 => with_faults(rng, &[17, 16]),
        _ => {
            let mut numbers = all_but_10();
            rng.shuffle(&mut numbers);
            numbers.truncate(rng.between(2, 4));
            with_faults(rng, &numbers)
        }
    }
}

fn mutated(rng: &mut Rng) -> Vec<u8> {
    let mut bytes = readable(rng).encode();
    let others = small(rng).encode();
    mutate(rng, &mut bytes, &others);
    bytes
}

/// Random bytes, alone or behind the beginning of a sheet that reads.
fn noise(rng: &mut Rng) -> Vec<u8> {
    let mut bytes = small(rng).encode();
    let (kept, any) = (rng.below(bytes.len()), rng.below(200));
    let len = rng.pick(&[bytes.len(), any]);
    bytes.truncate(rng.pick(&[0, 2, 46, kept]).min(len));
    let rest = len - bytes.len();
    bytes.extend(rng.bytes(rest));
    bytes
}
