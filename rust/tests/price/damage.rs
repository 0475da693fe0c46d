//! Damaged sheets: pricing answers what reading answers and leaves everything, whatever is lent, since 22 comes last; and
//! sheets that still read after the damage are priced.

use super::calls::{check, check_own_room, expect, Layers};
use crate::common::corrupt::{other_values, with_changed_fields};
use crate::common::faulty::{all_but_10, with_fault, with_faults};
use crate::common::finishing::recurse;
use crate::common::reading::{decode, reading};
use crate::common::rng::Rng;
use crate::common::tally::Times;
use crate::common::tested::{every_two, READING};
use crate::common::valid::{valid, SMALL};

/// Layers with no cells, with too few in one or both, and with enough for any small sheet.
fn some_layers(rng: &mut Rng) -> Layers {
    let any = (rng.below(60), rng.below(60));
    let (even, odd) = rng.pick(&[(0, 0), (0, 120), (120, 0), (120, 120), any]);
    Layers::noise(rng, even, odd)
}

#[test]
fn sheets_with_one_fault() {
    for number in READING {
        for seed in 0..150 {
            let mut rng = Rng::new(seed);
            let sheet = with_fault(&mut rng, number);
            let layers = some_layers(&mut rng);
            let case = format_args!("seed {seed}");
            expect(number, &sheet, Err(number), &layers, case);
            check_own_room(&sheet, Err(number), case);
        }
    }
}

#[test]
fn sheets_with_two_faults() {
    for (earlier, later) in every_two(&all_but_10()) {
        for seed in 0..25 {
            let mut rng = Rng::new(seed);
            let sheet = with_faults(&mut rng, &[earlier, later]);
            let layers = some_layers(&mut rng);
            let case = format_args!("seed {seed}, {earlier} and {later}");
            expect(earlier, &sheet, Err(earlier), &layers, case);
        }
    }
}

/// Compares the pricing of bytes, in some layers and in its own, with the reading and, if they read, the recursion.
fn check_bytes(rng: &mut Rng, sheet: &[u8], times: &mut Times, seed: u64) {
    let due = reading(sheet).map(|_| recurse(&decode(sheet)));
    let due = due.as_ref().map_err(|&number| number);
    let case = format_args!("seed {seed}");
    times.add(check(sheet, due, &some_layers(rng), case));
    check_own_room(sheet, due, case);
}

#[test]
fn one_field_changed() {
    let mut times = Times::default();
    for seed in 0..12 {
        let mut rng = Rng::new(seed);
        let sheet = valid(&mut rng, SMALL);
        let mut written = sheet.written();
        for field in written.fields {
            let now = field.get(&written.bytes);
            for value in other_values(&mut rng, &sheet, &field, now) {
                field.put(&mut written.bytes, value);
                check_bytes(&mut rng, &written.bytes, &mut times, seed);
            }
            field.put(&mut written.bytes, now);
        }
    }
    times.assert_each("answered", &[0, 11, 12, 13, 14, 15, 16, 17, 22], 30);
}

#[test]
fn several_fields_changed() {
    let mut times = Times::default();
    for seed in 0..3_000 {
        let mut rng = Rng::new(seed);
        let sheet = with_changed_fields(&mut rng, 2, 4);
        check_bytes(&mut rng, &sheet, &mut times, seed);
    }
    times.assert_each("answered", &[0, 11, 12, 13, 14, 15, 16, 17, 22], 10);
}

#[test]
fn every_length_of_a_sheet() {
    for seed in 0..8 {
        let mut rng = Rng::new(seed);
        let sheet = valid(&mut rng, SMALL);
        let due = recurse(&sheet);
        let bytes = [sheet.encode(), rng.bytes(9)].concat();
        let whole = bytes.len() - 9;
        let layers = Layers::least(&mut rng, &due);
        for len in 0..=bytes.len() {
            let due = reading(&bytes[..len]).map(|_| &due);
            assert_eq!(due.is_ok(), len == whole, "seed {seed}, {len} bytes");
            check(&bytes[..len], due, &layers, format_args!("seed {seed}"));
        }
    }
}

#[test]
fn random_bytes() {
    let mut times = Times::default();
    for seed in 0..2_000 {
        let mut rng = Rng::new(seed);
        let len = rng.below(200);
        let sheet = rng.bytes(len);
        check_bytes(&mut rng, &sheet, &mut times, seed);
    }
    times.assert_each("answered", &[10, 11], 200);
}
