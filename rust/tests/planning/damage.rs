//! Damaged sheets: planning answers what reading answers and leaves everything, whatever room is lent; and sheets that
//! still read after the damage are planned.

use super::calls::{check, check_own_room, expect, Room};
use super::sheets::due;
use crate::common::corrupt::{other_values, with_changed_fields};
use crate::common::faulty::{all_but_10, with_fault, with_faults};
use crate::common::finishing::recurse;
use crate::common::reading::{decode, reading};
use crate::common::rng::Rng;
use crate::common::tally::Times;
use crate::common::tested::{every_two, READING};
use crate::common::valid::{valid, SMALL};

/// Rooms with nothing in them, with too little, and with enough for any small sheet.
fn some_room(rng: &mut Rng) -> Room {
    let any = (rng.below(600), rng.below(80));
    let (cells, plan) = rng.pick(&[(0, 0), (0, 56), (640, 0), (640, 56), any]);
    Room::noise(rng, cells, plan)
}

#[test]
fn sheets_with_one_fault() {
    for number in READING {
        for seed in 0..400 {
            let mut rng = Rng::new(seed);
            let sheet = with_fault(&mut rng, number);
            let room = some_room(&mut rng);
            let case = format_args!("seed {seed}");
            expect(number, &sheet, Err(number), &room, case);
            check_own_room(&sheet, Err(number), case);
        }
    }
}

#[test]
fn sheets_with_two_faults() {
    for (earlier, later) in every_two(&all_but_10()) {
        for seed in 0..60 {
            let mut rng = Rng::new(seed);
            let sheet = with_faults(&mut rng, &[earlier, later]);
            let room = some_room(&mut rng);
            let case = format_args!("seed {seed}, {earlier} and {later}");
            expect(earlier, &sheet, Err(earlier), &room, case);
        }
    }
}

/// Compares the planning of bytes, in some room and in its own, with the reading and, if they read, the recursion.
fn check_bytes(rng: &mut Rng, sheet: &[u8], times: &mut Times, seed: u64) {
    let due = reading(sheet).map(|_| recurse(&decode(sheet)));
    let due = due.as_ref().map_err(|&number| number);
    let case = format_args!("seed {seed}");
    times.add(check(sheet, due, &some_room(rng), case));
    check_own_room(sheet, due, case);
}

#[test]
fn one_field_changed() {
    let mut times = Times::default();
    for seed in 0..40 {
        let mut rng = Rng::new(seed);
        let sheet = valid(&mut rng, SMALL);
        let mut written = sheet.written();
        for field in written.fields {
            let now = field.get(&written.bytes);
            for value in other_values(&mut rng, &sheet, &field, now) {
                field.put(&mut written.bytes, value);
                check_bytes(&mut rng, &written.bytes, &mut times, seed);
            }
            field.put(&mut written.bytes, now);
        }
    }
    times.assert_each("answered", &[0, 11, 12, 13, 14, 15, 16, 17, 20, 21], 100);
}

#[test]
fn several_fields_changed() {
    let mut times = Times::default();
    for seed in 0..8_000 {
        let mut rng = Rng::new(seed);
        let sheet = with_changed_fields(&mut rng, 2, 4);
        check_bytes(&mut rng, &sheet, &mut times, seed);
    }
    times.assert_each("answered", &[0, 11, 12, 13, 14, 15, 16, 17, 20, 21], 30);
}

#[test]
fn every_length_of_a_sheet() {
    for seed in 0..20 {
        let mut rng = Rng::new(seed);
        let sheet = valid(&mut rng, SMALL);
        let (due, _) = due(&sheet).expect("a sheet that reads");
        let bytes = [sheet.encode(), rng.bytes(9)].concat();
        let whole = bytes.len() - 9;
        let room = Room::least(&mut rng, &due);
        for len in 0..=bytes.len() {
            let due = match reading(&bytes[..len]) {
                Ok(_) => Ok(&due),
                Err(number) => Err(number),
            };
            assert_eq!(due.is_ok(), len == whole, "seed {seed}, {len} bytes");
            check(&bytes[..len], due, &room, format_args!("seed {seed}"));
        }
    }
}

#[test]
fn random_bytes() {
    let mut times = Times::default();
    for seed in 0..5_000 {
        let mut rng = Rng::new(seed);
        let len = rng.below(200);
        let sheet = rng.bytes(len);
        check_bytes(&mut rng, &sheet, &mut times, seed);
    }
    times.assert_each("answered", &[10, 11], 500);
}
