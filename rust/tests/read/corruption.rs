//! Sheets that read, with one field set to another value, and with several.

use crate::common::check::Tally;
use crate::common::corrupt::{other_values, with_changed_fields};
use crate::common::faulty::all_but_10;
use crate::common::layout::Field;
use crate::common::rng::Rng;
use crate::common::tested::{all_but_the_last, in_order, READING};
use crate::common::valid::{valid, Size, ANY, SMALL};

/// Sets every field of a random sheet, one at a time and at most `fields` of them, to each of its other values.
fn corrupt_each_field(tally: &mut Tally, seed: u64, size: Size, fields: usize) {
    corrupt_each(tally, seed, size, fields, |_| true);
}

/// The same with the tasks of the pairs alone.
fn corrupt_each_pair(tally: &mut Tally, seed: u64, size: Size) {
    const PAIRS: usize = 4;
    corrupt_each(tally, seed, size, usize::MAX, |field| field.body == PAIRS);
}

fn corrupt_each(
    tally: &mut Tally,
    seed: u64,
    size: Size,
    fields: usize,
    is_wanted: fn(&Field) -> bool,
) {
    let mut rng = Rng::new(seed);
    let sheet = valid(&mut rng, size);
    let mut written = sheet.written();
    tally.check_company(&written.bytes, format_args!("seed {seed}"));
    written.fields.retain(is_wanted);
    rng.shuffle(&mut written.fields);
    let mut bytes = written.bytes;
    for field in written.fields.iter().take(fields) {
        let now = field.get(&bytes);
        for value in other_values(&mut rng, &sheet, field, now) {
            field.put(&mut bytes, value);
            let case = format_args!("seed {seed}, {field} {now} set to {value}");
            tally.check_company(&bytes, case);
        }
        field.put(&mut bytes, now);
    }
}

/// What one changed field can lead to. 10 needs another length. A number of entries moves the bodies behind it, so the
/// next offset or the length is wrong too: 12 never comes alone, and 13 may come with what the moved bodies hold. A
/// door's task out of range may leave its task without a door (14 and 15), and a pair out of range is kept by no order
/// (14 and 17). A pair that closes a cycle may also leave a pick-up without its receiver (17 and 16). Every other field
/// brings one fault at most, so 11, 15, 16 and 17 come alone.
fn assert_every_number_met(tally: &Tally, least: usize) {
    tally.assert_met(&[0, 11, 12, 13, 14, 15, 16, 17], least);
    tally.assert_alone(&[11, 13, 14, 15, 16, 17], least);
    let first = |two: [u32; 2]| in_order(&READING, &two)[0];
    let together = [[12, 13], [13, 14], [14, 15], [14, 17], [17, 16]];
    tally.assert_with_later(&together.map(first), least);
}

#[test]
fn one_field_of_a_small_sheet() {
    let mut tally = Tally::default();
    for seed in 0..120 {
        corrupt_each_field(&mut tally, seed, SMALL, usize::MAX);
    }
    let paired = Size {
        tasks: (3, 5),
        pairs: (3, 6),
        ..SMALL
    };
    for seed in 120..600 {
        corrupt_each_pair(&mut tally, seed, paired);
    }
    assert_every_number_met(&tally, 200);
}

#[test]
fn one_field_of_a_sheet_of_any_size() {
    // A task with a single door is rare among many doors, and most fields of many points are distances.
    let few_doors_and_points = Size {
        more_doors: (0, 2),
        points: (1, 3),
        ..ANY
    };
    let mut tally = Tally::default();
    for seed in 1_000..1_015 {
        corrupt_each_field(&mut tally, seed, ANY, 60);
        corrupt_each_field(&mut tally, seed, few_doors_and_points, usize::MAX);
    }
    let few_pairs = Size {
        tasks: (6, 12),
        pairs: (3, 8),
        ..few_doors_and_points
    };
    for seed in 1_015..1_150 {
        corrupt_each_pair(&mut tally, seed, few_pairs);
    }
    assert_every_number_met(&tally, 100);
}

#[test]
fn two_to_five_fields_at_once() {
    let mut tally = Tally::default();
    for seed in 0..30_000 {
        let sheet = with_changed_fields(&mut Rng::new(seed), 2, 5);
        tally.check_company(&sheet, format_args!("seed {seed}"));
    }
    tally.assert_met(&[0, 11, 12, 13, 14, 15, 16, 17], 100);
    tally.assert_alone(&[11, 13, 14, 15, 16, 17], 20);
    tally.assert_with_later(all_but_the_last(&all_but_10()), 10);
}
