//! The lightest load at zero and below. There are no pairs, so that every list is essential, and the lightest is that of
//! all pick-ups: E plus all negative w.

use crate::common::check::{expect, Tally};
use crate::common::examples::{plain, Entries, MIDDLE};
use crate::common::rng::Rng;
use crate::common::sheet::Sheet;

fn with_loads(end_load: u16, loads: &[i16]) -> Vec<u8> {
    let sheet = plain(Entries {
        tasks: loads.len(),
        doors: 12,
        pairs: 0,
        ..MIDDLE
    });
    let tasks = loads.to_vec();
    Sheet {
        end_load,
        tasks,
        ..sheet
    }
    .encode()
}

fn try_loads(number: u32, end_load: u16, loads: &[i16]) {
    let case = format_args!("E {end_load}, w {loads:?}");
    expect(number, &with_loads(end_load, loads), case);
}

#[test]
fn one_task_of_every_load_change() {
    for w in i16::MIN..=i16::MAX {
        if w >= 0 {
            try_loads(0, 0, &[w]);
            continue;
        }
        let picked_up = w.unsigned_abs();
        try_loads(0, picked_up, &[w]);
        try_loads(16, picked_up - 1, &[w]);
    }
}

#[test]
fn deliveries_do_not_make_up_for_pick_ups() {
    // The deliveries may all be done while the pick-ups are still open, so only the negative w count.
    try_loads(16, 0, &[-1, i16::MAX]);
    try_loads(16, 0, &[i16::MAX, -1]);
    try_loads(0, 1, &[i16::MAX, -1, i16::MAX]);
    try_loads(16, 4, &[-2, 100, -3]);
    try_loads(0, 5, &[-2, 100, -3]);
}

#[test]
fn sums_beyond_16_bits() {
    const MIN: i16 = i16::MIN;
    try_loads(0, 65_535, &[MIN, MIN + 1]);
    try_loads(16, 65_534, &[MIN, MIN + 1]);
    // Two times 32,768 is 0 in 16 bits.
    for tasks in 2..=12 {
        for end_load in [0, 1, 32_767, 32_768, 65_535] {
            try_loads(16, end_load, &vec![MIN; tasks]);
        }
    }
    try_loads(0, 0, &[i16::MAX; 12]);
    try_loads(0, 65_535, &[i16::MAX; 12]);
}

#[test]
fn a_pick_up_counts_at_every_place() {
    for tasks in 1..=12 {
        for place in 0..tasks {
            let mut loads = vec![7; tasks];
            loads[place] = -9;
            try_loads(0, 9, &loads);
            try_loads(16, 8, &loads);
        }
    }
}

#[test]
fn lightest_loads_around_zero() {
    let mut tally = Tally::default();
    for seed in 0..8_000 {
        let mut rng = Rng::new(seed);
        let tasks = rng.between(1, 12);
        let reach = rng.pick(&[3, 300, 5_000]);
        let mut loads = Vec::new();
        for _ in 0..tasks {
            loads.push(rng.between(0, 2 * reach) as i16 - reach as i16);
        }
        let picked_up: i64 = loads.iter().map(|&w| -i64::from(w.min(0))).sum();
        for by in -2..=2 {
            let Ok(end_load) = u16::try_from(picked_up + by) else {
                continue;
            };
            let case = format_args!("seed {seed}, E {end_load}, w {loads:?}");
            let number = tally.check(&with_loads(end_load, &loads), case);
            assert_eq!(number, if by < 0 { 16 } else { 0 }, "{case}");
        }
    }
    tally.assert_met(&[0, 16], 10_000);
}
