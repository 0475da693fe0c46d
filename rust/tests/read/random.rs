//! Random sheets that read, and random bytes, from none of them right to all but the entries, so that each depth of the
//! reading is met.

use crate::common::check::{expect, Tally};
use crate::common::layout::{body_number, entries, offset, HEAD, KIND};
use crate::common::reading::decode;
use crate::common::rng::Rng;
use crate::common::sheet::{Door, Rule, Sheet};
use crate::common::tested::{all_but_the_last, in_order, READING};
use crate::common::valid::{valid, ANY, SMALL};

#[test]
fn random_sheets_that_read() {
    for seed in 0..2_000 {
        let mut rng = Rng::new(seed);
        let sheet = valid(&mut rng, if seed % 2 == 0 { SMALL } else { ANY });
        let bytes = sheet.encode();
        expect(0, &bytes, format_args!("seed {seed}"));
        assert_eq!(
            decode(&bytes),
            sheet,
            "the decoder of the tests, seed {seed}"
        );
    }
}

#[test]
fn random_bytes_of_many_lengths() {
    let mut tally = Tally::default();
    for seed in 0..30_000 {
        let mut rng = Rng::new(seed);
        let most = rng.pick(&[HEAD, 60, 200, 1_000]);
        let len = rng.between(0, most);
        tally.check(&rng.bytes(len), format_args!("seed {seed}"));
    }
    tally.assert_met(&[10, 11], 5_000);
}

#[test]
fn random_bytes_of_kind_1() {
    let mut tally = Tally::default();
    for seed in 0..30_000 {
        let mut rng = Rng::new(seed);
        let len = rng.between(2, 300);
        let mut bytes = rng.bytes(len);
        KIND.put(&mut bytes, 1);
        tally.check(&bytes, format_args!("seed {seed}"));
    }
    tally.assert_met(&[10, 12], 3_000);
}

/// Numbers of entries within the table, now and then one too few or too many.
fn random_entries(rng: &mut Rng) -> [u32; 7] {
    let limits = [(1, 12), (1, 64), (1, 16), (0, 32), (0, 32), (1, 64)];
    let mut entries = [0; 7];
    for (count, (fewest, most)) in entries.iter_mut().zip(limits) {
        *count = match rng.below(20) {
            0 => rng.between(0, most + 1),
            1 => rng.pick(&[fewest, most]),
            _ => rng.between(fewest, most),
        } as u32;
    }
    entries[6] = entries[5] * entries[5] + u32::from(rng.one_in(20));
    entries
}

/// Random bytes behind a head that keeps to the table; each other field of the head is right most of the time.
fn random_bodies(rng: &mut Rng) -> Vec<u8> {
    let told = random_entries(rng);
    let mut bytes = rng.bytes(HEAD);
    KIND.put(&mut bytes, if rng.one_in(40) { 2 } else { 1 });
    let mut end = HEAD as u32;
    for line in 1..=7 {
        let wrong = u32::from(rng.one_in(60));
        body_number(line).put(&mut bytes, line as u32 + wrong);
        let wrong = u32::from(rng.one_in(60));
        offset(line).put(&mut bytes, end + wrong);
        entries(line).put(&mut bytes, told[line - 1]);
        end += told[line - 1] * [2, 10, 2, 4, 10, 4, 2][line - 1];
    }
    let wrong = usize::from(rng.one_in(30));
    let body_bytes = end as usize - HEAD + wrong;
    bytes.extend(rng.bytes(body_bytes));
    bytes
}

#[test]
fn random_bodies_behind_heads_of_the_right_shape() {
    let mut tally = Tally::default();
    for seed in 0..6_000 {
        let mut rng = Rng::new(seed);
        let bytes = random_bodies(&mut rng);
        tally.check(&bytes, format_args!("seed {seed}"));
    }
    tally.assert_met(&[11, 12, 13, 14], 100);
}

/// A number below the limit, or now and then the limit itself or one above.
fn mostly_below(rng: &mut Rng, limit: usize) -> u16 {
    let beyond = if rng.one_in(100) { 2 } else { 0 };
    rng.below(limit + beyond) as u16
}

/// A sheet laid out right, in which the entries are drawn without regard for each other.
fn random_entries_laid_out_right(rng: &mut Rng) -> Sheet {
    let (n, p) = (rng.between(1, 9), rng.between(1, 5));
    let d = rng.between(n, (4 * n).min(64));
    let door = |rng: &mut Rng| Door {
        task: mostly_below(rng, n),
        arrival: mostly_below(rng, p),
        departure: mostly_below(rng, p),
        work: rng.u32(),
    };
    let rule = |rng: &mut Rng| Rule {
        door: mostly_below(rng, d),
        watched: mostly_below(rng, 1 << n),
        least: 1 + mostly_below(rng, 12),
        charge: rng.u32(),
    };
    let (starts, pairs, rules) = (rng.between(1, 4), rng.between(0, n), rng.between(0, 4));
    Sheet {
        kind: 1,
        end_load: rng.between(0, 1_000) as u16,
        tasks: (0..n).map(|_| rng.below(500) as i16 - 150).collect(),
        doors: (0..d).map(|_| door(rng)).collect(),
        starts: (0..starts).map(|_| mostly_below(rng, p)).collect(),
        pairs: (0..pairs)
            .map(|_| (mostly_below(rng, n), mostly_below(rng, n)))
            .collect(),
        rules: (0..rules).map(|_| rule(rng)).collect(),
        points: (0..p).map(|_| rng.u32()).collect(),
        distances: (0..p * p).map(|_| rng.u16()).collect(),
    }
}

#[test]
fn random_entries_in_sheets_laid_out_right() {
    let mut tally = Tally::default();
    for seed in 0..22_000 {
        let mut rng = Rng::new(seed);
        let sheet = random_entries_laid_out_right(&mut rng);
        tally.check_company(&sheet.encode(), format_args!("seed {seed}"));
    }
    tally.assert_met(&[0, 14, 15, 16, 17], 500);
    tally.assert_alone(&[14, 15, 16, 17], 250);
    let numbers = in_order(&READING, &[14, 15, 16, 17]);
    tally.assert_with_later(all_but_the_last(&numbers), 150);
}
