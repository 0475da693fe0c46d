//! The least end load that is enough, and those beside it, for up to twelve tasks with random pairs.

use crate::common::check::Tally;
use crate::common::lists::least_end_load;
use crate::common::rng::Rng;
use crate::common::valid::{valid, Size, SMALL};

const PAIRED: Size = Size {
    tasks: (2, 12),
    pairs: (1, 16),
    ..SMALL
};

#[test]
fn around_the_least() {
    let mut tally = Tally::default();
    let mut read_now = 0;
    for seed in 0..3_000 {
        let mut sheet = valid(&mut Rng::new(seed), PAIRED);
        let least = least_end_load(&sheet);
        for by in -2..=2 {
            let Ok(end_load) = u16::try_from(least + by) else {
                continue;
            };
            sheet.end_load = end_load;
            let case = format_args!("seed {seed}, E {end_load}");
            let number = tally.check(&sheet.encode(), case);
            assert_eq!(number, if by < 0 { 16 } else { 0 }, "{case}");
            read_now += usize::from(number == 0 && sheet.old_16_applies());
        }
    }
    tally.assert_met(&[0, 16], 4_000);
    assert!(read_now > 4_000, "{read_now} that the old 16 refused");
}
