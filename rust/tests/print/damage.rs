//! Damaged sheets and random bytes: what reading says of them is printed, and those that still read are planned.

use super::program::check;
use crate::common::corrupt::with_changed_fields;
use crate::common::layout::KIND;
use crate::common::rng::Rng;
use crate::common::tally::Times;

#[test]
fn several_fields_changed() {
    let mut times = Times::default();
    for seed in 0..500 {
        let input = with_changed_fields(&mut Rng::new(seed), 1, 3);
        times.add(check(&input, format_args!("seed {seed}")));
    }
    times.assert_each("printed", &[0, 11, 12, 13, 14, 15, 16, 17], 4);
}

#[test]
fn random_bytes() {
    let mut times = Times::default();
    for seed in 0..120 {
        let mut rng = Rng::new(seed);
        let most = rng.pick(&[46, 100, 9_700]);
        let len = rng.below(most);
        let mut input = rng.bytes(len);
        if len > 1 && rng.one_in(2) {
            KIND.put(&mut input, 1);
        }
        times.add(check(&input, format_args!("seed {seed}")));
    }
    times.assert_each("printed", &[10, 11, 12], 20);
}
