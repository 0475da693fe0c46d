//! A pricer that is kept from round to round: one that is refused leaves it as it was.

use crate::common::lively::small;
use crate::common::pricing::row;
use crate::common::reading::reading;
use crate::common::rng::Rng;
use crate::common::rounds::enumerate;
use vanplan::{Pricer, Refusal};

#[test]
fn a_refused_round_changes_nothing() {
    let mut pricer = Pricer::new();
    assert_eq!(pricer.price(&[]), Err(Refusal::TooShort));
    assert_eq!(pricer.costs_to_finish(), []);
    let mut last = Vec::new();
    let mut refused = 0;
    for seed in 0..600 {
        let mut rng = Rng::new(seed);
        let mut sheet = small(&mut rng);
        if rng.one_in(3) {
            sheet.pairs.push((0, 0));
        }
        let bytes = sheet.encode();
        let priced = pricer.price(&bytes);
        match reading(&bytes) {
            Ok(_) => last = row(&enumerate(&sheet).0),
            Err(number) => {
                assert_eq!(priced.map_err(Refusal::number), Err(number), "seed {seed}");
                refused += 1;
            }
        }
        assert_eq!(pricer.costs_to_finish(), last, "seed {seed}");
    }
    assert!((100..500).contains(&refused), "{refused}");
}
