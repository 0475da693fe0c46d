//! The count of cheapest solutions by recursion, against plain enumeration.

use crate::common::finishing::{recurse, recurse_and_count};
use crate::common::lively::small;
use crate::common::rng::Rng;
use crate::common::rounds::enumerate;

/// The enumeration counts those from the first of the cheapest starts, so with one start it counts all.
#[test]
fn as_many_as_are_enumerated() {
    let mut tied = 0;
    for seed in 0..600 {
        let mut sheet = small(&mut Rng::new(seed));
        let (_, ties) = enumerate(&sheet);
        let (due, solutions) = recurse_and_count(&sheet);
        assert_eq!(due, recurse(&sheet), "seed {seed}");
        let several = ties.starts > 1 || ties.doors > 1;
        assert_eq!(solutions > 1, several, "seed {seed}: {solutions}, {ties:?}");
        tied += usize::from(several);
        sheet.starts.truncate(1);
        let (_, ties) = enumerate(&sheet);
        let (_, solutions) = recurse_and_count(&sheet);
        assert_eq!(solutions, ties.doors as u64, "seed {seed}");
    }
    assert!((100..500).contains(&tied), "{tied}");
}
