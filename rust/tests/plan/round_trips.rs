//! Round trips of the package's own plan: what is written is read as it was, and what reads as a plan is written as the
//! same bytes.

use super::calls::owned;
use crate::common::check::hex;
use crate::common::plan::{head, plan_len, Plan, HEAD, MOST_TASKS};
use crate::common::rng::Rng;
use vanplan::Refusal;

#[test]
fn written_and_then_read() {
    for seed in 0..30_000 {
        let mut rng = Rng::new(seed);
        let n = rng.between(1, MOST_TASKS);
        let plan = owned(&Plan::random(&mut rng, n));
        let bytes = plan.to_bytes().expect("1 to 12 doors");
        let read = vanplan::Plan::from_bytes(&bytes);
        assert_eq!(read, Ok(plan), "seed {seed}: {}", hex(&bytes));
    }
}

/// Reads bytes as a plan and writes what was read; nothing if they are refused with 30.
fn read_and_written(bytes: &[u8]) -> Option<Vec<u8>> {
    let plan = match vanplan::Plan::from_bytes(bytes) {
        Err(Refusal::IllFormed) => return None,
        answer => answer.expect("no other refusal is possible"),
    };
    Some(plan.to_bytes().expect("as many doors as were read"))
}

/// The head of a plan and random bytes behind it.
fn well_formed(rng: &mut Rng) -> Vec<u8> {
    let n = rng.between(1, MOST_TASKS);
    let bodies = rng.bytes(plan_len(n) - HEAD);
    [head(n), bodies].concat()
}

#[test]
fn read_and_then_written() {
    for seed in 0..10_000 {
        let bytes = well_formed(&mut Rng::new(seed));
        let again = read_and_written(&bytes);
        assert_eq!(again.as_ref(), Some(&bytes), "seed {seed}: {}", hex(&bytes));
    }
}

#[test]
fn damaged_and_then_read_and_written() {
    let mut times = [0; 2];
    for seed in 0..20_000 {
        let mut rng = Rng::new(seed);
        let mut bytes = well_formed(&mut rng);
        let at = rng.below(bytes.len());
        bytes[at] ^= rng.between(1, 255) as u8;
        let again = read_and_written(&bytes);
        let due = Some(&bytes).filter(|_| at >= HEAD);
        assert_eq!(again.as_ref(), due, "seed {seed}: {}", hex(&bytes));
        times[usize::from(again.is_some())] += 1;
    }
    assert!(times.iter().all(|&times| times > 5_000), "{times:?}");
}

/// The length tells the number of doors, so that each length but twelve is refused.
#[test]
fn every_length_up_to_200() {
    for len in 0..200usize {
        let doors = len.saturating_sub(plan_len(0)) / 2;
        let mut bytes = head(doors);
        bytes.resize(len, 7);
        let plan = vanplan::Plan::from_bytes(&bytes).map(|plan| plan.doors.len());
        let due = match (34..=56).contains(&len) && len % 2 == 0 {
            true => Ok(doors),
            false => Err(Refusal::IllFormed),
        };
        assert_eq!(plan, due, "{len} bytes");
    }
}
