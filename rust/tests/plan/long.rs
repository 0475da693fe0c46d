//! Lists far longer than a plan, with lengths that are too short, or right, in their low 8, 16 or 32 bits.

use super::calls::{expect_read, expect_write};
use crate::common::interface;
use crate::common::lent::lend_long;
use crate::common::plan::{plan_len, random_doors, Plan, MOST_TASKS};
use crate::common::rng::Rng;

/// Less than any plan needs, in the low 8 or 16 bits.
const LONG: [usize; 6] = [256, 256 + 5, 512, 65_536, 65_536 + 1, 2 * 65_536];

#[test]
fn long_buffers() {
    for n in 1..=MOST_TASKS {
        let mut rng = Rng::new(n as u64);
        let plan = Plan::random(&mut rng, n);
        for len in LONG {
            expect_write(0, n, &plan, &rng.bytes(len), format_args!("long buffer"));
        }
    }
}

#[test]
fn plans_with_a_long_tail() {
    for n in 1..=MOST_TASKS {
        let mut rng = Rng::new(n as u64);
        let doors = random_doors(&mut rng, n);
        for more in LONG {
            let mut bytes = Plan::random(&mut rng, n).encode();
            bytes.resize(plan_len(n) + more, 0);
            let case = format_args!("{more} bytes behind it");
            expect_read(30, n, &bytes, &doors, case);
        }
    }
}

#[test]
fn many_doors() {
    for n in 1..=MOST_TASKS {
        let mut rng = Rng::new(n as u64);
        let bytes = Plan::random(&mut rng, n).encode();
        for doors in LONG {
            let plan = Plan::random(&mut rng, doors);
            let noise = rng.bytes(plan_len(n));
            expect_write(0, n, &plan, &noise, format_args!("many doors"));
            expect_read(0, n, &bytes, &plan.doors, format_args!("many doors"));
        }
    }
}

#[test]
fn a_buffer_that_is_too_short_in_its_low_32_bits() {
    let plan = Plan::random(&mut Rng::new(1), 3);
    lend_long((1 << 32) + 5, |buf: &mut [u8]| {
        let mut written = 0;
        let number =
            interface::write_plan(3, plan.start, &plan.doors, plan.cost, buf, &mut written);
        assert_eq!((number, written), (0, 38));
        assert_eq!(buf[..38], plan.encode());
        assert_eq!(buf[38..1_000], [0; 962]);
    });
}

#[test]
fn a_plan_that_is_as_long_as_due_in_its_low_32_bits() {
    let plan = Plan::random(&mut Rng::new(2), 3);
    lend_long((1 << 32) + 38, |bytes: &mut [u8]| {
        bytes[..38].copy_from_slice(&plan.encode());
        let (mut start, mut doors, mut cost) = (1, [2, 3, 4], 5);
        let number = interface::read_plan(3, bytes, &mut start, &mut doors, &mut cost);
        assert_eq!((number, start, doors, cost), (30, 1, [2, 3, 4], 5));
        let number = interface::read_plan(3, &bytes[..38], &mut start, &mut doors, &mut cost);
        assert_eq!((number, start, cost), (0, plan.start, plan.cost));
        assert_eq!(doors[..], plan.doors);
    });
}

#[test]
fn doors_that_are_too_few_in_their_low_32_bits() {
    let plan = Plan::random(&mut Rng::new(3), 3);
    lend_long((1 << 32) + 2, |doors: &mut [u16]| {
        doors[..3].copy_from_slice(&plan.doors);
        let (mut buf, mut written) = ([0xff; 38], 0);
        let number = interface::write_plan(3, plan.start, doors, plan.cost, &mut buf, &mut written);
        assert_eq!((number, written), (0, 38));
        assert_eq!(buf[..], plan.encode());
    });
}
