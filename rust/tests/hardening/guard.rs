//! The guard itself: one element further and a process is ended, and what stands in front is looked at.

use super::probe::{assert_ends, assert_is_ended};
use crate::common::guarded::{Guarded, CANARY};
use crate::common::lent::Number;
use std::ptr;

const CAPACITY: usize = 3_000;

/// The last element can be read and the one behind it cannot, for any number of elements.
fn ends_where_it_is_lent<T: Number>(mut place: Guarded<T>, any: T) {
    for len in [0, 1, 2, 7, 511, 512, 513, CAPACITY] {
        place.hold(&vec![any; len]);
        let lent = place.lend();
        assert_eq!(lent, vec![any; len]);
        let first = lent.as_ptr();
        if len > 0 {
            // SAFETY: it is the last that was lent.
            assert_ends(|| unsafe {
                ptr::read_volatile(first.add(len - 1));
            });
        }
        // SAFETY: none, and that is what is tried, in a process of its own.
        assert_is_ended(|| unsafe {
            ptr::read_volatile(first.add(len));
        });
        assert_is_ended(|| unsafe { ptr::write_volatile(first.cast_mut().add(len), any) });
    }
}

#[test]
fn nothing_behind_can_be_touched() {
    ends_where_it_is_lent(Guarded::to_read(CAPACITY), 7_u8);
    ends_where_it_is_lent(Guarded::to_read(CAPACITY), 7_u16);
    ends_where_it_is_lent(Guarded::to_read(CAPACITY), 7_u64);
    ends_where_it_is_lent(Guarded::to_write(CAPACITY), 7_u8);
    ends_where_it_is_lent(Guarded::to_write(CAPACITY), 7_u16);
    ends_where_it_is_lent(Guarded::to_write(CAPACITY), 7_u64);
    ends_where_it_is_lent(Guarded::to_write(CAPACITY), 7_usize);
}

#[test]
fn what_is_lent_to_be_read_cannot_be_written() {
    let mut place = Guarded::to_read(CAPACITY);
    place.hold(&[1_u8, 2, 3]);
    let first = place.lend().as_ptr().cast_mut();
    for at in [0, 2] {
        // SAFETY: none, and that is what is tried, in a process of its own.
        assert_is_ended(|| unsafe { ptr::write_volatile(first.add(at), 9) });
    }
    // It can be held anew all the same.
    place.hold(&[4, 5]);
    assert_eq!(place.lend(), [4, 5]);
}

#[test]
fn every_byte_of_the_canary_counts() {
    let mut place = Guarded::to_write(CAPACITY);
    for len in [0, 1, 9] {
        for before in 1..=CANARY.len() {
            let content = vec![5_u16; len];
            place.hold(&content);
            place
                .expect("place", &content)
                .expect("nothing was touched");
            let first = place.lend_mut().as_mut_ptr().cast::<u8>();
            // SAFETY: the canary is part of the same memory.
            unsafe { *first.sub(before) ^= 1 };
            let noticed = place.expect("place", &content).expect_err("it was touched");
            assert!(noticed.contains("in front"), "{noticed}");
        }
    }
}

#[test]
fn every_element_counts() {
    let mut place = Guarded::to_write(CAPACITY);
    let content: Vec<u64> = (0..40).collect();
    for at in 0..content.len() {
        place.hold(&content);
        place.lend_mut()[at] += 100;
        let noticed = place.expect("place", &content).expect_err("another number");
        let due = format!("place: element {at} is {}, and not {at}", at + 100);
        assert_eq!(noticed, due);
    }
}
