//! No answer hangs on what stood before: the same sheet with other numbers in everything that is lent.

use super::calls::{check, expect, needed, Room};
use super::sheets::{due, small};
use crate::common::rng::Rng;
use vanplan::plan;

/// Rooms of the same size that hold nothing, ones, random numbers, small numbers, or what planning leaves.
fn rooms(rng: &mut Rng, cells: usize, plan: usize) -> Vec<Room> {
    let filled = |cell: u64, byte: u8| Room {
        cells: vec![cell; cells],
        plan: vec![byte; plan],
        cost: cell,
    };
    let mut small = Room::noise(rng, cells, plan);
    small.cells.fill_with(|| rng.next() % 8);
    small.plan.fill_with(|| rng.next() as u8 % 3);
    let large = filled(u64::MAX, 0xff);
    let signed = filled(i64::MAX as u64, 0x7f);
    let any = Room::noise(rng, cells, plan);
    vec![filled(0, 0), filled(1, 1), large, signed, small, any]
}

/// Where a list is not essential, its cells may hold less than any cost; they are not looked at.
#[test]
fn the_same_whatever_was_lent() {
    let mut with_other_lists = 0;
    for seed in 0..600 {
        let mut rng = Rng::new(seed);
        let sheet = small(&mut rng);
        let (due, _) = due(&sheet).expect("a sheet that reads");
        with_other_lists += usize::from(due.cells.contains(&None));
        let bytes = sheet.encode();
        let (cells, plan) = needed(&due);
        for (cells, plan) in [(cells, plan), (cells + rng.below(9), plan + rng.below(9))] {
            for room in rooms(&mut rng, cells, plan) {
                expect(0, &bytes, Ok(&due), &room, format_args!("seed {seed}"));
            }
        }
    }
    assert!(with_other_lists > 200, "{with_other_lists}");
}

/// What one sheet left is lent to the next, and the second time to the same: nothing changes any more.
#[test]
fn one_sheet_after_the_other_in_the_same_room() {
    let mut rng = Rng::new(1);
    let mut room = Room::noise(&mut rng, 200, 60);
    for seed in 0..400 {
        let mut rng = Rng::new(seed);
        let sheet = small(&mut rng);
        let (due, _) = due(&sheet).expect("a sheet that reads");
        let bytes = sheet.encode();
        for _ in 0..2 {
            let number = check(&bytes, Ok(&due), &room, format_args!("seed {seed}"));
            assert_eq!(number, 0, "seed {seed}");
            (_, room) = room.after(Ok(&due));
        }
    }
}

#[test]
fn the_same_from_one_call_to_the_next() {
    for seed in 0..300 {
        let mut rng = Rng::new(seed);
        let (one, other) = (small(&mut rng).encode(), small(&mut rng).encode());
        let first = plan(&one);
        plan(&other).expect("a sheet that reads");
        assert_eq!(plan(&one), first, "seed {seed}");
    }
}
