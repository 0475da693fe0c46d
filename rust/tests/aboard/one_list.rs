//! One list alone has a load below zero, each of all the lists in turn.
//!
//! Where w is -1 for the tasks of the list K and 1 for the others, a list has a load of E less one for each task that it
//! shares with K, and one more for each other task. With E one less than K has tasks, that is below zero for K alone.

use super::calls::{accept, refuse};
use crate::common::check::expect;
use crate::common::examples::{plain, Entries, FEWEST};
use crate::common::finishing::recurse;
use crate::common::lists::{is_allowed, loads};
use crate::common::rng::Rng;
use crate::common::sheet::Sheet;

type Pair = (u16, u16);

fn size(list: usize) -> u16 {
    list.count_ones() as u16
}

fn sheet(tasks: usize, list: usize, end_load: u16, pairs: &[Pair]) -> Sheet {
    let change = |task: usize| if list >> task & 1 == 1 { -1 } else { 1 };
    Sheet {
        end_load,
        tasks: (0..tasks).map(change).collect(),
        pairs: pairs.to_vec(),
        ..plain(Entries {
            tasks,
            doors: tasks,
            ..FEWEST
        })
    }
}

/// A random sender and another task as its receiver, each of them held by the list or not, as asked; nothing where there
/// is no such task.
fn pair(rng: &mut Rng, tasks: usize, list: usize, held: (bool, bool)) -> Option<Pair> {
    let mut order = rng.order(tasks);
    let is_held = |task: u16| list >> task & 1 == 1;
    let sender = *order.iter().find(|&&task| is_held(task) == held.0)?;
    order.retain(|&task| task != sender);
    let receiver = *order.iter().find(|&&task| is_held(task) == held.1)?;
    Some((sender, receiver))
}

/// Without pairs, and with each kind of pair: a sender in the list whose receiver is not makes it one that is not
/// essential, and no other pair does.
fn try_list(rng: &mut Rng, tasks: usize, list: usize) {
    let too_little = size(list) - 1;
    let case = format_args!("{tasks} tasks, list {list}");
    let expect = |number, end_load, pairs: &[Pair]| {
        let bytes = sheet(tasks, list, end_load, pairs).encode();
        expect(number, &bytes, format_args!("{case}, pairs {pairs:?}"));
    };
    expect(16, too_little, &[]);
    expect(0, too_little + 1, &[]);
    for (number, held) in [
        (0, (true, false)),
        (16, (true, true)),
        (16, (false, true)),
        (16, (false, false)),
    ] {
        if let Some(pair) = pair(rng, tasks, list, held) {
            expect(number, too_little, &[pair]);
        }
    }
}

#[test]
fn no_other_list_is_too_light() {
    for list in 1..4_096 {
        let loads = loads(&sheet(12, list, size(list) - 1, &[]));
        let light: Vec<usize> = (0..4_096).filter(|&k| loads[k] < 0).collect();
        assert_eq!((light, loads[list]), (vec![list], -1));
    }
}

#[test]
fn each_of_4096_lists_of_twelve_tasks() {
    for list in 1..4_096 {
        try_list(&mut Rng::new(list as u64), 12, list);
    }
}

#[test]
fn each_list_of_fewer_tasks() {
    for tasks in 1..=8 {
        for list in 1..1 << tasks {
            for seed in 0..4 {
                try_list(&mut Rng::new(seed), tasks, list);
            }
        }
    }
}

/// The full list is essential whatever the pairs are, so none of them makes up for its load.
#[test]
fn the_full_list_with_any_pairs() {
    for tasks in 1..=12 {
        let full_list = (1 << tasks) - 1;
        let chain: Vec<Pair> = (1..tasks as u16).map(|task| (task, task - 1)).collect();
        for pairs in [&chain[..], &chain[chain.len() / 2..], &[]] {
            for (number, end_load) in [(16, tasks as u16 - 1), (0, tasks as u16)] {
                let bytes = sheet(tasks, full_list, end_load, pairs).encode();
                expect(number, &bytes, format_args!("{tasks} tasks, {pairs:?}"));
            }
        }
    }
}

/// Every call on some of the sheets of twelve tasks: planned where a pair keeps the list from being open, refused where
/// none does.
#[test]
fn planned_or_refused() {
    for seed in 0..60 {
        let mut rng = Rng::new(seed);
        let list = rng.between(1, 4_094);
        let too_little = size(list) - 1;
        let case = format_args!("seed {seed}, list {list}");
        let open = sheet(12, list, too_little, &[]);
        refuse(&mut rng, 16, &open, case);
        let pair = pair(&mut rng, 12, list, (true, false)).expect("not the full list");
        let kept = sheet(12, list, too_little, &[pair]);
        assert!(kept.old_16_applies() && !is_allowed(&kept, list), "{case}");
        accept(&mut rng, &kept, &recurse(&kept), case);
    }
}
