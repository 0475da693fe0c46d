//! Pairs that some order keeps, and pairs that none does: chains, cycles, repetitions, and every graph of four tasks.

use crate::common::check::{expect, Tally};
use crate::common::examples::{plain, Entries, MIDDLE};
use crate::common::orders::reached;
use crate::common::rng::Rng;
use crate::common::sheet::Sheet;
use crate::common::valid::pairs;

type Pair = (u16, u16);

fn with_pairs(tasks: usize, pairs: &[Pair]) -> Vec<u8> {
    let sheet = plain(Entries {
        tasks,
        doors: tasks,
        pairs: 0,
        ..MIDDLE
    });
    let pairs = pairs.to_vec();
    Sheet { pairs, ..sheet }.encode()
}

fn try_pairs(number: u32, tasks: usize, pairs: &[Pair], seed: u64) {
    let case = format_args!("seed {seed}, {tasks} tasks, pairs {pairs:?}");
    expect(number, &with_pairs(tasks, pairs), case);
}

/// Each task of the list is sender to the next.
fn chain(tasks: &[u16]) -> Vec<Pair> {
    tasks.windows(2).map(|two| (two[0], two[1])).collect()
}

fn shuffled(rng: &mut Rng, pairs: &[Pair]) -> Vec<Pair> {
    let mut pairs = pairs.to_vec();
    rng.shuffle(&mut pairs);
    pairs
}

#[test]
fn every_set_of_pairs_of_up_to_four_tasks() {
    // How many graphs without a cycle there are on n numbered nodes is known: 1, 3, 25, 543 (OEIS A003024).
    for (tasks, kept) in [(1, 1), (2, 3), (3, 25), (4, 543)] {
        let all: Vec<Pair> = (0..tasks)
            .flat_map(|sender| (0..tasks).map(move |receiver| (sender, receiver)))
            .collect();
        let mut read = 0;
        let mut tally = Tally::default();
        for set in 0u32..1 << all.len() {
            let in_set = |&i: &usize| set >> i & 1 == 1;
            let pairs: Vec<Pair> = (0..all.len()).filter(in_set).map(|i| all[i]).collect();
            let case = format_args!("{tasks} tasks, pairs {pairs:?}");
            let number = tally.check(&with_pairs(tasks.into(), &pairs), case);
            read += usize::from(number == 0);
        }
        tally.assert_met(&[0, 17], 1);
        assert_eq!(read, kept, "sheets of {tasks} tasks that were read");
    }
}

#[test]
fn chains_of_twelve_tasks_and_the_pair_that_closes_them() {
    for seed in 0..2_000 {
        let mut rng = Rng::new(seed);
        let order = rng.order(12);
        let mut pairs = chain(&order);
        try_pairs(0, 12, &shuffled(&mut rng, &pairs), seed);
        pairs.push((order[0], order[11]));
        try_pairs(0, 12, &shuffled(&mut rng, &pairs), seed);
        pairs[11] = (order[11], order[0]);
        try_pairs(17, 12, &shuffled(&mut rng, &pairs), seed);
    }
}

#[test]
fn cycles_of_every_length_and_each_of_their_pairs_left_out() {
    for seed in 0..2_400 {
        let mut rng = Rng::new(seed);
        let length = 1 + seed as usize % 12;
        let order = rng.order(12);
        let mut cycle = chain(&order[..length]);
        cycle.push((order[length - 1], order[0]));
        try_pairs(17, 12, &shuffled(&mut rng, &cycle), seed);
        for left_out in 0..length {
            let mut rest = shuffled(&mut rng, &cycle);
            rest.remove(left_out);
            try_pairs(0, 12, &rest, seed);
        }
    }
}

#[test]
fn random_pairs_along_an_order_and_one_turned_into_a_cycle() {
    for seed in 0..5_000 {
        let mut rng = Rng::new(seed);
        let mut pairs = pairs(&mut rng, 12, (2, 31));
        try_pairs(0, 12, &pairs, seed);
        let first = rng.pick(&pairs).0;
        let last = rng.pick(&reached(first, &pairs));
        let place = rng.between(0, pairs.len());
        pairs.insert(place, (first, last));
        try_pairs(0, 12, &pairs, seed);
        pairs[place] = (last, first);
        try_pairs(17, 12, &pairs, seed);
    }
}

#[test]
fn a_task_paired_with_itself_at_every_place() {
    for tasks in 2..=12 {
        for place in 0..32 {
            for task in 0..tasks as u16 {
                let mut pairs = vec![(0, 1); 32];
                pairs[place] = (task, task);
                let case = format_args!("{tasks} tasks, pair {place} is task {task} twice");
                expect(17, &with_pairs(tasks, &pairs), case);
            }
        }
    }
    expect(17, &with_pairs(1, &[(0, 0)]), format_args!("the only task"));
}

#[test]
fn repeated_pairs() {
    for seed in 0..3_000 {
        let mut rng = Rng::new(seed);
        let tasks = rng.between(2, 12);
        let some = pairs(&mut rng, tasks, (1, 4));
        let mut pairs: Vec<Pair> = (0..32).map(|_| rng.pick(&some)).collect();
        try_pairs(0, tasks, &pairs, seed);
        let place = rng.between(1, 31);
        pairs[place] = (pairs[0].1, pairs[0].0);
        try_pairs(17, tasks, &pairs, seed);
    }
}

#[test]
fn random_pairs_of_any_tasks() {
    let mut tally = Tally::default();
    for seed in 0..10_000 {
        let mut rng = Rng::new(seed);
        let tasks = rng.between(2, 12);
        let count = rng.between(1, tasks + 2);
        let pairs: Vec<Pair> = (0..count)
            .map(|_| (rng.below(tasks) as u16, rng.below(tasks) as u16))
            .collect();
        let case = format_args!("seed {seed}, {tasks} tasks, {pairs:?}");
        tally.check(&with_pairs(tasks, &pairs), case);
    }
    tally.assert_met(&[0, 17], 2_000);
}
