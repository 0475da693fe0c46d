//! The tests' own view of 16: the essential lists are those that are open on the way along some order that keeps every
//! pair, so 16 is for a sheet where a leg of some such order has a load below zero.

use crate::common::lists::{essential, load, some_essential_is_too_light};
use crate::common::reading::faults;
use crate::common::rng::Rng;
use crate::common::sheet::Sheet;
use crate::common::valid::{valid, SMALL};
use std::collections::BTreeSet;

/// Every list that is open before a step of an order that keeps every pair: at each step any task is done of which no
/// sender is open.
fn open_on_the_way(sheet: &Sheet) -> BTreeSet<usize> {
    let full_list = (1 << sheet.tasks.len()) - 1;
    let mut open = BTreeSet::from([full_list]);
    let mut next = vec![full_list];
    while let Some(list) = next.pop() {
        for rest in after_a_step(sheet, list) {
            if rest != 0 && open.insert(rest) {
                next.push(rest);
            }
        }
    }
    open
}

fn after_a_step(sheet: &Sheet, list: usize) -> Vec<usize> {
    let is_open = |task: u16| list >> task & 1 == 1;
    let waits = |task: u16| {
        let mut pairs = sheet.pairs.iter();
        pairs.any(|&(sender, receiver)| receiver == task && is_open(sender))
    };
    let tasks = 0..sheet.tasks.len() as u16;
    let ready = tasks.filter(|&task| is_open(task) && !waits(task));
    ready.map(|task| list & !(1 << task)).collect()
}

#[test]
fn the_essential_lists_are_open_on_the_way() {
    let mut light = [0; 2];
    for seed in 0..3_000 {
        let mut rng = Rng::new(seed);
        let mut sheet = valid(&mut rng, SMALL);
        sheet.end_load = rng.below(1_000) as u16;
        let on_the_way = open_on_the_way(&sheet);
        assert!(on_the_way.iter().eq(&essential(&sheet)), "seed {seed}");
        let too_light = on_the_way.iter().any(|&list| load(&sheet, list) < 0);
        assert_eq!(some_essential_is_too_light(&sheet), too_light);
        assert_eq!(faults(&sheet.encode()).contains(&16), too_light);
        light[usize::from(too_light)] += 1;
    }
    assert!(light.iter().all(|&sheets| sheets > 500), "{light:?}");
}
