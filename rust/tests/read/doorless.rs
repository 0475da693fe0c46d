//! Tasks without a door, at every place of the tasks and of the doors.

use crate::common::check::{expect, Tally};
use crate::common::examples::{plain, Entries, MIDDLE};
use crate::common::rng::Rng;
use crate::common::sheet::Sheet;
use crate::common::valid::{valid, ANY};

/// A sheet of so many tasks and doors; the tasks of the doors are to be set.
fn with_doors(tasks: usize, doors: usize) -> Sheet {
    plain(Entries {
        tasks,
        doors,
        pairs: 0,
        ..MIDDLE
    })
}

#[test]
fn one_task_is_left_without_its_only_door() {
    for tasks in 2..=12 {
        for task in 0..tasks as u16 {
            // The doors serve the other tasks in turn.
            let mut lacking = with_doors(tasks, 64);
            for (i, door) in lacking.doors.iter_mut().enumerate() {
                door.task = (task + 1 + (i % (tasks - 1)) as u16) % tasks as u16;
            }
            let case = format_args!("{tasks} tasks, task {task}");
            expect(15, &lacking.encode(), case);
            for only in 0..64 {
                // Door `only` serves this task; the one that loses it has others, since 64 doors are enough.
                let mut served = lacking.clone();
                served.doors[only].task = task;
                let case = format_args!("{tasks} tasks, task {task}, door {only}");
                expect(0, &served.encode(), case);
            }
        }
    }
}

#[test]
fn one_door_for_each_task_is_enough_in_any_order() {
    for seed in 0..5_000 {
        let mut rng = Rng::new(seed);
        let tasks = rng.between(1, 12);
        let mut sheet = with_doors(tasks, tasks);
        for (door, task) in sheet.doors.iter_mut().zip(rng.order(tasks)) {
            door.task = task;
        }
        expect(0, &sheet.encode(), format_args!("seed {seed}"));
        if tasks > 1 {
            let order = rng.order(tasks);
            sheet.doors[usize::from(order[0])].task = sheet.doors[usize::from(order[1])].task;
            expect(
                15,
                &sheet.encode(),
                format_args!("seed {seed}, a door moved"),
            );
        }
    }
}

#[test]
fn fewer_doors_than_tasks_leave_some_task_without_one() {
    for tasks in 2..=12 {
        for doors in 1..tasks {
            let case = format_args!("{tasks} tasks, {doors} doors");
            expect(15, &with_doors(tasks, doors).encode(), case);
        }
    }
}

#[test]
fn doors_of_random_tasks() {
    let mut tally = Tally::default();
    for seed in 0..5_000 {
        let mut rng = Rng::new(seed);
        let mut sheet = valid(&mut rng, ANY);
        let tasks = sheet.tasks.len();
        for door in &mut sheet.doors {
            door.task = rng.below(tasks) as u16;
        }
        tally.check(&sheet.encode(), format_args!("seed {seed}"));
    }
    tally.assert_met(&[0, 15], 1_000);
}
