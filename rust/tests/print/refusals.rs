//! Every refusal that the program can print: each number alone, and the first in the order in which they are tested
//! where several apply.

use super::program::{check, refuses};
use crate::common::examples::{plain, sheet_a, Entries, FEWEST};
use crate::common::faulty::{
    all_but_10, can_come_together, make_too_light, short_with_faults, with_fault, with_faults,
};
use crate::common::layout::{body_number, entries, offset, KIND};
use crate::common::reading::faults;
use crate::common::rng::Rng;
use crate::common::sheet::Sheet;
use crate::common::tested::{every_two, READING};
use crate::common::valid::{valid, Size, ANY};

#[test]
fn each_number_alone() {
    for number in READING {
        for seed in 0..25 {
            let input = with_fault(&mut Rng::new(seed), number);
            let case = format_args!("seed {seed}");
            assert_eq!(faults(&input), [number], "{case}");
            refuses(number, &input, case);
        }
    }
}

#[test]
fn the_first_of_two() {
    let mut pairs = every_two(&READING);
    pairs.retain(|&(earlier, later)| can_come_together(earlier, later));
    assert_eq!(pairs.len(), 24, "{pairs:?}");
    for (earlier, later) in pairs {
        for seed in 0..6 {
            let mut rng = Rng::new(seed);
            let input = match (earlier, later) {
                (10, other) | (other, 10) => short_with_faults(&mut rng, &[other]),
                _ => with_faults(&mut rng, &[earlier, later]),
            };
            let case = format_args!("seed {seed}");
            assert_eq!(faults(&input), [earlier, later], "{case}");
            refuses(earlier, &input, case);
        }
    }
}

#[test]
fn the_first_of_many() {
    let numbers = all_but_10();
    for (place, &first) in numbers.iter().enumerate() {
        let many = &numbers[place..];
        for seed in 0..6 {
            let input = with_faults(&mut Rng::new(seed), many);
            let case = format_args!("seed {seed}");
            assert_eq!(faults(&input), many, "{case}");
            refuses(first, &input, case);
        }
    }
}

/// More than 4,096 cells are needed: 2^7 times 33 or more.
const TOO_LARGE: Size = Size {
    tasks: (7, 12),
    points: (33, 64),
    ..ANY
};

#[test]
fn too_few_cells() {
    for seed in 0..30 {
        let sheet = valid(&mut Rng::new(seed), TOO_LARGE).encode();
        let case = format_args!("seed {seed}");
        assert_eq!(check(&sheet, case), 20, "{case}");
    }
}

/// 2^N times P is at most 4,096 up to six tasks. As few entries of every other body as there can be.
#[test]
fn as_many_cells_as_there_are_and_more() {
    for (number, tasks, points) in [
        (0, 1, 64),
        (0, 5, 64),
        (0, 6, 64),
        (0, 7, 32),
        (20, 7, 33),
        (20, 8, 17),
        (20, 9, 9),
        (20, 10, 5),
        (0, 11, 2),
        (20, 11, 3),
        (0, 12, 1),
        (20, 12, 2),
        (20, 12, 64),
    ] {
        let sheet = plain(Entries {
            tasks,
            doors: tasks,
            points,
            distances: points * points,
            ..FEWEST
        });
        let case = format_args!("{tasks} tasks, {points} points");
        assert_eq!(check(&sheet.encode(), case), number, "{case}");
    }
}

/// A sheet that needs too many cells, with a fault of its own: the number of the fault comes first.
#[test]
fn too_few_cells_and_a_fault() {
    for seed in 0..5 {
        let sheet = valid(&mut Rng::new(seed), TOO_LARGE);
        let with = |change: &dyn Fn(&mut Sheet)| {
            let mut changed = sheet.clone();
            change(&mut changed);
            changed.encode()
        };
        let whole = sheet.encode();
        let (tasks, points) = (sheet.tasks.len() as u16, sheet.points.len() as u16);
        let door = sheet.doors[0];
        for (number, input) in [
            (10, whole[..45].to_vec()),
            (11, with(&|sheet| sheet.kind = 2)),
            (12, with(&|sheet| sheet.doors.resize(65, door))),
            (13, [&whole[..], &[0]].concat()),
            (13, whole[..whole.len() - 1].to_vec()),
            (14, with(&|sheet| sheet.starts[0] = points)),
            (14, with(&|sheet| sheet.doors[0].arrival = points)),
            (14, with(&|sheet| sheet.pairs = vec![(0, tasks)])),
            (15, with(&|sheet| give_away_task_0(sheet))),
            (
                16,
                with(&|sheet| make_too_light(&mut Rng::new(seed), sheet)),
            ),
            (17, with(&|sheet| sheet.pairs = vec![(0, 1), (1, 0)])),
        ] {
            refuses(number, &input, format_args!("seed {seed}"));
        }
    }
}

fn give_away_task_0(sheet: &mut Sheet) {
    for door in sheet.doors.iter_mut().filter(|door| door.task == 0) {
        door.task = 1;
    }
}

/// Each of these fields of sheet A is set to a value that is wrong for it.
#[test]
fn one_field_of_sheet_a() {
    let written = sheet_a().written();
    let of_door = |name: &str| {
        let mut fields = written.fields.iter();
        let field = fields.find(|field| field.body == 2 && field.name == name);
        *field.expect("a field of door 0")
    };
    for (number, field, value) in [
        (11, KIND, 0),
        (11, KIND, 2),
        (11, KIND, 257),
        (12, entries(1), 0),
        (12, entries(1), 13),
        (12, entries(2), 0),
        (12, entries(2), 65),
        (12, entries(3), 0),
        (12, entries(3), 17),
        (12, entries(4), 33),
        (12, entries(5), 33),
        (12, entries(6), 0),
        (12, entries(6), 65),
        (12, entries(7), 8),
        (13, entries(1), 1),
        (13, body_number(1), 0),
        (13, body_number(7), 8),
        (13, offset(1), 45),
        (13, offset(7), 85),
        (14, of_door("task"), 2),
        (14, of_door("arrival point"), 3),
        (14, of_door("departure point"), 0xffff),
        (15, of_door("task"), 1),
    ] {
        let mut input = written.bytes.clone();
        field.put(&mut input, value);
        refuses(number, &input, format_args!("{field} set to {value}"));
    }
}
