//! The files of `examples/`: each sheet is the one that is meant, and what the print program is said to print for it is
//! what the independent planning finds.

mod common;

use common::examples::{
    sheet_a, sheet_a_with_end_load, sheet_a_with_end_load_and_pairs, sheet_a_with_pairs,
    sheet_a_with_rule, PLAN_OF_A,
};
use common::finishing::recurse;
use common::plan::Plan;
use common::pricing::{price, row};
use common::printing::{plan_lines, refusal_line, sheet_to_plan};
use common::sheet::Sheet;
use common::town::{eight, twelve};
use std::fs;
use std::path::{Path, PathBuf};

const README: &str = include_str!("../../README.md");

/// Every sheet of the folder, by name.
fn sheets() -> Vec<(&'static str, Vec<u8>)> {
    let mut torn = eight().encode();
    torn.truncate(500);
    let end_load_2_pair = sheet_a_with_end_load_and_pairs(2, &[(1, 0)]);
    vec![
        ("a", sheet_a().encode()),
        ("a-charge-34", sheet_a_with_rule(2, 1, 34).encode()),
        ("a-charge-50", sheet_a_with_rule(2, 1, 50).encode()),
        ("a-cycle", sheet_a_with_pairs(&[(0, 1), (1, 0)]).encode()),
        ("a-end-load-2", sheet_a_with_end_load(2).encode()),
        ("a-end-load-2-pair", end_load_2_pair.encode()),
        ("a-end-load-3", sheet_a_with_end_load(3).encode()),
        ("a-pair", sheet_a_with_pairs(&[(1, 0)]).encode()),
        ("a-self-pair", sheet_a_with_pairs(&[(0, 0)]).encode()),
        ("eight", eight().encode()),
        ("torn", torn),
        ("twelve", twelve().encode()),
    ]
}

/// What the print program prints.
fn printed(sheet: &[u8]) -> String {
    match sheet_to_plan(sheet) {
        Ok(sheet) => plan_lines(&sheet, &recurse(&sheet).plan),
        Err(number) => refusal_line(number),
    }
}

fn root() -> PathBuf {
    Path::new(env!("CARGO_MANIFEST_DIR")).join("..")
}

/// Whether the file holds these bytes; if not, one that does is left under target/.
fn holds(name: &str, due: &[u8]) -> bool {
    let held = fs::read(root().join("examples").join(name));
    if held.is_ok_and(|bytes| bytes == due) {
        return true;
    }
    let folder = root().join("target").join("examples");
    let written = fs::create_dir_all(&folder).and_then(|()| fs::write(folder.join(name), due));
    written.expect("target/ can be written");
    false
}

#[test]
fn every_file_is_the_one_that_is_meant() {
    let mut files = vec![("a.plan".to_string(), PLAN_OF_A.to_vec())];
    for (name, sheet) in sheets() {
        files.push((format!("{name}.txt"), printed(&sheet).into_bytes()));
        files.push((format!("{name}.sheet"), sheet));
    }
    files.retain(|(name, due)| !holds(name, due));
    let names: Vec<&String> = files.iter().map(|file| &file.0).collect();
    assert!(
        names.is_empty(),
        "{names:?}: due is what target/examples/ has"
    );
}

#[test]
fn no_other_sheet_is_there() {
    let files = fs::read_dir(root().join("examples")).expect("the folder");
    let paths = files.map(|file| file.expect("a file").path());
    let sheets_there = paths.filter(|path| path.extension().is_some_and(|e| e == "sheet"));
    let stem = |path: PathBuf| path.file_stem().map(|stem| stem.to_os_string());
    let mut names: Vec<_> = sheets_there.filter_map(stem).collect();
    names.sort();
    let due: Vec<&str> = sheets().iter().map(|sheet| sheet.0).collect();
    assert_eq!(names, due);
}

/// What the README says of the two rounds, and documents 01 and 02 of sheet A's neighbours.
#[test]
fn they_are_what_is_said_of_them() {
    let sizes = |sheet: &Sheet| (sheet.tasks.len(), sheet.points.len());
    assert_eq!(sizes(&eight()), (8, 16));
    assert_eq!(sizes(&twelve()).0, 12);
    for sheet in [eight(), twelve()] {
        assert!(!sheet.pairs.is_empty() && !sheet.rules.is_empty());
        assert!(sheet.tasks.iter().any(|&w| w < 0));
    }
    for (name, line) in [
        ("a", "cost 92"),
        ("a-charge-34", "cost 126"),
        ("a-charge-50", "cost 126"),
        ("a-cycle", "refused 17"),
        ("a-end-load-2", "refused 16"),
        ("a-end-load-2-pair", "cost 70"),
        ("a-end-load-3", "cost 50"),
        ("a-pair", "cost 126"),
        ("a-self-pair", "refused 17"),
        ("eight", "cost 1806815"),
        ("torn", "refused 13"),
        ("twelve", "refused 20"),
    ] {
        let sheet = sheets().into_iter().find(|sheet| sheet.0 == name);
        let (_, sheet) = sheet.expect("one of the sheets");
        assert_eq!(printed(&sheet).lines().next(), Some(line), "{name}");
        let row = |row: &&str| row.contains(&format!("`{name}`")) && row.contains(line);
        assert!(
            README.lines().any(|line| row(&line)),
            "the README on {name}"
        );
    }
}

/// The library plans the round that the print program has too few cells for.
#[test]
fn the_readme_has_the_plan_of_twelve() {
    let Plan { start, doors, cost } = recurse(&twelve()).plan;
    let doors: String = doors.iter().map(|door| format!(" {door}")).collect();
    let line = format!("cost {cost} start {start} doors{doors}");
    assert!(README.lines().any(|l| l == line), "{line}");
}

/// And what pricing sheet A finds.
#[test]
fn the_readme_has_the_price_of_a() {
    let due = recurse(&sheet_a());
    let (cost, start) = price(&due.plan);
    let by_point: String = row(&due).iter().map(|cost| format!(" {cost}")).collect();
    let line = format!("cost {cost} start {start} by point{by_point}");
    assert!(README.lines().any(|l| l == line), "{line}");
}
