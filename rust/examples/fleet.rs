//! Plans every sheet of a folder on all cores, and writes each plan to a file of the same name in another folder. An old
//! plan there is replaced, and is removed where the sheet is refused; any other file is left as it is, and its sheet is
//! not planned. Prints a line for each sheet, in the order in which they are done; all are planned whether or not the
//! lines can be printed. What fails is told on standard error.
//! The exit status is 0 for plans, 1 if a sheet is refused, and 2 if anything fails.
//!
//!     cargo run --release --example fleet ../examples ../target/plans

mod console;
mod output;

use console::{ANSWERED, FAILED, REFUSED};
use std::ffi::OsStr;
use std::path::{Path, PathBuf};
use std::process::ExitCode;
use std::sync::atomic::{AtomicUsize, Ordering};
use std::{fs, io, thread};
use vanplan::{Plan, Planner, Refusal, MAX_SHEET_BYTES};

fn main() -> ExitCode {
    console::end(plan_all())
}

fn plan_all() -> console::Result<u8> {
    let arguments = console::arguments();
    let [folder, plans] = &arguments[..] else {
        return Err("usage: fleet SHEETS PLANS".to_string());
    };
    let sheets = sheets_in(folder).map_err(|error| console::named(folder, error))?;
    fs::create_dir_all(plans).map_err(|error| console::named(plans, error))?;
    let next = AtomicUsize::new(0);
    let done: Vec<Done> = thread::scope(|scope| {
        let cores = thread::available_parallelism().map_or(1, usize::from);
        let worker = |_| scope.spawn(|| work(&next, &sheets, plans));
        let workers: Vec<_> = (0..cores).map(worker).collect();
        let joined = workers.into_iter().map(|worker| worker.join());
        joined.map(|done| done.expect("no worker panics")).collect()
    });
    let worst = done.iter().map(|done| done.worst).max();
    done.into_iter().try_for_each(|done| done.printed)?;
    Ok(worst.unwrap_or(ANSWERED))
}

/// The files of the folder that end in `.sheet`.
fn sheets_in(folder: &Path) -> io::Result<Vec<PathBuf>> {
    let files = fs::read_dir(folder)?.map(|entry| entry.map(|e| e.path()));
    let is_sheet = |path: &PathBuf| path.extension() == Some(OsStr::new("sheet"));
    files
        .filter(|file| file.as_ref().map_or(true, is_sheet))
        .collect()
}

/// What has become of the sheets that a worker took: the worst status, and whether all lines were printed.
struct Done {
    worst: u8,
    printed: console::Result<()>,
}

/// Plans the next sheets until there are none.
fn work(next: &AtomicUsize, sheets: &[PathBuf], plans: &Path) -> Done {
    let mut planner = Planner::new();
    let (mut worst, mut printed) = (ANSWERED, Ok(()));
    while let Some(sheet) = sheets.get(next.fetch_add(1, Ordering::Relaxed)) {
        let (status, line) = match plan_one(&mut planner, sheet, plans) {
            Ok(Ok(plan)) => (ANSWERED, plan.to_string()),
            Ok(Err(refusal)) => (REFUSED, refusal.to_string()),
            Err(error) => {
                console::tell(&error);
                worst = FAILED;
                continue;
            }
        };
        worst = worst.max(status);
        let name = sheet.display();
        printed = printed.and_then(|()| console::print(format_args!("{name}: {line}")));
    }
    Done { worst, printed }
}

/// Plans one sheet, and leaves its plan in the other folder, or none where it is refused.
fn plan_one(
    planner: &mut Planner,
    sheet: &Path,
    plans: &Path,
) -> console::Result<Result<Plan, Refusal>> {
    let name = sheet.with_extension("plan");
    let file = plans.join(name.file_name().unwrap_or_default());
    output::look(&file)?;
    let sheet = console::read_file(sheet, MAX_SHEET_BYTES)?;
    let answer = planner.plan(&sheet);
    output::leave(&file, &answer)?;
    Ok(answer)
}
