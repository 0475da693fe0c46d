//! Plans a task sheet from standard input, writes the plan to a file, and prints its cost, start and doors, or why the
//! sheet is refused. An old plan in that file is replaced, and is removed where the sheet is refused: no old plan stands
//! for a new sheet. Anything else that is there is left as it is, and nothing is planned.
//! The exit status is 0 for a plan, 1 for a refusal, and 2 for anything else.
//!
//!     cargo run --release --example plan ../target/new.plan < ../examples/a.sheet

mod console;
mod output;

use console::{ANSWERED, REFUSED};
use std::io::stdin;
use std::process::ExitCode;
use vanplan::MAX_SHEET_BYTES;

fn main() -> ExitCode {
    console::end(plan())
}

fn plan() -> console::Result<u8> {
    let arguments = console::arguments();
    let [file] = &arguments[..] else {
        return Err("usage: plan PLAN < SHEET".to_string());
    };
    // First, so that a sheet that is named as the output is neither lost nor planned.
    output::look(file)?;
    let sheet = console::read(stdin(), MAX_SHEET_BYTES);
    let sheet = sheet.map_err(|error| format!("standard input: {error}"))?;
    let answer = vanplan::plan(&sheet);
    output::leave(file, &answer)?;
    match answer {
        Ok(plan) => console::print(plan).map(|()| ANSWERED),
        Err(refusal) => console::print(refusal).map(|()| REFUSED),
    }
}
