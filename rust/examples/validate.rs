//! Validates a plan for a task sheet, each in a file, and prints what it costs and what the cheapest costs, or why it is
//! refused. The exit status is 0 if it is accepted, 1 for a refusal, and 2 for anything else.
//!
//!     cargo run --release --example validate ../examples/a.sheet ../examples/a.plan

mod console;

use console::{ANSWERED, REFUSED};
use std::process::ExitCode;
use vanplan::{Refusal, MAX_PLAN_BYTES, MAX_SHEET_BYTES};

fn main() -> ExitCode {
    console::end(validate())
}

fn validate() -> console::Result<u8> {
    let arguments = console::arguments();
    let [sheet, plan] = &arguments[..] else {
        return Err("usage: validate SHEET PLAN".to_string());
    };
    let sheet = console::read_file(sheet, MAX_SHEET_BYTES)?;
    let plan = console::read_file(plan, MAX_PLAN_BYTES)?;
    let (status, line) = match vanplan::validate(&sheet, &plan) {
        Ok(cost) => {
            let cheapest = vanplan::plan(&sheet).map_err(|refusal| refusal.to_string())?;
            (ANSWERED, format!("cost {cost}, cheapest {}", cheapest.cost))
        }
        Err(Refusal::WrongCost) => {
            let line = "a solution, but not at the cost that it states";
            (REFUSED, line.to_string())
        }
        Err(refusal) => (REFUSED, refusal.to_string()),
    };
    console::print(line)?;
    Ok(status)
}
