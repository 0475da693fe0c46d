//! vanplan plans delivery rounds for vans, and validates plans made by others. This package is the safe interface to the
//! proved code, which it links as a static library.
//!
//! A round is a task sheet, as bytes: its tasks, doors, starts, pairs, access rules, points and distances. Its cheapest
//! plan is a [`Plan`], whose bytes any unit can take and anyone can validate:
//!
//! ```
//! let sheet = std::fs::read("../examples/a.sheet")?;
//! let plan = vanplan::plan(&sheet)?;
//! assert_eq!(plan, vanplan::Plan { start: 0, doors: vec![0, 1], cost: 92 });
//! assert_eq!(plan.validate(&sheet)?, 92);
//! # Ok::<(), Box<dyn std::error::Error>>(())
//! ```
//!
//! - [`plan`] and [`Planner`], which keeps its memory from round to round, find the cheapest plan.
//! - [`price`](price()) and [`Pricer`] find what that plan costs and its start, without the plan and in less memory.
//! - [`read`] tells a sheet's numbers of tasks and points, or why it is none.
//! - [`validate`], or [`Plan::validate`], says whether a plan does every task once, keeps every pair, and costs what it
//!   states.
//! - [`Plan::to_bytes`] and [`Plan::from_bytes`] write and read a plan.
//! - [`raw`] has the seven calls of the C interface, over memory that the caller lends.
//!
//! Every call answers any bytes, keeps nothing from one call to the next and may be made from several threads at once;
//! what it refuses, it refuses with a [`Refusal`]. Nothing panics, unless another library is linked than the one of this
//! version and answers with a number of its own. The layout of a sheet and of a plan is in `include/vanplan.h`.
//!
//! Planning and pricing take up to 42 KB of stack, and each other call up to 2 KB.

#![deny(missing_docs)]
#![deny(unsafe_op_in_unsafe_fn)]

mod cells;
mod ffi;
mod limits;
mod plan;
mod planner;
mod price;
pub mod raw;
mod refusal;
mod sheet;
mod validate;

pub use limits::{
    MAX_CELLS, MAX_LAYER_CELLS, MAX_PLAN_BYTES, MAX_PLAN_DOORS, MAX_SHEET_BYTES, VERSION,
};
pub use plan::Plan;
pub use planner::{plan, Planner};
pub use price::{price, Price, Pricer};
pub use refusal::Refusal;
pub use sheet::{read, Counts};
pub use validate::validate;
