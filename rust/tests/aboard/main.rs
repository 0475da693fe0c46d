//! Crates that are taken aboard in the round: sheets whose end load is less than all pick-ups together, which the old 16
//! refused, against the plain enumeration over all lists. Some are read, planned, priced and validated now; the others
//! are refused with 17 and with 16, tested in this order.

#[path = "../common/mod.rs"]
mod common;

// Not all that the tests of these calls compare is compared here.
#[allow(dead_code)]
#[path = "../planning/calls.rs"]
mod planning;
#[allow(dead_code)]
#[path = "../price/calls.rs"]
mod pricing;
#[allow(dead_code)]
#[path = "../validate/calls.rs"]
mod validating;

mod along_orders;
mod calls;
mod chains;
mod end_loads;
mod large;
mod one_list;
mod sheet_a;
mod small;
mod sums;
