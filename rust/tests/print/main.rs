//! The print program: what it prints against lines made from the enumeration and the recursion of `common`, for
//! standard input of every kind.

#[path = "../common/mod.rs"]
mod common;

#[path = "../planning/sheets.rs"]
mod sheets;

mod cells;
mod damage;
mod figures;
mod lengths;
mod pieces;
mod program;
mod refusals;
mod sheet_a;
mod small;
mod unreadable;
