//! What the tests share: sheets and plans made in Rust, a reading, a judging and a planning of them written from
//! documents 01 and 02 alone, a pricing from 02, the comparison of readings, and the hardening of every call.

// Every test program covers its own calls, and none of them uses all of this.
#![allow(dead_code)]

pub mod check;
pub mod coding;
pub mod corrupt;
pub mod examples;
pub mod faulty;
pub mod finishing;
pub mod fuzzing;
pub mod guarded;
pub mod interface;
pub mod judging;
pub mod layout;
pub mod lent;
pub mod lists;
pub mod lively;
pub mod orders;
pub mod plan;
pub mod plans;
pub mod pricing;
pub mod printing;
pub mod reading;
pub mod rng;
pub mod room;
pub mod rounds;
pub mod sheet;
pub mod tally;
pub mod tested;
pub mod town;
pub mod valid;
