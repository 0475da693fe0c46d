//! Hardening: mutated sheets and plans through every call of the C interface, with memory that ends at a page that cannot
//! be touched, against the independent implementation; and that the guard and the comparison notice what they must.
//! `./fuzz` does the same with other cases for as long as one likes.

#[path = "../common/mod.rs"]
mod common;

mod cases;
mod guard;
mod outside;
mod probe;
mod stand_in;
mod ties;
mod wrong;
