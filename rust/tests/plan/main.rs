//! Plans as bytes: writing and reading by the product against the layout of `common`, everything lent included.

#[path = "../common/mod.rs"]
mod common;

mod calls;
mod damage;
mod layout;
mod lent;
mod long;
mod round_trips;
mod sizes;
