//! Pricing: the product against planning, its own and the plain enumeration of `common`, everything lent included, and
//! for large sheets against a recursion that the tests of planning compare with the enumeration.

#[path = "../common/mod.rs"]
mod common;

mod calls;
mod damage;
mod extremes;
mod kept;
mod large;
mod lent;
mod noise;
mod sheet_a;
mod sizes;
mod small;
