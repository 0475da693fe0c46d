//! Reading a task sheet: the product against the plain reading of `common`, in thousands of cases of each kind.

#[path = "../common/mod.rs"]
mod common;

mod alone_and_together;
mod corruption;
mod counts;
mod doorless;
mod head;
mod lengths;
mod load;
mod pairs;
mod random;
mod ranges;
mod sheet_a;
