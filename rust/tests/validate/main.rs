//! Validating a plan: the product against the plain judge of `common`, over every plan of small sheets and many others.

#[path = "../common/mod.rs"]
mod common;

mod alone_and_together;
mod calls;
mod costs;
mod damage;
mod every_plan;
mod extremes;
mod lent;
mod owned;
mod random;
mod refused_sheets;
mod sheet_a;
mod values;

use common::plans;
