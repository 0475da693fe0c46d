//! The calls of the C interface by name: how each is made, and the numbers that it can answer with.

use crate::common::interface;
use crate::common::tested::{
    ACCEPTED, JUDGING, PLANNING, PRICING, READING, READING_A_PLAN, WRITING_A_PLAN,
};

pub type Read = fn(&[u8], &mut u64, &mut u64) -> u32;
pub type PlanSheet = fn(&[u8], &mut [u64], &mut [u8], &mut u64) -> u32;
pub type PriceSheet = fn(&[u8], &mut [u64], &mut [u64], &mut u64, &mut u16) -> u32;
pub type PriceRow = fn(&[u8], &[u64], &[u64], &mut usize, &mut usize) -> u32;
pub type Validate = fn(&[u8], &[u8], &mut u64) -> u32;
pub type WritePlan = fn(usize, u16, &[u16], u64, &mut [u8], &mut usize) -> u32;
pub type ReadPlan = fn(usize, &[u8], &mut u16, &mut [u16], &mut u64) -> u32;

/// The seven calls, or what stands in for them.
#[derive(Clone, Copy)]
pub struct Calls {
    pub read: Read,
    pub plan: PlanSheet,
    pub price: PriceSheet,
    pub price_row: PriceRow,
    pub validate: Validate,
    pub write_plan: WritePlan,
    pub read_plan: ReadPlan,
}

pub const PRODUCT: Calls = Calls {
    read: interface::read,
    plan: interface::plan,
    price: interface::price,
    price_row: interface::price_row,
    validate: interface::validate,
    write_plan: interface::write_plan,
    read_plan: interface::read_plan,
};

#[derive(Clone, Copy, Debug, PartialEq, Eq, PartialOrd, Ord)]
pub enum Call {
    Read,
    Plan,
    Price,
    PriceRow,
    Validate,
    WritePlan,
    ReadPlan,
}

impl Call {
    pub const ALL: [Call; 7] = [
        Call::Read,
        Call::Plan,
        Call::Price,
        Call::PriceRow,
        Call::Validate,
        Call::WritePlan,
        Call::ReadPlan,
    ];

    pub fn name(self) -> &'static str {
        match self {
            Call::Read => "vanplan_read",
            Call::Plan => "vanplan_plan",
            Call::Price => "vanplan_price",
            Call::PriceRow => "vanplan_price_row",
            Call::Validate => "vanplan_validate",
            Call::WritePlan => "vanplan_write_plan",
            Call::ReadPlan => "vanplan_read_plan",
        }
    }

    /// Every number that it can answer with.
    pub fn numbers(self) -> Vec<u32> {
        let refusals = match self {
            Call::Read => READING.to_vec(),
            Call::Plan => [&READING[..], &PLANNING].concat(),
            Call::Price | Call::PriceRow => [&READING[..], &PRICING].concat(),
            Call::Validate => [&READING[..], &JUDGING].concat(),
            Call::WritePlan => WRITING_A_PLAN.to_vec(),
            Call::ReadPlan => READING_A_PLAN.to_vec(),
        };
        [vec![ACCEPTED], refusals].concat()
    }
}
