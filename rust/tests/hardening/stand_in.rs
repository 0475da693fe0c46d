//! What stands in for one of the product's calls.

use crate::common::fuzzing::calls::{
    Call, Calls, PlanSheet, PriceRow, PriceSheet, Read, ReadPlan, Validate, WritePlan, PRODUCT,
};

/// The call that is stood in for, and all seven.
pub type StandIn = (Call, Calls);

pub fn read(read: Read) -> StandIn {
    (Call::Read, Calls { read, ..PRODUCT })
}

pub fn plan(plan: PlanSheet) -> StandIn {
    (Call::Plan, Calls { plan, ..PRODUCT })
}

pub fn price(price: PriceSheet) -> StandIn {
    (Call::Price, Calls { price, ..PRODUCT })
}

pub fn price_row(price_row: PriceRow) -> StandIn {
    let calls = Calls {
        price_row,
        ..PRODUCT
    };
    (Call::PriceRow, calls)
}

pub fn validate(validate: Validate) -> StandIn {
    let calls = Calls {
        validate,
        ..PRODUCT
    };
    (Call::Validate, calls)
}

pub fn write_plan(write_plan: WritePlan) -> StandIn {
    let calls = Calls {
        write_plan,
        ..PRODUCT
    };
    (Call::WritePlan, calls)
}

pub fn read_plan(read_plan: ReadPlan) -> StandIn {
    let calls = Calls {
        read_plan,
        ..PRODUCT
    };
    (Call::ReadPlan, calls)
}
