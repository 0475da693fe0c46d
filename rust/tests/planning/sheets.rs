//! Random sheets to plan: small ones with many rounds of equal cost, and some that are refused.

use crate::common::lists::least_end_load;
use crate::common::reading::reading;
use crate::common::rng::Rng;
use crate::common::rounds::{enumerate, Due, Ties};
use crate::common::sheet::Sheet;

pub use crate::common::lively::small;

/// Now and then a pair that no order keeps beside the others, or an end load that is too small.
pub fn small_or_refused(rng: &mut Rng) -> Sheet {
    let mut sheet = small(rng);
    if rng.one_in(8) {
        let any = rng.below(sheet.tasks.len()) as u16;
        let (sender, receiver) = sheet.pairs.first().copied().unwrap_or((any, any));
        sheet.pairs.push((receiver, sender));
    }
    if rng.one_in(8) {
        sheet.end_load = (least_end_load(&sheet) - 1).max(0) as u16;
    }
    sheet
}

/// What planning gives, by enumeration, or the number that reading the sheet gives.
pub fn due(sheet: &Sheet) -> Result<(Due, Ties), u32> {
    reading(&sheet.encode())?;
    Ok(enumerate(sheet))
}
