//! The C interface of the static library, as `include/vanplan.h` documents it; [`raw`](crate::raw) alone calls it.
//!
//! `rust/tests/declarations.rs` holds these declarations, and those of the header, to the source of the exports.

extern "C" {
    pub fn vanplan_read(sheet: *const u8, len: usize, tasks: *mut u64, points: *mut u64) -> u32;

    pub fn vanplan_plan(
        sheet: *const u8,
        len: usize,
        cells: *mut u64,
        ncells: usize,
        buf: *mut u8,
        buf_len: usize,
        cost: *mut u64,
    ) -> u32;

    pub fn vanplan_price(
        sheet: *const u8,
        len: usize,
        even: *mut u64,
        neven: usize,
        odd: *mut u64,
        nodd: usize,
        cost: *mut u64,
        start: *mut u16,
    ) -> u32;

    pub fn vanplan_price_row(
        sheet: *const u8,
        len: usize,
        even: *const u64,
        neven: usize,
        odd: *const u64,
        nodd: usize,
        layer: *mut usize,
        cells: *mut usize,
    ) -> u32;

    pub fn vanplan_validate(
        sheet: *const u8,
        len: usize,
        plan: *const u8,
        plan_len: usize,
        cost: *mut u64,
    ) -> u32;

    pub fn vanplan_write_plan(
        n: usize,
        start: u16,
        doors: *const u16,
        ndoors: usize,
        cost: u64,
        buf: *mut u8,
        buf_len: usize,
        written: *mut usize,
    ) -> u32;

    pub fn vanplan_read_plan(
        n: usize,
        bytes: *const u8,
        len: usize,
        start: *mut u16,
        doors: *mut u16,
        ndoors: usize,
        cost: *mut u64,
    ) -> u32;
}
