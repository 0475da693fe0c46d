//! The C interface, typed from `include/vanplan.h` once more and not from the bindings, and each of its calls with lists
//! and numbers of Rust lent by pointer.

extern "C" {
    fn vanplan_read(sheet: *const u8, len: usize, tasks: *mut u64, points: *mut u64) -> u32;

    fn vanplan_write_plan(
        n: usize,
        start: u16,
        doors: *const u16,
        ndoors: usize,
        cost: u64,
        buf: *mut u8,
        len: usize,
        written: *mut usize,
    ) -> u32;

    fn vanplan_read_plan(
        n: usize,
        bytes: *const u8,
        len: usize,
        start: *mut u16,
        doors: *mut u16,
        ndoors: usize,
        cost: *mut u64,
    ) -> u32;

    fn vanplan_validate(
        sheet: *const u8,
        len: usize,
        plan: *const u8,
        plan_len: usize,
        cost: *mut u64,
    ) -> u32;

    fn vanplan_plan(
        sheet: *const u8,
        len: usize,
        cells: *mut u64,
        ncells: usize,
        buf: *mut u8,
        buf_len: usize,
        cost: *mut u64,
    ) -> u32;

    fn vanplan_price(
        sheet: *const u8,
        len: usize,
        even: *mut u64,
        neven: usize,
        odd: *mut u64,
        nodd: usize,
        cost: *mut u64,
        start: *mut u16,
    ) -> u32;

    fn vanplan_price_row(
        sheet: *const u8,
        len: usize,
        even: *const u64,
        neven: usize,
        odd: *const u64,
        nodd: usize,
        layer: *mut usize,
        cells: *mut usize,
    ) -> u32;
}

// SAFETY, of all that follows: a pointer with a length is that of a list, each other one is that of a number, and what
// is written through overlaps nothing, since it is borrowed for that.

pub fn read(sheet: &[u8], tasks: &mut u64, points: &mut u64) -> u32 {
    unsafe { vanplan_read(sheet.as_ptr(), sheet.len(), tasks, points) }
}

pub fn write_plan(
    n: usize,
    start: u16,
    doors: &[u16],
    cost: u64,
    buf: &mut [u8],
    written: &mut usize,
) -> u32 {
    let (ndoors, len) = (doors.len(), buf.len());
    let (doors, buf) = (doors.as_ptr(), buf.as_mut_ptr());
    unsafe { vanplan_write_plan(n, start, doors, ndoors, cost, buf, len, written) }
}

pub fn read_plan(
    n: usize,
    bytes: &[u8],
    start: &mut u16,
    doors: &mut [u16],
    cost: &mut u64,
) -> u32 {
    let (len, ndoors) = (bytes.len(), doors.len());
    let (bytes, doors) = (bytes.as_ptr(), doors.as_mut_ptr());
    unsafe { vanplan_read_plan(n, bytes, len, start, doors, ndoors, cost) }
}

pub fn validate(sheet: &[u8], plan: &[u8], cost: &mut u64) -> u32 {
    let (len, plan_len) = (sheet.len(), plan.len());
    unsafe { vanplan_validate(sheet.as_ptr(), len, plan.as_ptr(), plan_len, cost) }
}

pub fn plan(sheet: &[u8], cells: &mut [u64], buf: &mut [u8], cost: &mut u64) -> u32 {
    let (len, ncells, buf_len) = (sheet.len(), cells.len(), buf.len());
    let (sheet, cells, buf) = (sheet.as_ptr(), cells.as_mut_ptr(), buf.as_mut_ptr());
    unsafe { vanplan_plan(sheet, len, cells, ncells, buf, buf_len, cost) }
}

pub fn price(
    sheet: &[u8],
    even: &mut [u64],
    odd: &mut [u64],
    cost: &mut u64,
    start: &mut u16,
) -> u32 {
    let (len, neven, nodd) = (sheet.len(), even.len(), odd.len());
    let (sheet, even, odd) = (sheet.as_ptr(), even.as_mut_ptr(), odd.as_mut_ptr());
    unsafe { vanplan_price(sheet, len, even, neven, odd, nodd, cost, start) }
}

pub fn price_row(
    sheet: &[u8],
    even: &[u64],
    odd: &[u64],
    layer: &mut usize,
    cells: &mut usize,
) -> u32 {
    let (len, neven, nodd) = (sheet.len(), even.len(), odd.len());
    let (sheet, even, odd) = (sheet.as_ptr(), even.as_ptr(), odd.as_ptr());
    unsafe { vanplan_price_row(sheet, len, even, neven, odd, nodd, layer, cells) }
}
