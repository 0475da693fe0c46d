//! Memory to lend that ends where a page begins that cannot be touched: a call that reads or writes further is ended by a
//! signal. In front of what is lent to be written stands a canary. What is lent to be read is a second view of the same
//! memory, which cannot be written, so that writing to it ends a call too.

use super::lent::{mmap, munmap, Number, READ_WRITE};
use std::ffi::c_char;
use std::fs::File;
use std::marker::PhantomData;
use std::os::fd::{AsRawFd, FromRawFd};
use std::{ptr, slice};

extern "C" {
    fn memfd_create(name: *const c_char, flags: u32) -> i32;
}

/// The size of a page on x86-64.
const PAGE: usize = 4_096;

const NOT_TO_BE_TOUCHED: i32 = 0;
const READ_ONLY: i32 = 0x1;
/// Addresses of no file, with no memory behind them.
const RESERVED: i32 = 0x2 | 0x20;
/// A file's own memory, at this address and no other.
const SHARED_THERE: i32 = 0x1 | 0x10;

/// What stands in front of the lent elements: no two neighbouring bytes, or numbers, are the same.
pub const CANARY: [u8; 64] = {
    let mut canary = [0; 64];
    let mut i = 0;
    while i < canary.len() {
        canary[i] = (37 * i + 0x5a) as u8;
        i += 1;
    }
    canary
};

/// The whole of a file in memory, with a page behind it that cannot be touched.
struct View {
    at: *mut u8,
    size: usize,
}

impl View {
    fn of(file: &File, size: usize, access: i32) -> View {
        let whole = size + PAGE;
        // SAFETY: new addresses are asked for, and the file is put over all of them but the last page.
        let (at, put) = unsafe {
            let at = mmap(ptr::null_mut(), whole, NOT_TO_BE_TOUCHED, RESERVED, -1, 0);
            assert_ne!(at.addr(), usize::MAX, "{whole} bytes of addresses");
            let put = mmap(at, size, access, SHARED_THERE, file.as_raw_fd(), 0);
            (at, put)
        };
        assert_eq!(put, at, "a view of {size} bytes");
        View { at, size }
    }

    /// Where the page begins that cannot be touched.
    fn end(&self) -> *mut u8 {
        self.at.wrapping_add(self.size)
    }
}

impl Drop for View {
    fn drop(&mut self) {
        // SAFETY: it was given with this size, and whatever was lent of it is returned.
        let returned = unsafe { munmap(self.at, self.size + PAGE) };
        assert_eq!(returned, 0, "the memory is returned");
    }
}

/// A place for elements that are lent to a call, up to a number of them.
pub struct Guarded<T> {
    own: View,
    lent: View,
    may_be_written: bool,
    /// How many elements it holds now.
    len: usize,
    elements: PhantomData<T>,
}

impl<T: Number> Guarded<T> {
    pub fn to_read(capacity: usize) -> Guarded<T> {
        Guarded::with_access(capacity, READ_ONLY)
    }

    pub fn to_write(capacity: usize) -> Guarded<T> {
        Guarded::with_access(capacity, READ_WRITE)
    }

    fn with_access(capacity: usize, access: i32) -> Guarded<T> {
        let size = (CANARY.len() + capacity * size_of::<T>()).next_multiple_of(PAGE);
        // SAFETY: the name ends with 0, and the number is that of a new file which nothing else closes.
        let file = unsafe {
            let file = memfd_create(c"lent".as_ptr(), 0);
            assert!(file >= 0, "a file in memory");
            File::from_raw_fd(file)
        };
        file.set_len(size as u64).expect("room for what is lent");
        Guarded {
            own: View::of(&file, size, READ_WRITE),
            lent: View::of(&file, size, access),
            may_be_written: access == READ_WRITE,
            len: 0,
            elements: PhantomData,
        }
    }

    /// Holds these elements, the last at the very end, with the canary in front of the first.
    pub fn hold(&mut self, content: &[T]) {
        let size = size_of_val(content);
        let room = self.own.size - CANARY.len();
        assert!(size <= room, "{size} bytes to be lent, room for {room}");
        // SAFETY: both fit in front of the end, and neither can overlap memory that was mapped for this alone.
        unsafe {
            let first = self.own.end().sub(size);
            ptr::copy_nonoverlapping(content.as_ptr().cast(), first, size);
            let before = first.sub(CANARY.len());
            ptr::copy_nonoverlapping(CANARY.as_ptr(), before, CANARY.len());
        }
        self.len = content.len();
    }

    pub fn lend(&self) -> &[T] {
        // SAFETY: so many elements were put there, and the end of a page is a place for any number.
        unsafe { slice::from_raw_parts(self.first(), self.len) }
    }

    pub fn lend_mut(&mut self) -> &mut [T] {
        assert!(self.may_be_written, "lent to be read");
        // SAFETY: as above, and the view is this one's own.
        unsafe { slice::from_raw_parts_mut(self.first(), self.len) }
    }

    /// The only element.
    pub fn lend_one(&mut self) -> &mut T {
        assert_eq!(self.len, 1);
        &mut self.lend_mut()[0]
    }

    fn first(&self) -> *mut T {
        self.lent.end().cast::<T>().wrapping_sub(self.len)
    }

    fn canary(&self) -> &[u8] {
        let before = self.first().cast::<u8>().wrapping_sub(CANARY.len());
        // SAFETY: it was put there with the elements.
        unsafe { slice::from_raw_parts(before, CANARY.len()) }
    }

    /// The canary is as it was, or else that it is not.
    pub fn expect_front(&self, name: &str) -> Result<(), String> {
        if self.canary() != CANARY {
            return Err(format!("{name}: written in front of what was lent"));
        }
        Ok(())
    }

    /// These elements are held now and the canary is as it was, or else what is not.
    pub fn expect(&self, name: &str, due: &[T]) -> Result<(), String> {
        self.expect_front(name)?;
        let held = self.lend();
        if held == due {
            return Ok(());
        }
        assert_eq!(held.len(), due.len(), "{name}: as many as were lent");
        let differs = |&at: &usize| held[at] != due[at];
        let at = (0..due.len()).find(differs).expect("not the same");
        let (is, due) = (held[at], due[at]);
        Err(format!("{name}: element {at} is {is:?}, and not {due:?}"))
    }
}
