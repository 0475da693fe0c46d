//! What is lent to a call: numbers and lists from the middle of longer lists, so that a write outside of them shows, and
//! lists longer than memory.

use std::any::type_name_of_val;
use std::fmt::{Arguments, Debug};
use std::fs::OpenOptions;
use std::io::Write;
use std::{env, ptr, slice};

/// Numbers of which any bits are a value.
pub trait Number: Copy + PartialEq + Debug {}
impl Number for u8 {}
impl Number for u16 {}
impl Number for u64 {}
impl Number for usize {}

/// A number that is lent, with one before it and one behind.
#[derive(Clone, Copy, Debug, PartialEq)]
pub struct Place<T>([T; 3]);

impl<T: Copy> Place<T> {
    pub fn filled(mut any: impl FnMut() -> T) -> Place<T> {
        Place([any(), any(), any()])
    }

    pub fn lend(&mut self) -> &mut T {
        &mut self.0[1]
    }

    /// The same with another number between the two.
    pub fn holding(self, number: T) -> Place<T> {
        Place([self.0[0], number, self.0[2]])
    }
}

/// Elements before a lent list and behind it; odd, so that bytes are lent at an odd address.
const MARGIN: usize = 9;

pub struct Lent<T> {
    whole: Vec<T>,
    around: T,
    from: usize,
    to: usize,
}

impl<T: Number> Lent<T> {
    pub fn new(content: &[T], around: T) -> Lent<T> {
        Lent::shifted(0, content, around)
    }

    /// The same, so many elements further on.
    pub fn shifted(shift: usize, content: &[T], around: T) -> Lent<T> {
        let from = MARGIN + shift;
        let mut whole = vec![around; from];
        whole.extend(content);
        whole.extend([around; MARGIN]);
        let to = from + content.len();
        Lent {
            whole,
            around,
            from,
            to,
        }
    }

    pub fn lend(&mut self) -> &mut [T] {
        &mut self.whole[self.from..self.to]
    }

    /// The lent list as it is now; what stands around it has to be as it was.
    pub fn returned(self, case: Arguments) -> Vec<T> {
        let (before, behind) = (&self.whole[..self.from], &self.whole[self.to..]);
        let touched = |&&element: &&T| element != self.around;
        let outside = before.iter().chain(behind).find(touched);
        assert_eq!(outside, None, "{case}: written outside of what was lent");
        self.whole[self.from..self.to].to_vec()
    }
}

extern "C" {
    pub fn mmap(
        at: *mut u8,
        size: usize,
        access: i32,
        kind: i32,
        file: i32,
        offset: i64,
    ) -> *mut u8;
    pub fn munmap(at: *mut u8, size: usize) -> i32;
}

/// To be read and written.
pub const READ_WRITE: i32 = 0x1 | 0x2;
/// Private, of no file, and with no memory set aside before it is touched.
const UNRESERVED: i32 = 0x2 | 0x20 | 0x4000;

/// Lends so many zeros, more than fit into memory: what is not touched costs nothing, so this needs the addresses alone.
/// Where they are not given, the test is skipped.
pub fn lend_long<T: Number>(count: usize, user: impl FnOnce(&mut [T])) {
    let size = count * size_of::<T>();
    // SAFETY: new memory is asked for, at any address.
    let memory = unsafe { mmap(ptr::null_mut(), size, READ_WRITE, UNRESERVED, -1, 0) };
    if memory.addr() == usize::MAX {
        // The closure's name is that of its test and one more part.
        let closure = type_name_of_val(&user);
        let test = closure.rsplit_once("::").map_or(closure, |(test, _)| test);
        eprintln!("{test} is skipped: this machine does not give {size} bytes of addresses");
        note_skipped(test);
        return;
    }
    // SAFETY: so many zeros are there, at the beginning of a page, and nothing else refers to them.
    user(unsafe { slice::from_raw_parts_mut(memory.cast(), count) });
    // SAFETY: it was given with this size, and the slice is not used any more.
    let returned = unsafe { munmap(memory, size) };
    assert_eq!(returned, 0, "the memory is returned");
}

/// Cargo counts a skipped test as passed and hides what it prints, so `../test` names a file to note it in.
fn note_skipped(test: &str) {
    if let Some(path) = env::var_os("VANPLAN_SKIPPED") {
        let file = OpenOptions::new().create(true).append(true).open(path);
        let mut file = file.expect("the file for skipped tests");
        // In one piece, since other tests may write at the same time.
        let noted = file.write_all(format!("{test}\n").as_bytes());
        noted.expect("room for a line");
    }
}
