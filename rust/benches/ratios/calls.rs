//! The calls that are compared: each is made by the proved library, by the C of `baseline/` in every build of it, and
//! planning also by Rust. All have the types of `include/vanplan.h`.

use crate::planner;
use std::ffi::{c_char, CStr};
use std::ptr::addr_of;
use std::slice;

pub type Read = unsafe extern "C" fn(*const u8, usize, *mut u64, *mut u64) -> u32;
pub type Validate = unsafe extern "C" fn(*const u8, usize, *const u8, usize, *mut u64) -> u32;
pub type Plan =
    unsafe extern "C" fn(*const u8, usize, *mut u64, usize, *mut u8, usize, *mut u64) -> u32;
pub type Price = unsafe extern "C" fn(
    *const u8,
    usize,
    *mut u64,
    usize,
    *mut u64,
    usize,
    *mut u64,
    *mut u16,
) -> u32;

/// Who makes a call, and for which target.
#[derive(Clone, Copy, Debug, PartialEq, Eq)]
pub enum Maker {
    Rattle,
    /// For plain x86-64, as the library is.
    C,
    NativeC,
    Rust,
    TripleLoop,
}

/// One call and its name.
pub struct Entry<F> {
    pub maker: Maker,
    /// The compiler's name, or Rattle.
    pub by: &'static str,
    /// How doors are gathered and points are taken; of reading how it gets the load of a list, and how it knows an
    /// essential one. None where all are alike.
    pub shape: Option<[&'static str; 2]>,
    pub call: F,
}

impl<F> Entry<F> {
    pub fn name(&self) -> String {
        let words = [self.by]
            .into_iter()
            .chain(self.shape.into_iter().flatten());
        words.collect::<Vec<_>>().join(", ")
    }
}

/// All calls. In each list but the last the proved library comes first.
pub struct Calls {
    pub reads: Vec<Entry<Read>>,
    pub validates: Vec<Entry<Validate>>,
    pub plans: Vec<Entry<Plan>>,
    pub prices: Vec<Entry<Price>>,
    /// In C for plain x86-64.
    pub triple_loops: Vec<Entry<Plan>>,
}

extern "C" {
    fn vanplan_read(sheet: *const u8, len: usize, tasks: *mut u64, points: *mut u64) -> u32;
    fn vanplan_validate(
        sheet: *const u8,
        len: usize,
        plan: *const u8,
        plan_len: usize,
        cost: *mut u64,
    ) -> u32;
    fn vanplan_plan(
        sheet: *const u8,
        len: usize,
        cells: *mut u64,
        ncells: usize,
        plan: *mut u8,
        plan_len: usize,
        cost: *mut u64,
    ) -> u32;
    fn vanplan_price(
        sheet: *const u8,
        len: usize,
        even: *mut u64,
        neven: usize,
        odd: *mut u64,
        nodd: usize,
        cost: *mut u64,
        start: *mut u16,
    ) -> u32;

    /// The first of the pointers to all builds.
    static baseline_builds: *const Build;
    static baseline_count: usize;
}

/// `struct build`, `struct look` and `struct way` of `baseline/baseline.h`.
#[repr(C)]
struct Build {
    compiler: *const c_char,
    version: *const c_char,
    target: *const c_char,
    looks: [Look; 2],
    validate: Validate,
    triple_loop: Plan,
    ways: [Way; 9],
}

#[repr(C)]
struct Look {
    loads: *const c_char,
    essential: *const c_char,
    read: Read,
}

#[repr(C)]
struct Way {
    gathering: *const c_char,
    points: *const c_char,
    plan: Plan,
    price: Price,
}

fn builds() -> impl Iterator<Item = &'static Build> {
    // SAFETY: `baseline/builds.c` has so many pointers there, each to a constant.
    let all = unsafe { slice::from_raw_parts(addr_of!(baseline_builds), baseline_count) };
    // SAFETY: the same.
    all.iter().map(|&build| unsafe { &*build })
}

fn text(from: *const c_char) -> &'static str {
    // SAFETY: `baseline/plan.c` has a constant there that ends with 0.
    let text = unsafe { CStr::from_ptr(from) };
    text.to_str().expect("names are ASCII")
}

/// The compilers of the builds with their versions.
pub fn compilers() -> Vec<String> {
    let mut names: Vec<String> = builds()
        .map(|build| format!("{} {}", text(build.compiler), text(build.version)))
        .collect();
    names.dedup();
    names
}

impl Calls {
    pub fn all() -> Calls {
        let mut calls = Calls {
            reads: vec![rattle(vanplan_read as Read)],
            validates: vec![rattle(vanplan_validate as Validate)],
            plans: vec![rattle(vanplan_plan as Plan)],
            prices: vec![rattle(vanplan_price as Price)],
            triple_loops: Vec::new(),
        };
        builds().for_each(|build| calls.add(build));
        for (points, call) in planner::PLANNERS {
            calls.plans.push(Entry {
                maker: Maker::Rust,
                by: "rustc",
                shape: Some(["bits", points]),
                call,
            });
        }
        calls
    }

    fn add(&mut self, build: &Build) {
        let by = text(build.compiler);
        let maker = match text(build.target) {
            "native" => Maker::NativeC,
            _ => Maker::C,
        };
        for look in &build.looks {
            self.reads.push(Entry {
                shape: Some([text(look.loads), text(look.essential)]),
                ..entry(maker, by, look.read)
            });
        }
        self.validates.push(entry(maker, by, build.validate));
        for way in &build.ways {
            let shape = Some([text(way.gathering), text(way.points)]);
            self.plans.push(Entry {
                shape,
                ..entry(maker, by, way.plan)
            });
            self.prices.push(Entry {
                shape,
                ..entry(maker, by, way.price)
            });
        }
        if maker == Maker::C {
            self.triple_loops
                .push(entry(Maker::TripleLoop, by, build.triple_loop));
        }
    }
}

fn rattle<F>(call: F) -> Entry<F> {
    entry(Maker::Rattle, "Rattle", call)
}

fn entry<F>(maker: Maker, by: &'static str, call: F) -> Entry<F> {
    Entry {
        maker,
        by,
        shape: None,
        call,
    }
}

pub fn read(call: Read, sheet: &[u8], tasks: &mut u64, points: &mut u64) -> u32 {
    // SAFETY: the pointer and length are those of a slice that is only read; the others are exclusive references.
    unsafe { call(sheet.as_ptr(), sheet.len(), tasks, points) }
}

pub fn validate(call: Validate, sheet: &[u8], plan: &[u8], cost: &mut u64) -> u32 {
    // SAFETY: the pointers with lengths are those of slices that are only read; the other is an exclusive reference.
    unsafe { call(sheet.as_ptr(), sheet.len(), plan.as_ptr(), plan.len(), cost) }
}

pub fn plan(call: Plan, sheet: &[u8], cells: &mut [u64], plan: &mut [u8], cost: &mut u64) -> u32 {
    // SAFETY: each pointer with a length is that of a slice; the sheet is only read, and the three others are exclusive
    // references.
    unsafe {
        call(
            sheet.as_ptr(),
            sheet.len(),
            cells.as_mut_ptr(),
            cells.len(),
            plan.as_mut_ptr(),
            plan.len(),
            cost,
        )
    }
}

pub fn price(
    call: Price,
    sheet: &[u8],
    even: &mut [u64],
    odd: &mut [u64],
    cost: &mut u64,
    start: &mut u16,
) -> u32 {
    // SAFETY: each pointer with a length is that of a slice; the sheet is only read, and the four others are exclusive
    // references.
    unsafe {
        call(
            sheet.as_ptr(),
            sheet.len(),
            even.as_mut_ptr(),
            even.len(),
            odd.as_mut_ptr(),
            odd.len(),
            cost,
            start,
        )
    }
}
