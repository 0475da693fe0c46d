//! The declarations of the C interface, in the header, in the package and in the tests, are those of the source of the
//! exports: the same calls, with the same types and names of arguments. And the header's limits are the package's.

use std::collections::BTreeMap;
use vanplan::{
    MAX_CELLS, MAX_LAYER_CELLS, MAX_PLAN_BYTES, MAX_PLAN_DOORS, MAX_SHEET_BYTES, VERSION,
};

const EXPORTS: &str = include_str!("../../crates/vanplan_c/src/lib.rt");
const CALLS: &str = include_str!("../../crates/vanplan/src/lib.rt");
const HEADER: &str = include_str!("../../include/vanplan.h");
const PACKAGE: &str = include_str!("../src/ffi.rs");
const TESTS: &str = include_str!("common/interface.rs");

/// A type as Rust has it, and the name; the length of a list has any.
type Argument = (String, Option<String>);

/// The arguments of each call and, last, what it returns.
type Calls = BTreeMap<String, Vec<Argument>>;

fn argument(kind: &str, name: &str) -> Argument {
    (kind.to_string(), Some(name.to_string()))
}

/// What stands between these two, from each place on where the first does.
fn all_between<'a>(text: &'a str, before: &str, behind: &str) -> Vec<&'a str> {
    let pieces = text.split(before).skip(1);
    let cut = |piece: &'a str| piece.split_once(behind).map_or(piece, |(inner, _)| inner);
    pieces.map(cut).collect()
}

/// The source of the exports. A list that is lent is a pointer and a length in C.
fn exported(source: &str) -> Calls {
    let calls = all_between(source, "pub extern \"C\" fn ", "\n    ensures");
    // Lifetimes are the source's own affair.
    let plain = |call: &str| call.replace("<'a>", "").replace("&'a ", "&");
    (calls.into_iter())
        .map(|call| exported_call(&plain(call)))
        .collect()
}

fn exported_call(call: &str) -> (String, Vec<Argument>) {
    let (name, rest) = call.split_once('(').expect("arguments");
    let (inner, answer) = rest.split_once(") -> ").expect("an answer");
    let mut arguments = Vec::new();
    for (name, kind) in rust_arguments(inner) {
        let (access, lent) = match kind.strip_prefix('&') {
            None => ("", kind),
            Some(lent) => match lent.strip_prefix("mut ") {
                Some(lent) => ("*mut ", lent),
                None => ("*const ", lent),
            },
        };
        let list = lent.strip_prefix('[').and_then(|l| l.strip_suffix(']'));
        arguments.push(argument(&format!("{access}{}", list.unwrap_or(lent)), name));
        if list.is_some() {
            arguments.push(("usize".to_string(), None));
        }
    }
    arguments.push(argument(answer.trim(), ""));
    (name.to_string(), arguments)
}

/// Name and type of each.
fn rust_arguments(inner: &str) -> Vec<(&str, &str)> {
    let arguments = inner.split(',').map(str::trim).filter(|a| !a.is_empty());
    let halves = arguments.map(|a| a.split_once(": ").expect("a name and a type"));
    halves.collect()
}

/// The declarations of Rust.
fn declared_in_rust(source: &str) -> Calls {
    let block = all_between(source, "extern \"C\" {", "\n}").concat();
    let calls = all_between(&block, "fn ", ";");
    let parsed = calls.into_iter().map(|call| {
        let (name, rest) = call.split_once('(').expect("arguments");
        let (inner, answer) = rest.split_once(") -> ").expect("an answer");
        let arguments = rust_arguments(inner).into_iter();
        let mut arguments: Vec<Argument> = arguments.map(|(n, kind)| argument(kind, n)).collect();
        arguments.push(argument(answer, ""));
        (name.to_string(), arguments)
    });
    parsed.collect()
}

/// The prototypes of the header.
fn declared_in_c(header: &str) -> Calls {
    let comments = all_between(header, "/*", "*/");
    let code = comments.iter().fold(header.to_string(), |code, comment| {
        code.replace(&format!("/*{comment}*/"), "")
    });
    let prototypes = code.split(';').filter_map(|piece| {
        let (before, rest) = piece.split_once("(")?;
        let (answer, name) = before.trim().rsplit_once(['\n', ' '])?;
        let arguments = rest.strip_suffix(')')?.split(',').map(c_argument);
        let answer = answer.rsplit('\n').next().unwrap_or(answer);
        let mut arguments: Vec<Argument> = arguments.collect();
        arguments.push(argument(rust_type(answer.trim()), ""));
        Some((name.to_string(), arguments))
    });
    prototypes.collect()
}

fn c_argument(text: &str) -> Argument {
    let (kind, name) = text.trim().rsplit_once(' ').expect("a type and a name");
    match (name.strip_prefix('*'), kind.strip_prefix("const ")) {
        (None, _) => argument(rust_type(kind), name),
        (Some(name), None) => argument(&format!("*mut {}", rust_type(kind)), name),
        (Some(name), Some(kind)) => argument(&format!("*const {}", rust_type(kind)), name),
    }
}

fn rust_type(c: &str) -> &str {
    match c {
        "uint8_t" => "u8",
        "uint16_t" => "u16",
        "uint32_t" => "u32",
        "uint64_t" => "u64",
        "size_t" => "usize",
        other => other,
    }
}

/// The same calls, types and names; a length may have any name.
fn agree(declared: &Calls, exported: &Calls) -> bool {
    let same =
        |one: &Argument, due: &Argument| one.0 == due.0 && (due.1.is_none() || one.1 == due.1);
    let same_calls = declared.keys().eq(exported.keys());
    same_calls
        && declared.values().zip(exported.values()).all(|(one, due)| {
            one.len() == due.len() && one.iter().zip(due).all(|(one, due)| same(one, due))
        })
}

#[test]
fn the_exports_are_found() {
    let exports = exported(EXPORTS);
    let count = EXPORTS.matches("#[unsafe(no_mangle)]").count();
    assert_eq!(exports.len(), count, "{:?}", exports.keys());
    let lists = |call: &str| exports[call].iter().filter(|a| a.1.is_none()).count();
    assert_eq!(lists("vanplan_plan"), 3);
    assert_eq!(lists("vanplan_price_row"), 3);
    assert_eq!(exports["vanplan_read"].len(), 5, "with the answer");
}

/// Name, arguments and promises of each function that begins so, however its text is laid out.
fn promised(source: &str, before: &str) -> Vec<String> {
    let calls = all_between(source, before, "\n{").into_iter();
    let words = calls.map(|call| call.split_whitespace().collect::<Vec<_>>().join(" "));
    words
        .map(|call| call.replace("( ", "(").replace(", )", ")"))
        .collect()
}

#[test]
fn the_exports_promise_what_the_calls_do() {
    let exports = promised(EXPORTS, "pub extern \"C\" fn ");
    assert_eq!(exports, promised(CALLS, "pub fn "));
    assert_eq!(exports.len(), 7);
}

#[test]
fn all_three_declare_what_is_exported() {
    let exports = exported(EXPORTS);
    for (name, declared) in [
        ("include/vanplan.h", declared_in_c(HEADER)),
        ("rust/src/ffi.rs", declared_in_rust(PACKAGE)),
        ("rust/tests/common/interface.rs", declared_in_rust(TESTS)),
    ] {
        assert!(
            agree(&declared, &exports),
            "{name}: {declared:#?}, and not {exports:#?}"
        );
    }
}

/// Each place where a word stands, in turn, holds another.
fn with_slips<'a>(
    text: &'a str,
    word: &'a str,
    slip: &'a str,
) -> impl Iterator<Item = String> + 'a {
    let places = text.match_indices(word).map(|(at, _)| at);
    places.map(move |at| [&text[..at], slip, &text[at + word.len()..]].concat())
}

/// Each of these slips, in each place behind the mark where its word stands, is told from what is exported.
fn assert_slips_show(text: &str, mark: &str, declared: fn(&str) -> Calls, slips: &[(&str, &str)]) {
    let exports = exported(EXPORTS);
    let (before, declarations) = text.split_at(text.find(mark).expect("declarations"));
    let mut made = 0;
    for (word, slip) in slips {
        for wrong in with_slips(declarations, word, slip) {
            let declared = declared(&format!("{before}{wrong}"));
            assert!(
                !agree(&declared, &exports),
                "{word} as {slip}: {declared:#?}"
            );
            made += 1;
        }
    }
    assert!(made > 20, "{made}");
}

#[test]
fn a_slip_in_the_header_shows() {
    let slips = [
        ("uint64_t *", "uint32_t *"),
        ("uint16_t *", "uint64_t *"),
        ("const uint8_t *", "uint8_t *"),
        ("const uint64_t *", "uint64_t *"),
        ("*even", "*odd"),
        ("size_t *", "uint32_t *"),
        ("uint64_t cost", "uint32_t cost"),
        ("size_t len", "uint32_t len"),
        ("uint32_t vanplan", "uint64_t vanplan"),
        ("*tasks, uint64_t *points", "*points, uint64_t *tasks"),
        ("size_t n, ", ""),
    ];
    assert_slips_show(HEADER, "uint32_t vanplan_read", declared_in_c, &slips);
}

#[test]
fn a_slip_in_the_package_shows() {
    let slips = [
        ("*mut u64", "*mut u32"),
        ("*mut u16", "*mut u64"),
        ("*const u8", "*mut u8"),
        ("*const u64", "*mut u64"),
        ("*mut usize", "*mut u32"),
        (": usize", ": u32"),
        (": u64", ": u32"),
        ("-> u32", "-> u64"),
        ("tasks: *mut u64, points", "points: *mut u64, tasks"),
        ("n: usize,", ""),
    ];
    assert_slips_show(PACKAGE, "extern \"C\" {", declared_in_rust, &slips);
}

#[test]
fn the_limits_are_the_same() {
    let defined: BTreeMap<&str, &str> = HEADER
        .lines()
        .filter_map(|line| line.strip_prefix("#define VANPLAN_")?.split_once(' '))
        .filter(|(name, _)| !name.contains('('))
        .collect();
    let limits = [
        ("MAX_CELLS", MAX_CELLS.to_string()),
        ("MAX_LAYER_CELLS", MAX_LAYER_CELLS.to_string()),
        ("MAX_PLAN_BYTES", MAX_PLAN_BYTES.to_string()),
        ("MAX_PLAN_DOORS", MAX_PLAN_DOORS.to_string()),
        ("MAX_SHEET_BYTES", MAX_SHEET_BYTES.to_string()),
        ("VERSION", format!("{VERSION:?}")),
    ];
    let due = limits.iter().map(|(name, value)| (*name, value.as_str()));
    assert_eq!(defined, due.collect());
    // Document 01's own: 4,096 lists of twelve tasks, 64 points.
    let document = (9_638, 12, 56, 4_096 * 64);
    let limits = (MAX_SHEET_BYTES, MAX_PLAN_DOORS, MAX_PLAN_BYTES, MAX_CELLS);
    assert_eq!(limits, document);
    // 924 lists of six of twelve tasks, times 64 points.
    assert_eq!(MAX_LAYER_CELLS, 924 * 64);
}
