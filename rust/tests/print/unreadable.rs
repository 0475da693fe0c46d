//! Standard input that cannot be read: nothing is printed, and the reason is said on standard error.

use super::program::{end, start, start_as, PROGRAM};
use std::fs::{File, OpenOptions};
use std::process::{Command, Output, Stdio};

fn assert_unread(output: &Output, case: &str) {
    let printed = String::from_utf8_lossy(&output.stdout);
    assert_eq!(printed, "", "{case}");
    let said = String::from_utf8_lossy(&output.stderr);
    assert!(said.ends_with('\n'), "{case}, standard error: {said:?}");
    assert!(!said.trim().is_empty(), "{case}: an empty line is said");
    assert!(output.status.success(), "{case}: {}", output.status);
}

#[test]
fn a_folder() {
    let folder = File::open(env!("CARGO_MANIFEST_DIR")).expect("a folder can be opened");
    assert_unread(&end(start(folder)), "a folder");
}

#[test]
fn a_file_that_is_open_for_writing_alone() {
    let file = OpenOptions::new().write(true).open("/dev/null");
    let file = file.expect("a file can be opened for writing");
    assert_unread(&end(start(file)), "open for writing");
}

#[test]
fn no_standard_input_at_all() {
    let mut closing = Command::new("sh");
    closing.args(["-c", "exec \"$0\" <&-", PROGRAM]);
    assert_unread(&end(start_as(&mut closing, Stdio::null())), "closed");
}
