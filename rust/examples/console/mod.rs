//! What the examples share: they read no more than they need, name what fails in one line, and never panic for it.

use std::fmt::Display;
use std::fs::File;
use std::io::{self, stderr, stdout, Read, Write};
use std::path::{Path, PathBuf};
use std::process::ExitCode;
use std::{env, result};

/// The exit statuses: for an answer, for a refusal, and for anything else.
pub const ANSWERED: u8 = 0;
pub const REFUSED: u8 = 1;
pub const FAILED: u8 = 2;

/// What failed is said in words, the name of the file first.
pub type Result<T> = result::Result<T, String>;

pub fn named(file: &Path, error: io::Error) -> String {
    format!("{}: {error}", file.display())
}

/// The words behind the program's name, which need not be UTF-8.
pub fn arguments() -> Vec<PathBuf> {
    env::args_os().skip(1).map(PathBuf::from).collect()
}

/// Ends with this status, or with 2 where something failed.
pub fn end(status: Result<u8>) -> ExitCode {
    let status = status.unwrap_or_else(|error| {
        tell(&error);
        FAILED
    });
    ExitCode::from(status)
}

/// A line on standard error. If that fails too, there is nobody left to tell.
pub fn tell(error: &str) {
    let _ = writeln!(stderr(), "{error}");
}

/// A line on standard output.
pub fn print(line: impl Display) -> Result<()> {
    let mut stdout = stdout().lock();
    let printed = writeln!(stdout, "{line}").and_then(|()| stdout.flush());
    printed.map_err(|error| format!("standard output: {error}"))
}

/// So many bytes at most, and one more, which shows that there are more.
pub fn read(from: impl Read, most: usize) -> io::Result<Vec<u8>> {
    let mut bytes = Vec::new();
    from.take(most as u64 + 1).read_to_end(&mut bytes)?;
    Ok(bytes)
}

pub fn read_file(file: &Path, most: usize) -> Result<Vec<u8>> {
    let bytes = File::open(file).and_then(|opened| read(opened, most));
    bytes.map_err(|error| named(file, error))
}
