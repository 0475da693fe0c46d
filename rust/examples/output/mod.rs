//! How the examples write a plan: they remove and overwrite nothing but a plan or an empty file, and what they write is
//! whole or not there at all.

use crate::console::{named, read_file, Result};
use std::ffi::OsStr;
use std::fs::{self, File};
use std::io::{ErrorKind, Write};
use std::os::unix::ffi::OsStrExt;
use std::path::{Path, PathBuf};
use std::process;
use vanplan::{Plan, Refusal, MAX_PLAN_BYTES};

/// Whether a plan is there, or an empty file, in which nothing can be lost. Anything else that is there is a failure, and is
/// to be left alone.
pub fn look(file: &Path) -> Result<bool> {
    let kind = match fs::symlink_metadata(file) {
        Ok(there) => there.file_type(),
        Err(error) if error.kind() == ErrorKind::NotFound => return Ok(false),
        Err(error) => return Err(named(file, error)),
    };
    let kind = if kind.is_dir() {
        "a folder"
    } else if kind.is_symlink() {
        "a symbolic link"
    } else if !kind.is_file() {
        "a device, pipe or socket"
    } else {
        let bytes = read_file(file, MAX_PLAN_BYTES)?;
        if bytes.is_empty() || Plan::from_bytes(&bytes).is_ok() {
            return Ok(true);
        }
        "a file that is no plan"
    };
    let file = file.display();
    Err(format!("{file}: {kind} is there, and is left as it is"))
}

/// Leaves the plan there, or none where the sheet is refused.
pub fn leave(file: &Path, answer: &std::result::Result<Plan, Refusal>) -> Result<()> {
    match answer {
        Ok(plan) => {
            let bytes = plan.to_bytes().map_err(|refusal| refusal.to_string())?;
            replace(file, &bytes)
        }
        Err(_) if look(file)? => fs::remove_file(file).map_err(|error| named(file, error)),
        Err(_) => Ok(()),
    }
}

/// Writes a new file beside the output and renames it, so that the output is the old plan or the whole new one.
fn replace(file: &Path, plan: &[u8]) -> Result<()> {
    let (beside, mut new) = new_beside(file)?;
    let written = new.write_all(plan).map_err(|error| named(file, error));
    drop(new);
    let renamed = written.and_then(|()| {
        // Rust does not tell whether closing failed, so what is there is read.
        if read_file(&beside, MAX_PLAN_BYTES)? != plan {
            return Err(format!("{}: cannot be written", file.display()));
        }
        look(file)?; // another file may have come there since the first look
        fs::rename(&beside, file).map_err(|error| named(file, error))
    });
    if renamed.is_err() {
        let _ = fs::remove_file(&beside);
    }
    renamed
}

/// A new file beside this one. Its name has the number of the process, and one more, as one that was killed may have left
/// such a file.
fn new_beside(file: &Path) -> Result<(PathBuf, File)> {
    const MOST_TRIES: usize = 1_000;
    const MOST_BYTES: usize = 200;
    let name = file.file_name().unwrap_or_default().as_bytes();
    let start = OsStr::from_bytes(&name[..name.len().min(MOST_BYTES)]);
    let mut tries = 0;
    loop {
        let mut name = start.to_os_string();
        name.push(format!(".{}-{tries}.new", process::id()));
        let beside = file.with_file_name(name);
        match File::options().write(true).create_new(true).open(&beside) {
            Ok(new) => return Ok((beside, new)),
            Err(error) if error.kind() != ErrorKind::AlreadyExists || tries == MOST_TRIES => {
                return Err(named(file, error));
            }
            Err(_) => tries += 1,
        }
    }
}
