//! Links the static library of the proved code, which `tools/archive` makes in the repository's root.

use std::path::{Path, PathBuf};
use std::{env, process};

const ARCHIVE: &str = "libvanplan.a";

/// The variable by which `../bench` names a folder with the archive, and with the C that its calls are timed against.
const BENCH: &str = "VANPLAN_BENCH";

fn main() {
    let package = env::var("CARGO_MANIFEST_DIR").expect("cargo sets CARGO_MANIFEST_DIR");
    let root = Path::new(&package)
        .parent()
        .expect("the package stands in a folder of the repository");
    let bench = env::var_os(BENCH).map(PathBuf::from);
    let staticlib = root.join("target").join("staticlib");
    let folder = bench.as_ref().unwrap_or(&staticlib);
    let archive = folder.join(ARCHIVE);
    println!("cargo:rerun-if-changed=build.rs");
    println!("cargo:rerun-if-env-changed={BENCH}");
    println!("cargo:rerun-if-changed={}", archive.display());
    if !archive.is_file() {
        eprintln!("{} is not there.", archive.display());
        eprintln!(
            "Run `tools/archive` in {} first, or ./test, which does.",
            root.display()
        );
        process::exit(1);
    }
    println!("cargo:rustc-link-search=native={}", folder.display());
    println!("cargo:rustc-link-lib=static=vanplan");
    if let Some(bench) = bench {
        let baseline = bench.join("libbaseline.a");
        println!("cargo:rerun-if-changed={}", baseline.display());
        println!("cargo:rustc-link-arg-benches={}", baseline.display());
    }
}
