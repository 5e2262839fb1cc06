//! Links the static library `libbwlchareg.a`.
//!
//! It is looked for in `target/staticlib` of the repository root, or in the
//! directory that the environment variable `BWLCHAREG_LIB_DIR` names (an
//! absolute path).

use std::env;
use std::path::{Path, PathBuf};

fn main() {
    let directory = library_directory();
    let archive = directory.join("libbwlchareg.a");
    if !archive.exists() {
        println!(
            "cargo:warning={} is not there; `tools/build.sh library` writes it to \
             target/staticlib, and BWLCHAREG_LIB_DIR names another directory",
            archive.display()
        );
    }
    println!("cargo:rerun-if-env-changed=BWLCHAREG_LIB_DIR");
    println!("cargo:rerun-if-changed={}", archive.display());
    println!("cargo:rustc-link-search=native={}", directory.display());
    println!("cargo:rustc-link-lib=static=bwlchareg");
}

/// The directory that holds the archive.
fn library_directory() -> PathBuf {
    if let Some(directory) = env::var_os("BWLCHAREG_LIB_DIR") {
        return PathBuf::from(directory);
    }
    let package = env::var_os("CARGO_MANIFEST_DIR").expect("cargo sets CARGO_MANIFEST_DIR");
    let root = Path::new(&package)
        .ancestors()
        .nth(2)
        .expect("the package lies two directories below the repository root");
    root.join("target").join("staticlib")
}
