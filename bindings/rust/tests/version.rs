//! The archive, the C header and the Python module are of the crate's version.

use std::fs;
use std::path::Path;

use bwlchareg::{version, VERSION};

/// The lines of a text in bindings/ that give the version.
fn version_lines(name: &str) -> Vec<String> {
    let path = Path::new(env!("CARGO_MANIFEST_DIR")).join("..").join(name);
    let text = fs::read_to_string(path).expect(name);
    let lines = text.lines().filter(|line| line.contains("VERSION"));
    lines.map(str::to_string).collect()
}

#[test]
fn the_archive_is_of_the_crate_s_version() {
    assert_eq!(version(), VERSION);
}

#[test]
fn the_header_and_the_module_are_of_the_crate_s_version() {
    let written = env!("CARGO_PKG_VERSION");
    let header = version_lines("c/bwlchareg.h");
    assert!(header.contains(&format!("#define BWLCHAREG_VERSION \"{written}\"")));
    assert!(header.contains(&format!("#define BWLCHAREG_VERSION_NUMBER {VERSION}")));
    let module = version_lines("python/bwlchareg.py");
    assert!(module.contains(&format!("VERSION = \"{written}\"")));
    assert!(module.contains(&format!("VERSION_NUMBER = {VERSION}")));
}
