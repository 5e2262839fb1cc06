//! Writes the stored cases as `crates/rows` reads and answers them:
//!
//!     cargo run --release --offline --quiet --package reference --bin blocks -- input > crates/rows/stdin
//!     cargo run --release --offline --quiet --package reference --bin blocks -- output > crates/rows/stdout

#![forbid(unsafe_code)]

use std::io::{self, Write};
use std::process::ExitCode;

use reference::{blocks, stored};

fn main() -> ExitCode {
    let cases = stored::cases();
    let written = match std::env::args().nth(1).as_deref() {
        Some("input") => blocks::input(&cases),
        Some("output") => blocks::output(&cases).into_bytes(),
        _ => {
            eprintln!("write `input` or `output`");
            return ExitCode::FAILURE;
        }
    };
    match io::stdout().write_all(&written) {
        Ok(()) => ExitCode::SUCCESS,
        Err(_) => ExitCode::FAILURE,
    }
}
