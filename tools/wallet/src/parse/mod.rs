//! From a wallet's text to the wallet, or to the first mistake of the text.
//!
//! Each line is read by itself first (`line`, `credential`), then added to what
//! the lines above say (`draft`, `constraints`, `states`, `numbering`). What may
//! stand further below, and the numbers, are found at the end (`finish`). A
//! query may also be given apart from the text (`query`), and a proof record is
//! (`record`).

mod constraints;
mod credential;
mod draft;
mod finish;
mod line;
mod numbering;
mod query;
mod reader;
mod record;
mod statement;
mod states;

use crate::mistake::{Mistake, Place};
use crate::tokens::tokens;
use crate::Wallet;

pub use query::query;
pub use record::record;

/// Reads a wallet's text, or tells its first mistake.
pub fn parse(text: &[u8]) -> Result<Wallet, Mistake> {
    let mut draft = draft::Draft::default();
    let text = text.strip_prefix("\u{FEFF}".as_bytes()).unwrap_or(text);
    for (line, bytes) in (1..).zip(text.split(|byte| *byte == b'\n')) {
        let bytes = bytes.strip_suffix(b"\r").unwrap_or(bytes);
        let tokens = tokens(line, decoded(line, bytes)?)?;
        let Some(first) = tokens.first() else {
            continue;
        };
        let column = first.column;
        let statement = line::statement(line, &tokens)?;
        draft.add(&statement, Place { line, column })?;
    }
    finish::finish(&draft)
}

/// A line's bytes as characters.
fn decoded(line: usize, bytes: &[u8]) -> Result<&str, Mistake> {
    std::str::from_utf8(bytes).map_err(|error| {
        let (right, wrong) = bytes.split_at(error.valid_up_to());
        let column = String::from_utf8_lossy(right).chars().count() + 1;
        let byte = wrong.first().copied().unwrap_or_default();
        Place { line, column }.mistake(
            format_args!("the byte {byte:#04X} is not UTF-8"),
            "write the text as UTF-8",
        )
    })
}
