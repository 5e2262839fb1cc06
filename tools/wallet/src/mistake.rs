//! What is wrong with a wallet's text, where, and what to write instead.

use std::error::Error;
use std::fmt;

use crate::tokens::{is_joiner, is_seen};

/// A place in a text: line and column from 1, the column in characters.
#[derive(Clone, Copy, Debug, Default, PartialEq, Eq)]
pub struct Place {
    /// The line.
    pub line: usize,
    /// The column.
    pub column: usize,
}

impl Place {
    /// A mistake here: what is wrong, and what to write instead.
    pub fn mistake(self, wrong: impl fmt::Display, instead: impl fmt::Display) -> Mistake {
        Mistake {
            line: self.line,
            column: self.column,
            message: format!("{wrong}; {instead}"),
        }
    }
}

/// The first thing that is wrong with a wallet's text.
#[derive(Clone, Debug, PartialEq, Eq)]
pub struct Mistake {
    /// The line, from 1.
    pub line: usize,
    /// The column, from 1, in characters.
    pub column: usize,
    /// What is wrong, and after a semicolon what to write instead.
    pub message: String,
}

impl fmt::Display for Mistake {
    fn fmt(&self, out: &mut fmt::Formatter<'_>) -> fmt::Result {
        let Mistake {
            line,
            column,
            message,
        } = self;
        write!(out, "line {line}, column {column}: {message}")
    }
}

impl Error for Mistake {}

/// The most characters of a word that a message repeats.
const SHOWN: usize = 40;

/// A piece of text in backquotes, as a message repeats it: shortened if it is
/// long, and without characters that a terminal would obey.
pub fn quoted(text: &str) -> String {
    let visible = |character: char| match character {
        _ if character == ' ' || is_joiner(character) || is_seen(character) => character,
        _ => char::REPLACEMENT_CHARACTER,
    };
    let beginning: String = text.chars().take(SHOWN).map(visible).collect();
    let more = if text.chars().nth(SHOWN).is_some() {
        "..."
    } else {
        ""
    };
    format!("`{beginning}{more}`")
}

#[cfg(test)]
mod tests {
    use super::{quoted, Place};

    #[test]
    fn a_mistake_says_where_and_what() {
        let place = Place { line: 3, column: 7 };
        let mistake = place.mistake("`x` is wrong", "write `y`");
        let said = "line 3, column 7: `x` is wrong; write `y`";
        assert_eq!(mistake.to_string(), said);
    }

    #[test]
    fn long_and_invisible_pieces_are_shortened_and_replaced() {
        assert_eq!(quoted("student"), "`student`");
        assert_eq!(quoted("\u{1b}[2J \u{202E}"), "`\u{FFFD}[2J \u{FFFD}`");
        let forty = "a".repeat(40);
        assert_eq!(quoted(&forty), format!("`{forty}`"));
        assert_eq!(quoted(&"a".repeat(41)), format!("`{forty}...`"));
    }
}
