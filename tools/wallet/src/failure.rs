//! Why a command does not write what it is asked for.

use std::fmt;

use wallet::json::Object;
use wallet::mistake::{Mistake, Place};

use crate::arguments::Source;

/// Why a command writes nothing, or not all.
#[derive(Debug)]
pub enum Failure {
    /// The checker refuses, in these words, and nothing can be written then.
    Refused(String),
    /// The text, the record, the call, a file or the output is at fault.
    Wrong(Wrong),
    /// Nobody reads the output any more.
    Unread,
}

/// What is wrong, and where.
#[derive(Clone, Debug, Default, PartialEq, Eq)]
pub struct Wrong {
    /// What is wrong, and what to do about it.
    pub message: String,
    /// The file, `standard input`, or `--query`.
    pub file: Option<String>,
    /// The line and the column, from 1; 0 where there is none.
    pub place: Place,
    /// How the command is called, where the call itself is wrong.
    pub usage: String,
}

impl Wrong {
    /// Something is wrong that has no place.
    pub fn new(message: impl Into<String>) -> Wrong {
        Wrong {
            message: message.into(),
            ..Wrong::default()
        }
    }

    /// The call is wrong.
    pub fn call(message: impl Into<String>, usage: impl Into<String>) -> Wrong {
        Wrong {
            usage: usage.into(),
            ..Wrong::new(message)
        }
    }

    /// Something is wrong with what was read, or with a file.
    pub fn of(source: &Source, message: impl fmt::Display) -> Wrong {
        Wrong {
            file: Some(source.to_string()),
            ..Wrong::new(message.to_string())
        }
    }

    /// A text has a mistake.
    pub fn mistake(source: &Source, mistake: Mistake) -> Wrong {
        let Mistake { line, column, .. } = mistake;
        Wrong {
            place: Place { line, column },
            ..Wrong::of(source, mistake.message)
        }
    }

    /// The query of the command line has a mistake. It has one line.
    pub fn query(mistake: Mistake) -> Wrong {
        let (line, column) = (0, mistake.column);
        Wrong {
            file: Some("--query".to_string()),
            place: Place { line, column },
            ..Wrong::new(mistake.message)
        }
    }

    /// The same as JSON.
    pub fn object(&self) -> Object {
        let there = |number: usize| (number > 0).then_some(number);
        Object::default()
            .with("message", self.message.as_str())
            .with_some("file", self.file.as_deref())
            .with_some("line", there(self.place.line))
            .with_some("column", there(self.place.column))
    }
}

impl From<Wrong> for Failure {
    fn from(wrong: Wrong) -> Failure {
        Failure::Wrong(wrong)
    }
}

impl fmt::Display for Wrong {
    fn fmt(&self, out: &mut fmt::Formatter<'_>) -> fmt::Result {
        if let Some(file) = &self.file {
            write!(out, "{file}: ")?;
        }
        match self.place {
            Place { column: 0, .. } => {}
            Place { line: 0, column } => write!(out, "column {column}: ")?,
            Place { line, column } => write!(out, "line {line}, column {column}: ")?,
        }
        writeln!(out, "{}", self.message)?;
        out.write_str(&self.usage)
    }
}
