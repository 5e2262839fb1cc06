//! Wallets of RT0 credentials as readable text, over the proved checker.
//!
//! `docs/WALLET.md` describes the text. A wallet that is read is a [`Wallet`]:
//! the table's records, the query, the names of the numbers, and the lines on
//! which they stand. Every judgement is the proved checker's; what is here
//! only writes its input and says its answers.

#![forbid(unsafe_code)]
#![warn(missing_docs)]

pub mod answer;
pub mod decimal;
pub mod derivation;
pub mod explain;
pub mod json;
pub mod limits;
mod markup;
pub mod mistake;
pub mod names;
pub mod objects;
pub mod parse;
pub mod print;
pub mod program;
pub mod proof;
pub mod refusal;
pub mod report;
mod rows;
mod shortened;
pub mod svg;
pub mod table;
pub mod tokens;
pub mod tree;
pub mod why;
pub mod words;

use bwlchareg::Number;

use names::Names;
use table::Table;

/// A wallet: what its text says, and where.
#[derive(Clone, Debug, Default, PartialEq, Eq)]
pub struct Wallet {
    /// The records.
    pub table: Table,
    /// The query, if the text has one.
    pub query: Option<bwlchareg::Query>,
    /// The names of the numbers.
    pub names: Names,
    /// Where everything stands.
    pub lines: Lines,
}

impl Wallet {
    /// The text of a credential, with the constraint that is attached to it; nothing
    /// if there is no credential of this number.
    pub fn credential(&self, number: Number) -> String {
        let credential = derivation::numbered(&self.table, number);
        credential.map_or(String::new(), |own| self.names.credential(&self.table, own))
    }
}

/// The lines of a wallet's text on which its records stand, from 1, in the
/// order of the records' numbers.
#[derive(Clone, Debug, Default, PartialEq, Eq)]
pub struct Lines {
    /// The line of each credential.
    pub credentials: Vec<usize>,
    /// The line of each part cell: its credential's, if it has none of its own.
    pub cells: Vec<usize>,
    /// The line of each automaton: that of its `constraint`.
    pub automata: Vec<usize>,
    /// The line of each edge.
    pub edges: Vec<usize>,
    /// The line of the query.
    pub query: Option<usize>,
}

impl Lines {
    /// The line of a credential by its number, if it has one.
    pub fn credential(&self, number: Number) -> Option<usize> {
        numbered(&self.credentials, number)
    }

    /// The line of a constraint by its automaton's number, if it has one.
    pub fn automaton(&self, number: Number) -> Option<usize> {
        numbered(&self.automata, number)
    }
}

/// The line of a number from 1.
fn numbered(lines: &[usize], number: Number) -> Option<usize> {
    let index = (number as usize).checked_sub(1)?;
    lines.get(index).copied()
}
