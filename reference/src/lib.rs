//! A second implementation of the checker, with which the proved library is
//! compared.
//!
//! It is written from the definition, which is docs/DEFINITION.md, goes other
//! ways than the proved code, and is made for obviousness, not speed: a slice of
//! numbers is read into values of their own sorts, and an input is refused where
//! such a value cannot be made. There is a module for each subject:
//!
//! - [`refusal`]: why and where an input is refused
//! - [`sorts`]: principals, role names, roles and goals
//! - [`records`]: the head and the layout of a table (refusals 1 to 3)
//! - [`table`]: what the records mean (the table's other rows)
//! - [`query`]: what is asked of a table (refusal 8)
//! - [`derivation`]: the tree that a proof record writes down (refusals 11 to
//!   13)
//! - [`words`]: the branches of that tree, and the automata that judge them
//!   (refusal 14)
//! - [`ways`]: through what a goal can be proved
//! - [`pairs`], [`enumeration`]: what all derivations of a goal amount to
//! - [`patience`]: how long they are looked for
//! - [`listing`]: the minimal sets among that (refusals 9 and 10)
//! - [`ascending`]: the derivations from a set, in the order of their records
//! - [`writing`]: the first record of a minimal set (refusals 15 and 16)
//! - [`shop`]: the worked example
//! - [`random`] and [`generate`]: made-up inputs, valid and damaged
//! - [`stored`], [`blocks`]: the cases of the test program `crates/rows`

#![forbid(unsafe_code)]
#![warn(missing_docs)]

pub mod ascending;
pub mod blocks;
pub mod derivation;
pub mod enumeration;
pub mod generate;
pub mod listing;
pub mod pairs;
pub mod patience;
pub mod query;
pub mod random;
pub mod records;
pub mod refusal;
pub mod shop;
pub mod sorts;
pub mod stored;
pub mod table;
pub mod ways;
pub mod words;
pub mod writing;

pub use query::Query;
pub use refusal::Refusal;

/// A number of a table, a query or a record.
pub type Number = u16;

/// A table of the base layout, upgraded: with mark 0 at each automaton. Where its
/// head or its length is wrong in that layout it is refused, with 1, 2 or 3.
pub fn upgraded(base: &[Number]) -> Result<Vec<Number>, Refusal> {
    Ok(records::Records::upgrade(base)?.numbers())
}

/// Checks a table: the table's rows of docs/DEFINITION.md, "Where each input is
/// stopped".
pub fn check(table: &[Number]) -> Result<(), Refusal> {
    table::Table::read(table)?;
    Ok(())
}

/// Checks a table, then a query: the request's rows.
pub fn check_query(table: &[Number], query: Query) -> Result<(), Refusal> {
    table::Table::read(table)?;
    query.read()?;
    Ok(())
}

/// Verifies a proof record: the request's rows, then 11 to 14. An accepted record
/// is answered with its used set.
pub fn verify(table: &[Number], query: Query, record: &[Number]) -> Result<u32, Refusal> {
    let table = table::Table::read(table)?;
    let asked = query.read()?;
    let derivation = derivation::Derivation::read(&table, asked, record)?;
    words::comply(&table, &derivation)?;
    Ok(derivation.used_set())
}

/// Lists the minimal sets for a query in the first cells, ascending: the request's
/// rows, then 9 and 10. An accepted list is answered with its count.
pub fn list(table: &[Number], query: Query, cells: &mut [u32]) -> Result<usize, Refusal> {
    let table = table::Table::read(table)?;
    let asked = query.read()?;
    listing::write(&listing::minimal_sets(&table, asked), cells)
}

/// Writes the first record of a minimal set into the first cells: the request's
/// rows, then 15 and 16. A record that is written is answered with its length.
pub fn write(
    table: &[Number],
    query: Query,
    set: u32,
    cells: &mut [Number],
) -> Result<usize, Refusal> {
    let table = table::Table::read(table)?;
    let asked = query.read()?;
    let sets = listing::minimal_sets(&table, asked);
    let first = writing::first(&table, asked, &sets, set);
    writing::write(first.as_ref(), cells)
}
