#![doc = include_str!("../../LAYOUT.md")]
//!
//! ## Finding a record
//!
//! The sizes of the records, and where each of them lies in a table.
//!
//! ```
//! use bwlchareg::layout;
//!
//! let table = [
//!     1, 0, 1, 1, // a credential, no part cell, an automaton, an edge
//!     2, 2, 1, 4, 0, 1, // principal 4 is in the role 2.2, under automaton 1
//!     1, 2, layout::EVERY_WORD, // which starts in state 0 and accepts in state 1
//!     1, 0, 2, 0, 0, 1, // and goes from state 0 to state 1 by every role
//! ];
//! assert_eq!(table[layout::automaton(&table, 1)], [1, 2, 0]);
//! assert_eq!(table[layout::edge(&table, 1)], [1, 0, 2, 0, 0, 1]);
//! assert_eq!(table.len(), layout::length(&table));
//! ```

use core::ops::Range;

use crate::Number;

/// Numbers of the head, one for each sort of record.
pub const HEAD: usize = 4;
/// Numbers of a credential.
pub const CREDENTIAL: usize = 6;
/// Numbers of a part cell.
pub const CELL: usize = 3;
/// Numbers of an automaton.
pub const AUTOMATON: usize = 3;
/// Numbers of an edge.
pub const EDGE: usize = 6;
/// Numbers of a node of a proof record.
pub const NODE: usize = 2;

/// The mark of an automaton that must accept every word of a record.
pub const EVERY_WORD: Number = 0;
/// The mark of an automaton that must accept at least one word of a record.
pub const SOME_WORD: Number = 1;

/// The greatest counts that a head may have, in its order.
pub const LIMITS: [usize; HEAD] = [20, 63, 8, 128];

/// The most minimal sets that a list may have: of twenty credentials there are
/// so many sets of ten, and never more sets of which none is a part of another.
pub const MAX_SETS: usize = 184_756;

/// The sizes of the four sorts, in the order of the head and of the table.
const SIZES: [usize; HEAD] = [CREDENTIAL, CELL, AUTOMATON, EDGE];

/// The head's counts: credentials, part cells, automata, edges. What a slice is
/// too short for counts as 0.
pub fn counts(table: &[Number]) -> [usize; HEAD] {
    core::array::from_fn(|sort| table.get(sort).map_or(0, |&count| count as usize))
}

/// How long the table must be by its head.
pub fn length(table: &[Number]) -> usize {
    base(table, HEAD)
}

/// Where the numbers of a credential lie, if the table is as long as its head
/// says. Records count from 1, here and in the functions below.
pub fn credential(table: &[Number], number: usize) -> Range<usize> {
    record(table, 0, number)
}

/// Where the numbers of a part cell lie.
pub fn cell(table: &[Number], number: usize) -> Range<usize> {
    record(table, 1, number)
}

/// Where the numbers of an automaton lie.
pub fn automaton(table: &[Number], number: usize) -> Range<usize> {
    record(table, 2, number)
}

/// Where the numbers of an edge lie.
pub fn edge(table: &[Number], number: usize) -> Range<usize> {
    record(table, 3, number)
}

/// Where the first record of a sort lies, or would.
fn base(table: &[Number], sort: usize) -> usize {
    let before = counts(table).into_iter().zip(SIZES).take(sort);
    HEAD + before.map(|(count, size)| count * size).sum::<usize>()
}

fn record(table: &[Number], sort: usize, number: usize) -> Range<usize> {
    let end = base(table, sort) + SIZES[sort] * number;
    end - SIZES[sort]..end
}
