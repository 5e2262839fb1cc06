//! The limits of docs/DEFINITION.md.

use bwlchareg::Number;

/// Credentials in a table.
pub const CREDENTIALS: usize = 20;
/// Part cells in a table.
pub const CELLS: usize = 63;
/// Automata in a table.
pub const AUTOMATA: usize = 8;
/// Edges in a table.
pub const EDGES: usize = 128;
/// States of an automaton.
pub const STATES: Number = 16;
/// Principals, and role names; both are numbered from 1.
pub const NAMES: Number = 64;
/// Roles in an intersection, at least and at most.
pub const PARTS: std::ops::RangeInclusive<usize> = 2..=4;
/// The greatest depth limit; the least is 1.
pub const DEPTH: Number = 16;
