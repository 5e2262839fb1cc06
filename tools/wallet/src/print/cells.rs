//! Which part cells need lines of their own.

use bwlchareg::Number;

use crate::table::{Body, Table};

/// How many of a table's first cells need `cell` lines: the fewest with which
/// all others come to stand where they are when each intersection without
/// `at cell` gets the next ones. An intersection begins at a `cell` line if and
/// only if its first cell is one of these.
pub fn given(table: &Table) -> usize {
    let all = table.cells.len();
    (0..all).find(|&given| fits(table, given)).unwrap_or(all)
}

/// Whether so many `cell` lines are enough.
fn fits(table: &Table, given: usize) -> bool {
    let within = |next: Number| (next as usize) <= given;
    if !table.cells[..given].iter().all(|cell| within(cell.next)) {
        return false;
    }
    let mut next = given as Number + 1;
    for credential in &table.credentials {
        let Body::Parts(first) = credential.body else {
            continue;
        };
        if within(first) {
            continue;
        }
        if first != next {
            return false;
        }
        // The chain's cells must follow one another.
        while table.cells[next as usize - 1].next == next + 1 {
            next += 1;
        }
        if table.cells[next as usize - 1].next != 0 {
            return false;
        }
        next += 1;
    }
    next as usize == table.cells.len() + 1
}
