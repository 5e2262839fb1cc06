//! The stored cases as the test program `crates/rows` reads and answers them.
//!
//! A case is a block of 512 numbers of 16 bits, low byte first: kind (1 list,
//! 2 verify), the query's four, the number of cells, the table's length, the
//! record's length; then the table, the record, and zeros. The answer to a call
//! is a line: 0 with the count, the used set or the record's length, or else a
//! refusal's number and position; then every cell afterwards. The program fills
//! its cells beforehand with one pattern for sets and one for numbers.
//!
//! It lists four times, as users do and then with little room for what the
//! search would keep, so a list has four lines that are the same. Then it
//! writes records for what stands in the buffer's first two cells, be it a set
//! or the pattern, which is no set of any table, and for two sets that are on
//! no list; [`writings`] says with which buffers.

use std::fmt::Display;

use crate::stored::{Case, Given};
use crate::{list, verify, write, Number, Refusal};

/// Numbers of a block.
const BLOCK: usize = 512;
/// Cells that the program has for sets.
const MOST_CELLS: usize = 64;
/// So often it lists.
pub const LISTS: usize = 4;
/// What a cell for a set holds beforehand. No set is so great.
pub const UNTOUCHED: u32 = 2863311530;
/// What a cell for a number of a record holds beforehand. No such number is so
/// great.
const UNTOUCHED_NUMBER: Number = 43690;
/// Sets that are on the list of no case.
pub const UNLISTED: [u32; 2] = [0, 15];
/// How many numbers there is room for: as many as the longest record has that is
/// asked for, one fewer than the shop's record R has, and one.
const MUCH: usize = 12;
const SHORT: usize = 5;
const ONE: usize = 1;

/// What the program reads.
pub fn input(cases: &[Case]) -> Vec<u8> {
    let numbers = cases.iter().flat_map(block);
    numbers.flat_map(Number::to_le_bytes).collect()
}

/// What the program prints.
pub fn output(cases: &[Case]) -> String {
    cases.iter().map(lines).collect()
}

/// What the program prints for a case.
pub fn lines(case: &Case) -> String {
    let (table, query) = (&case.table, case.query);
    match &case.given {
        Given::Cells(cells) => {
            let mut after = vec![UNTOUCHED; *cells];
            let answer = list(table, query, &mut after).map(|count| count as u64);
            let listed = line(answer, &after).repeat(LISTS);
            let writings = writings(&after).into_iter();
            let written = writings.map(|(set, cells)| written(case, set, cells));
            [listed].into_iter().chain(written).collect()
        }
        Given::Record(record) => line::<u32>(verify(table, query, record).map(u64::from), &[]),
    }
}

/// What is written after a list that leaves these cells: sets, each with the
/// number of cells for its record.
pub fn writings(after: &[u32]) -> Vec<(u32, usize)> {
    let first = after.iter().take(1);
    let second = after.iter().skip(1).take(1);
    let mut writings: Vec<(u32, usize)> = Vec::new();
    writings.extend(first.flat_map(|&set| [(set, MUCH), (set, SHORT)]));
    writings.extend(second.map(|&set| (set, MUCH)));
    writings.extend(UNLISTED.map(|set| (set, ONE)));
    writings
}

/// The line of a writing with so many cells.
fn written(case: &Case, set: u32, cells: usize) -> String {
    let mut after = vec![UNTOUCHED_NUMBER; cells];
    let answer = write(&case.table, case.query, set, &mut after);
    line(answer.map(|length| length as u64), &after)
}

fn block(case: &Case) -> Vec<Number> {
    let (kind, cells, record) = match &case.given {
        Given::Cells(cells) => (1, *cells, &[][..]),
        Given::Record(record) => (2, 0, &record[..]),
    };
    let lengths = [cells, case.table.len(), record.len()].map(|length| length as Number);
    let head = [&[kind], &case.query.numbers()[..], &lengths].concat();
    let mut block = [&head, &case.table[..], record].concat();
    let fits = block.len() <= BLOCK && cells <= MOST_CELLS;
    assert!(fits, "too large for the program: {case:?}");
    block.resize(BLOCK, 0);
    block
}

/// The line of a call: its answer, and every cell afterwards.
fn line<Cell: Display>(answer: Result<u64, Refusal>, after: &[Cell]) -> String {
    let (number, value) = match answer {
        Ok(value) => (0, value),
        Err(Refusal { number, position }) => (number, position),
    };
    let cells: String = after.iter().map(|cell| format!(" {cell}")).collect();
    format!("{number} {value}{cells}\n")
}
