//! The buffers that are lent to a listing or a writing.
//!
//! A buffer lies inside a longer row of cells, and every cell of the row holds
//! a number of its own beforehand that is no set, or no number of a record. So
//! it shows which cells were written, inside the buffer and next to it.

use std::fmt;
use std::ops::Range;

use reference::random::Random;

/// So many cells lie before the buffer, and so many behind it.
const MARGIN: usize = 2;
/// So many cells of a row are printed: all, unless it is far too long.
const CELLS_PRINTED: usize = 2_000;

/// How many cells a buffer has, compared with how many are needed: for each
/// minimal set one, or for each number of the record.
#[derive(Clone, Copy, Debug, PartialEq, Eq, PartialOrd, Ord)]
pub enum Size {
    /// None at all.
    Empty,
    /// One.
    One,
    /// One fewer than are needed.
    OneTooFew,
    /// As many as are needed.
    JustEnough,
    /// Some more than are needed.
    More,
}

impl Size {
    /// Every size that there is.
    pub const ALL: [Size; 5] = [
        Size::Empty,
        Size::One,
        Size::OneTooFew,
        Size::JustEnough,
        Size::More,
    ];

    /// The number of cells where so many are needed. Where none is, nothing is
    /// one too few, and just enough is none at all.
    pub fn cells(self, random: &mut Random, needed: usize) -> usize {
        match self {
            Size::Empty => 0,
            Size::One => 1,
            Size::OneTooFew => needed.saturating_sub(1),
            Size::JustEnough => needed,
            Size::More => needed + 1 + random.below(6),
        }
    }
}

/// What a cell holds.
pub trait Cell: Copy {
    /// What the cell at an index of a row holds beforehand.
    fn before(index: u32) -> Self;
}

/// The cell of a list. No set is so great.
impl Cell for u32 {
    fn before(index: u32) -> u32 {
        let pattern = 0xA5A5_0000 ^ index.wrapping_mul(0x9E37_79B1);
        pattern | 0x8000_0000
    }
}

/// The cell of a record. No credential and no middle has so great a number. The
/// same number comes again after 32,768 cells.
impl Cell for u16 {
    fn before(index: u32) -> u16 {
        let pattern = index.wrapping_mul(0x9E37) as u16;
        pattern | 0x8000
    }
}

/// A row of cells, in which the buffer lies.
#[derive(Clone, Debug, PartialEq, Eq)]
pub struct Row<Held> {
    cells: Vec<Held>,
    buffer: Range<usize>,
}

impl<Held: Cell> Row<Held> {
    /// A row in which nothing has been written, for a buffer of so many cells.
    pub fn new(cells: usize) -> Row<Held> {
        let before = (0..).map(Held::before);
        Row {
            cells: before.take(cells + 2 * MARGIN).collect(),
            buffer: MARGIN..MARGIN + cells,
        }
    }

    /// The buffer.
    pub fn buffer(&mut self) -> &mut [Held] {
        &mut self.cells[self.buffer.clone()]
    }

    /// How many cells the buffer has.
    pub fn size(&self) -> usize {
        self.buffer.len()
    }
}

impl<Held: fmt::Display> fmt::Display for Row<Held> {
    /// The cells from the first to the last, the buffer between bars.
    fn fmt(&self, out: &mut fmt::Formatter<'_>) -> fmt::Result {
        for (index, cell) in self.cells.iter().enumerate().take(CELLS_PRINTED) {
            if index == self.buffer.start || index == self.buffer.end {
                write!(out, "| ")?;
            }
            write!(out, "{cell} ")?;
        }
        Ok(())
    }
}

impl fmt::Display for Size {
    fn fmt(&self, out: &mut fmt::Formatter<'_>) -> fmt::Result {
        out.pad(match self {
            Size::Empty => "no cell",
            Size::One => "one cell",
            Size::OneTooFew => "one cell too few",
            Size::JustEnough => "just enough cells",
            Size::More => "more cells",
        })
    }
}

#[cfg(test)]
mod tests {
    use super::Row;
    use reference::Number;

    /// Whether no two of some cells hold the same, and none less than this.
    fn differ(mut cells: Vec<u32>, least: u32) -> bool {
        let count = cells.len();
        cells.sort();
        cells.dedup();
        cells.len() == count && cells[0] >= least
    }

    #[test]
    fn cells_differ_from_each_other_and_from_what_is_written() {
        assert!(differ(Row::<u32>::new(4_096).cells, 1 << 20));
        let numbers = Row::<Number>::new(32_768 - 4).cells;
        assert!(differ(numbers.into_iter().map(u32::from).collect(), 65));
    }

    #[test]
    fn a_write_shows() {
        let mut row = Row::<u32>::new(3);
        row.buffer()[2] = 7;
        assert_ne!(row, Row::new(3));
        assert_eq!((row.cells[4], row.size()), (7, 3));
    }
}
