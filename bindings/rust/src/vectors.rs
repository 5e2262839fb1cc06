//! Lists and records in vectors, for a caller who does not want to lend cells.

use alloc::vec;
use alloc::vec::Vec;

use crate::layout::MAX_SETS;
use crate::{list, write, Number, Query, Reason, Refusal};

/// How many cells a call is lent first, and how many times as many after each
/// refusal. The search begins anew every time, so there should be few of them.
const FIRST_CELLS: usize = 256;
const GROWTH: usize = 16;

/// All minimal sets for a query, ascending: what [`list`] writes, however many
/// there are.
///
/// # Errors
///
/// As for [`list`], without [`Reason::LongerList`].
///
/// # Examples
///
/// ```
/// use bwlchareg::{credentials, minimal_sets, Query, Reason};
///
/// let table = [
///     4, 0, 0, 0, //
///     1, 1, 3, 3, 2, 0, // whoever is in M.2, for some M in 1.3, is in 1.1
///     1, 3, 1, 2, 0, 0, // principal 2 is in 1.3
///     2, 2, 1, 4, 0, 0, // principal 4 is in 2.2
///     1, 1, 1, 4, 0, 0, // principal 4 is in 1.1
/// ];
/// let query = Query { principal: 4, owner: 1, name: 1, depth: 2 };
/// let sets = minimal_sets(&table, query)?;
/// assert_eq!(sets, [7, 8]);
/// assert!(credentials(sets[0]).eq([1, 2, 3]));
/// assert!(credentials(sets[1]).eq([4]));
///
/// // Nothing says that principal 2 is in 1.1.
/// let refusal = minimal_sets(&table, Query { principal: 2, ..query }).unwrap_err();
/// assert_eq!(refusal.reason(), Some(Reason::NoMinimalSet));
/// # Ok::<(), bwlchareg::Refusal>(())
/// ```
pub fn minimal_sets(table: &[Number], query: Query) -> Result<Vec<u32>, Refusal> {
    grown(MAX_SETS, Reason::LongerList, |cells| {
        list(table, query, cells)
    })
}

/// The first record of a minimal set: what [`write()`] writes, if it has no more
/// than `most` numbers.
///
/// There is no such function without a limit, since a record may have more than
/// two thousand million numbers. No more than `most` cells are ever taken.
///
/// # Errors
///
/// As for [`write()`]: [`Reason::LongerRecord`] if the record has more than
/// `most` numbers.
///
/// # Examples
///
/// ```
/// use bwlchareg::{first_record, verify, Query, Reason};
///
/// let table = [
///     2, 0, 0, 0, //
///     1, 1, 2, 2, 2, 0, // whoever is in 2.2 is in 1.1
///     2, 2, 1, 4, 0, 0, // principal 4 is in 2.2
/// ];
/// let query = Query { principal: 4, owner: 1, name: 1, depth: 2 };
/// let record = first_record(&table, query, 3, 1_000_000)?;
/// assert_eq!(record, [1, 0, 2, 0]);
/// assert_eq!(verify(&table, query, &record), Ok(3));
///
/// let refusal = first_record(&table, query, 3, 2).unwrap_err();
/// assert_eq!(refusal.reason(), Some(Reason::LongerRecord));
/// # Ok::<(), bwlchareg::Refusal>(())
/// ```
pub fn first_record(
    table: &[Number],
    query: Query,
    set: u32,
    most: usize,
) -> Result<Vec<Number>, Refusal> {
    grown(most, Reason::LongerRecord, |cells| {
        write(table, query, set, cells)
    })
}

/// What a call writes into the cells that it is lent: more each time, up to
/// `most`, while it refuses because there are too few.
fn grown<Cell: Clone + Default>(
    most: usize,
    too_few: Reason,
    mut call: impl FnMut(&mut [Cell]) -> Result<usize, Refusal>,
) -> Result<Vec<Cell>, Refusal> {
    let mut lent = most.min(FIRST_CELLS);
    loop {
        let mut cells = vec![Cell::default(); lent];
        match call(&mut cells) {
            Err(refusal) if refusal.reason() == Some(too_few) && lent < most => {
                lent = most.min(lent.saturating_mul(GROWTH));
            }
            answer => {
                cells.truncate(answer?);
                cells.shrink_to_fit();
                return Ok(cells);
            }
        }
    }
}

#[cfg(test)]
mod tests {
    use super::grown;
    use crate::{Number, Reason, Refusal};
    use std::vec::Vec;

    const TOO_FEW: Reason = Reason::LongerRecord;
    const REFUSED: Refusal = Refusal {
        number: TOO_FEW.number(),
        position: 0,
    };

    /// What is answered by a call that writes so many numbers, and the cells
    /// that it was lent each time.
    fn answered(numbers: usize, most: usize) -> (Result<usize, Refusal>, Vec<usize>) {
        let mut lent = Vec::new();
        let answer = grown(most, TOO_FEW, |cells: &mut [Number]| {
            lent.push(cells.len());
            match numbers <= cells.len() {
                true => Ok(numbers),
                false => Err(REFUSED),
            }
        });
        (answer.map(|cells| cells.len()), lent)
    }

    #[test]
    fn the_cells_grow_up_to_the_most_and_no_further() {
        assert_eq!(answered(256, 1 << 20), (Ok(256), [256].into()));
        assert_eq!(answered(257, 1 << 20), (Ok(257), [256, 4096].into()));
        assert_eq!(answered(4097, 5000), (Ok(4097), [256, 4096, 5000].into()));
        assert_eq!(
            answered(5001, 5000),
            (Err(REFUSED), [256, 4096, 5000].into())
        );
        assert_eq!(answered(11, 10), (Err(REFUSED), [10].into()));
        assert_eq!(answered(2, 0), (Err(REFUSED), [0].into()));
    }

    #[test]
    fn another_refusal_is_told_at_once() {
        let other = Refusal {
            number: 15,
            position: 0,
        };
        let mut calls = 0;
        let answer = grown(5000, TOO_FEW, |_: &mut [Number]| {
            calls += 1;
            Err(other)
        });
        assert_eq!((answer, calls), (Err(other), 1));
    }
}
