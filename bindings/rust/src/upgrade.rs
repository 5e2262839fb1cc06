//! Tables of the base layout, in which automata have no marks.

use alloc::vec::Vec;

use crate::layout::{self, AUTOMATON, EVERY_WORD, HEAD, LIMITS};
use crate::{Number, Reason, Refusal};

/// Numbers of an automaton in the base layout: its two sets of states.
const BASE_AUTOMATON: usize = AUTOMATON - 1;

/// The table that means today what a table of the base layout meant: the same
/// records, with mark 0 at each automaton.
///
/// In the base layout an automaton has two numbers, and demands every word. No
/// call reads such a table. The upgraded one is accepted exactly if the table
/// was, and its lists, verdicts and first records are the same.
///
/// A table without automata is the same in both layouts. One with automata never
/// has both lengths, so nothing is upgraded twice by mistake.
///
/// # Errors
///
/// What the base layout's check told of the head and the length: 1 if there are
/// fewer than 4 numbers, 2 if a count is over its limit, 3 if the length is not
/// 4 + 6n + 3q + 2a + 6e. Everything else about the table is for
/// [`check`](crate::check), whose answer to the upgraded table is then the one
/// that the base layout's check gave.
///
/// # Examples
///
/// ```
/// use bwlchareg::{upgraded, Reason};
///
/// // An automaton that starts in state 0 and accepts in state 1, and its edge.
/// let base = [0, 0, 1, 1, 1, 2, 1, 0, 2, 0, 0, 1];
/// let table = upgraded(&base)?;
/// assert_eq!(table, [0, 0, 1, 1, 1, 2, 0, 1, 0, 2, 0, 0, 1]);
///
/// // It has today's layout now, and is not upgraded again.
/// let refusal = upgraded(&table).unwrap_err();
/// assert_eq!(refusal.reason(), Some(Reason::WrongLength));
/// # Ok::<(), bwlchareg::Refusal>(())
/// ```
pub fn upgraded(table: &[Number]) -> Result<Vec<Number>, Refusal> {
    let refused = |reason: Reason| Refusal {
        number: reason.number(),
        position: 0,
    };
    if table.len() < HEAD {
        return Err(refused(Reason::ShortHead));
    }
    let counts = layout::counts(table);
    if counts.iter().zip(LIMITS).any(|(count, most)| *count > most) {
        return Err(refused(Reason::CountOverLimit));
    }
    let automata = counts[2];
    if table.len() + automata != layout::length(table) {
        return Err(refused(Reason::WrongLength));
    }
    // What stands before the automata has its place in both layouts.
    let (before, rest) = table.split_at(layout::automaton(table, 1).start);
    let (sets, edges) = rest.split_at(BASE_AUTOMATON * automata);
    let marked = sets.chunks_exact(BASE_AUTOMATON);
    let marked: Vec<Number> = marked
        .flat_map(|own| [own[0], own[1], EVERY_WORD])
        .collect();
    Ok([before, &marked, edges].concat())
}

#[cfg(test)]
mod tests {
    use super::upgraded;
    use crate::{layout, Number, Refusal};
    use std::vec::Vec;

    fn refused(number: u32) -> Result<Vec<Number>, Refusal> {
        Err(Refusal {
            number,
            position: 0,
        })
    }

    /// Numbers that are all different, after a head.
    fn distinct(head: [Number; 4], length: usize) -> Vec<Number> {
        let rest = (1000..).take(length - head.len());
        head.into_iter().chain(rest).collect()
    }

    #[test]
    fn a_mark_of_0_is_put_after_each_automaton_and_nothing_else_moves() {
        for head in [[0, 0, 1, 0], [2, 3, 3, 2], [20, 63, 8, 128], [1, 0, 8, 0]] {
            let [n, q, a, e] = head.map(|count| count as usize);
            let base = distinct(head, 4 + 6 * n + 3 * q + 2 * a + 6 * e);
            let table = upgraded(&base).expect("the base layout");
            assert_eq!(table.len(), layout::length(&table));
            assert_eq!(table.len(), base.len() + a);
            let marks = (1..=a).map(|number| layout::automaton(&table, number).end - 1);
            let marks: Vec<usize> = marks.collect();
            assert!(marks.iter().all(|&place| table[place] == 0));
            let others = (0..table.len()).filter(|place| !marks.contains(place));
            assert!(others.map(|place| table[place]).eq(base.iter().copied()));
        }
    }

    #[test]
    fn a_table_without_automata_stays_as_it_is() {
        for head in [[0, 0, 0, 0], [3, 2, 0, 0], [0, 0, 0, 2]] {
            let table = distinct(head, layout::length(&head));
            assert_eq!(upgraded(&table).as_ref(), Ok(&table));
        }
    }

    #[test]
    fn what_is_not_of_the_base_layout_is_refused() {
        for short in [&[][..], &[0, 0, 8]] {
            assert_eq!(upgraded(short), refused(1));
        }
        for head in [[21, 0, 0, 0], [0, 64, 0, 0], [0, 0, 9, 0], [0, 0, 0, 129]] {
            let [n, q, a, e] = head.map(|count| count as usize);
            let length = 4 + 6 * n + 3 * q + 2 * a + 6 * e;
            for length in [4, length] {
                assert_eq!(upgraded(&distinct(head, length)), refused(2));
            }
        }
        let base = distinct([1, 2, 2, 1], 26);
        assert!(upgraded(&base).is_ok());
        for length in [4, 25, 27, 28] {
            let other = distinct([1, 2, 2, 1], length);
            assert_eq!(upgraded(&other), refused(3), "{length}");
        }
    }

    #[test]
    fn the_counts_may_be_any_numbers() {
        assert_eq!(upgraded(&[Number::MAX; 4]), refused(2));
        assert_eq!(upgraded(&[Number::MAX; 2000]), refused(2));
    }
}
