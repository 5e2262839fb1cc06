//! A table with a query as each side is given it, what the library and the
//! reference list for it, and what the library writes and verifies.

use std::time::Duration;

use bwlchareg::layout::EVERY_WORD;
use reference::generate::wallets::Wallet;
use reference::listing::minimal_sets_within;
use reference::patience::Patience;
use reference::query::{Asked, Query};
use reference::records::Records;
use reference::table::Table;
use reference::Number;

/// So many cells are lent, as many as the listing program has.
pub const CELLS: usize = 4_096;
/// The refusal that says that there is no minimal set.
pub const NONE: u32 = 9;
/// More steps than these the reference does not make in a second.
const STEPS_PER_SECOND: f64 = 1e9;

/// A table's numbers with a query.
#[derive(Clone, Debug)]
pub struct Listing {
    /// The table.
    pub table: Vec<Number>,
    /// The query.
    pub query: Query,
    /// The table in the base layout, if it means the same there.
    base: Option<Vec<Number>>,
}

impl Listing {
    /// The listing of a table's numbers.
    pub fn new(table: Vec<Number>, query: Query) -> Listing {
        let base = Records::read(&table)
            .ok()
            .and_then(|records| based(&records));
        Listing { table, query, base }
    }

    /// The listing of a wallet.
    pub fn of(wallet: &Wallet) -> Listing {
        Listing {
            table: wallet.records.numbers(),
            query: wallet.query,
            base: based(&wallet.records),
        }
    }

    /// The table in the base layout, for builds that know no other. There is none
    /// if some automaton does not demand every word: nothing means that there.
    pub fn base(&self) -> Option<&[Number]> {
        self.base.as_deref()
    }

    /// The table and what is asked, as the reference reads them.
    pub fn read(&self) -> (Table, Asked) {
        let table = Table::read(&self.table).expect("an accepted table");
        let asked = self.query.read().expect("a valid query");
        (table, asked)
    }

    /// The library's answer, with its list in the first cells.
    pub fn library(&self, cells: &mut [u32]) -> Result<usize, bwlchareg::Refusal> {
        bwlchareg::list(&self.table, library_query(self.query), cells)
    }

    /// The library's list, empty if there is no minimal set.
    pub fn library_list(&self) -> Result<Vec<u32>, bwlchareg::Refusal> {
        let mut cells = [0; CELLS];
        match self.library(&mut cells) {
            Ok(count) => Ok(cells[..count].to_vec()),
            Err(refusal) if refusal.number == NONE => Ok(Vec::new()),
            Err(refusal) => Err(refusal),
        }
    }

    /// The library's answer for a set, with the record in the first cells.
    pub fn write(&self, set: u32, cells: &mut [Number]) -> Result<usize, bwlchareg::Refusal> {
        bwlchareg::write(&self.table, library_query(self.query), set, cells)
    }

    /// The library's verdict on a record.
    pub fn verify(&self, record: &[Number]) -> Result<u32, bwlchareg::Refusal> {
        bwlchareg::verify(&self.table, library_query(self.query), record)
    }

    /// The reference's list, unless it gives up after so many steps.
    pub fn reference(&self, steps: u64) -> Option<Vec<u32>> {
        let (table, asked) = self.read();
        let sets = minimal_sets_within(Patience::new(steps), &table, asked)?;
        Some(sets.iter().map(|minimal| minimal.set).collect())
    }
}

/// The table of some records in the base layout, if all marks are 0.
fn based(records: &Records) -> Option<Vec<Number>> {
    let mut marks = records.automata.iter().map(|[_, _, mark]| *mark);
    marks
        .all(|mark| mark == EVERY_WORD)
        .then(|| records.base_numbers())
}

/// The reference's query as one for the library.
pub fn library_query(query: Query) -> bwlchareg::Query {
    bwlchareg::Query {
        principal: query.principal,
        owner: query.owner,
        name: query.name,
        depth: query.depth,
    }
}

/// More steps than the reference makes in this time: it can be given steps
/// only.
pub fn steps_within(limit: Duration) -> u64 {
    (limit.as_secs_f64() * STEPS_PER_SECOND) as u64
}

#[cfg(test)]
mod tests {
    use super::Listing;
    use bwlchareg::layout::{self, SOME_WORD};
    use reference::shop::{Q, T, U};
    use reference::Number;

    #[test]
    fn the_base_layout_leaves_out_marks_of_0_and_knows_no_others() {
        let base = |table: &[Number]| {
            Listing::new(table.to_vec(), Q)
                .base()
                .map(<[Number]>::to_vec)
        };
        assert_eq!(base(&T), Some(T.to_vec()));
        let upgraded = base(&U).map(|base| bwlchareg::upgraded(&base));
        assert_eq!(upgraded, Some(Ok(U.to_vec())));
        let mut marked = U;
        marked[layout::automaton(&U, 1).end - 1] = SOME_WORD;
        assert_eq!(base(&marked), None);
        assert_eq!(base(&U[1..]), None);
    }
}
