//! One table and one query, given to the library and to the reference, and whether
//! both say the same.

use reference::derivation::NODE;
use reference::generate::listings::{Listing, Source};
use reference::listing::Minimal;
use reference::query::Query;
use reference::table::Table;
use reference::writing::First;
use reference::{listing, writing, Number, Refusal};

use crate::buffers::Row;
use crate::lists::expected;
use crate::report::listed;
use crate::writings::first;
use crate::{library_query, same_refusal, Verdict};

/// A buffer has so many cells more than are needed.
const SPARE: usize = 2;

/// A table as the library is given it, and as the reference is; and a query.
pub struct Sides {
    library: Vec<Number>,
    reference: Listing,
}

/// That both sides say the same, or what they say.
pub type Same = Result<(), String>;

impl Sides {
    /// These two tables, which should mean the same, with a query.
    pub fn new(library: Vec<Number>, reference: Vec<Number>, query: Query) -> Sides {
        let reference = Listing {
            table: reference,
            query,
            source: Source::Demands,
        };
        Sides { library, reference }
    }

    /// The reference's table.
    pub fn table(&self) -> Table {
        Table::read(&self.reference.table).expect("an accepted table")
    }

    /// The reference's list, unless it takes too long.
    pub fn sets(&self) -> Option<Vec<Minimal>> {
        expected(&self.reference)?.ok()
    }

    /// The reference's first record of a listed set, unless it takes too long.
    pub fn first(&self, set: u32) -> Option<First> {
        first(&self.reference, set)
    }

    /// Whether the library has this list.
    pub fn list(&self, sets: &[Minimal]) -> Same {
        let cells = sets.len() + SPARE;
        let mut rows = [Row::<u32>::new(cells), Row::new(cells)];
        let query = library_query(self.reference.query);
        let library = bwlchareg::list(&self.library, query, rows[0].buffer());
        let reference = listing::write(sets, rows[1].buffer());
        self.same(
            "listing call",
            library.map_err(same_refusal),
            reference,
            &rows,
        )
    }

    /// Whether the library writes this record for a set.
    pub fn record(&self, set: u32, first: &First) -> Same {
        let cells = NODE * first.witness.nodes() as usize + SPARE;
        let mut rows = [Row::<Number>::new(cells), Row::new(cells)];
        let query = library_query(self.reference.query);
        let library = bwlchareg::write(&self.library, query, set, rows[0].buffer());
        let reference = writing::write(Some(first), rows[1].buffer());
        let call = format!("writing call, set {set}");
        self.same(&call, library.map_err(same_refusal), reference, &rows)
    }

    /// Whether the library has the reference's verdict on a record, and what that
    /// is.
    pub fn verdict(&self, record: &[Number]) -> (Same, Verdict) {
        let query = library_query(self.reference.query);
        let library = bwlchareg::verify(&self.library, query, record).map_err(same_refusal);
        let verdict = reference::verify(&self.reference.table, self.reference.query, record);
        let call = format!("verifying call, record of {}", listed(record));
        let same = match library == verdict {
            true => Ok(()),
            false => Err(self.words(&call, &format!("{library:?}"), &format!("{verdict:?}"))),
        };
        (same, verdict)
    }

    /// Whether two answers with their cells are the same.
    fn same<Held: PartialEq + std::fmt::Display>(
        &self,
        call: &str,
        library: Result<usize, Refusal>,
        reference: Result<usize, Refusal>,
        rows: &[Row<Held>; 2],
    ) -> Same {
        if library == reference && rows[0] == rows[1] {
            return Ok(());
        }
        let [one, other] = rows;
        let library = format!("{library:?}, cells {one}");
        let reference = format!("{reference:?}, cells {other}");
        Err(self.words(call, &library, &reference))
    }

    /// What is needed to look into a difference.
    fn words(&self, call: &str, library: &str, reference: &str) -> String {
        let table = listed(&self.library);
        let query = self.reference.query;
        format!(
            "difference, {call}:\n  table of {table}\n  query: {query:?}\n  \
             library: {library}\n  reference: {reference}"
        )
    }
}
