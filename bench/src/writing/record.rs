//! A set of a list with its record: what is written and verified.

use std::time::Duration;

use bwlchareg::{Number, Refusal};

use crate::listing::Listing;
use crate::timing::in_turns;

/// So many cells are lent, enough for 131,072 nodes.
pub const CELLS: usize = 1 << 18;

/// A set of the list of a table and a query, and the record that the library
/// writes for it.
pub struct Written {
    listing: Listing,
    set: u32,
    record: Vec<Number>,
}

impl Written {
    /// The records of all sets of a list, in its order.
    pub fn all(listing: &Listing) -> Vec<Written> {
        let sets = listing.library_list().expect("an accepted listing");
        let mut cells = vec![0; CELLS];
        let written = |set: u32| Written::new(listing, set, &mut cells);
        sets.into_iter().map(written).collect()
    }

    /// The record of a set of the list. Only what is right is worth timing.
    pub fn new(listing: &Listing, set: u32, cells: &mut [Number]) -> Written {
        let length = listing.write(set, cells).expect("a record that fits");
        let record = cells[..length].to_vec();
        assert_eq!(
            listing.verify(&record),
            Ok(set),
            "the record of {listing:?}"
        );
        Written {
            listing: listing.clone(),
            set,
            record,
        }
    }

    /// The set.
    pub fn set(&self) -> u32 {
        self.set
    }

    /// As many cells as the record has.
    pub fn cells(&self) -> Vec<Number> {
        self.record.clone()
    }

    /// Writes the record again.
    pub fn write(&self, cells: &mut [Number]) -> Result<usize, Refusal> {
        self.listing.write(self.set, cells)
    }

    /// Verifies the record again.
    pub fn verify(&self) -> Result<u32, Refusal> {
        self.listing.verify(&self.record)
    }

    /// How many nodes the record has.
    pub fn nodes(&self) -> usize {
        self.record.len() / 2
    }

    /// The times of writing and of verifying it, in nanoseconds, in rounds that
    /// last so long at the least.
    pub fn times(&self, round: Duration) -> [f64; 2] {
        let mut cells = self.cells();
        in_turns(round, || self.write(&mut cells), || self.verify())
    }
}
