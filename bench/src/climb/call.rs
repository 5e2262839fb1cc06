//! The call that is climbed on, and what it costs.

use std::sync::Arc;

use bwlchareg::Refusal;

use super::watch::Watch;
use crate::clubs;
use crate::families::{growing, Named};
use crate::listing::Listing;
use crate::writing::harder;

/// Records are written for so many sets of a list at the most, which are spread
/// over it: a list of hundreds would take hundreds of times as long.
const SETS: usize = 32;

/// The call that is climbed on.
#[derive(Clone, Copy, Debug, PartialEq, Eq)]
pub enum Call {
    /// Listing: the time of the list counts.
    List,
    /// Writing: the time of a record for each of its cells counts, and of all
    /// sets of the list the one with the most.
    Write,
}

/// The record of a set, with the time of writing it.
#[derive(Clone, Copy, Debug, PartialEq)]
pub struct Record {
    /// The set.
    pub set: u32,
    /// How many cells it has.
    pub cells: usize,
    /// The time in nanoseconds; without end if it is over the limit.
    pub time: f64,
}

impl Record {
    /// The time for each cell.
    pub fn each(&self) -> f64 {
        self.time / self.cells as f64
    }
}

impl Call {
    /// The tables of known shapes that are climbed from.
    pub fn shapes(self) -> Vec<Named> {
        let shapes = [growing(), clubs::tables::of_ten()].concat();
        match self {
            Call::List => shapes,
            Call::Write => [shapes, harder::own()].concat(),
        }
    }

    /// What a listing costs, in nanoseconds; without end if the call is over the
    /// limit.
    pub fn cost(self, watch: &mut Watch, listing: &Arc<Listing>) -> f64 {
        match self {
            Call::List => watch.list(listing).map_or(f64::INFINITY, |(_, time)| time),
            Call::Write => costliest(watch, listing).map_or(0.0, |record| record.each()),
        }
    }
}

/// The record of a list that takes the longest for each of its cells. There is
/// none if the list is empty or over the limit, nor if all are longer than the
/// buffer.
pub fn costliest(watch: &mut Watch, listing: &Arc<Listing>) -> Option<Record> {
    let (sets, _) = watch.list(listing)?;
    let step = sets.len().div_ceil(SETS).max(1);
    let sets = sets.into_iter().step_by(step);
    let records = sets.filter_map(|set| written(watch, listing, set));
    records.max_by(|one, other| one.each().total_cmp(&other.each()))
}

/// The record of a set of the list, unless it is longer than the buffer.
fn written(watch: &mut Watch, listing: &Arc<Listing>, set: u32) -> Option<Record> {
    let (cells, time) = match watch.write(listing, set) {
        Some((Ok(cells), time)) => (cells, time),
        Some((Err(refusal), _)) if refusal.number == Refusal::LONGER_RECORD => return None,
        Some((Err(refusal), _)) => panic!("set {set} of {listing:?} is refused: {refusal}"),
        None => (1, f64::INFINITY),
    };
    Some(Record { set, cells, time })
}

#[cfg(test)]
mod tests {
    use super::{costliest, Call, Watch};
    use crate::families;
    use crate::listing::Listing;
    use reference::query::Query;
    use reference::shop;
    use std::sync::Arc;
    use std::time::Duration;

    const LONG: Duration = Duration::from_secs(60);

    #[test]
    fn the_costliest_record_is_one_of_the_list() {
        let shop = Arc::new(Listing::of(&families::shop(&shop::T)));
        let mut watch = Watch::new(LONG);
        let record = costliest(&mut watch, &shop).expect("a record");
        assert!([(7, 6), (8, 2)].contains(&(record.set, record.cells)));
        assert!(Call::Write.cost(&mut watch, &shop).is_normal());
        assert!(Call::List.cost(&mut watch, &shop).is_normal());
    }

    #[test]
    fn no_record_costs_nothing() {
        let mut nobody = families::shop(&shop::T);
        nobody.query = Query {
            principal: 9,
            ..nobody.query
        };
        let mut watch = Watch::new(LONG);
        for wallet in [nobody, families::sixteen_levels()] {
            let listing = Arc::new(Listing::of(&wallet));
            assert_eq!(Call::Write.cost(&mut watch, &listing), 0.0);
        }
    }
}
