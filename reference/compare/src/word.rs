//! The verifier's word on a list.
//!
//! A list is right if each of its sets is the used set of a record that the
//! verifier accepts, and if every record that it accepts uses all of a listed
//! set. Of the second only samples can be taken: records grown at random.

use std::ops::Add;

use reference::generate::growth::{Policy, Wish};
use reference::generate::listings::Listing;
use reference::listing::Minimal;
use reference::pairs::is_part;
use reference::query::Query;
use reference::random::Random;
use reference::records::Records;
use reference::Number;

use crate::library_query;
use crate::report::{listed, PRINTED};

/// A record of more nodes is not written out.
const LONGEST: u64 = 100_000;
/// So many records are grown for a listing.
const GROWN: usize = 2;

/// What the verifier has said so far.
#[derive(Default)]
pub struct Word {
    /// Listed sets with a record that is accepted with just this used set.
    pub proved: u64,
    /// Listed sets whose record is too long to write out.
    pub too_long: u64,
    /// Grown records that are accepted, and use a listed set and no more.
    pub same: u64,
    /// Grown records that are accepted, and use more than a listed set.
    pub greater: u64,
    /// Grown records that are not accepted.
    pub rejected: u64,
    /// Records of which the verifier says something else.
    pub failed: u64,
}

impl Word {
    /// Asks the verifier about the minimal sets of a listing, none perhaps.
    pub fn ask(&mut self, random: &mut Random, listing: &Listing, sets: &[Minimal]) {
        for minimal in sets {
            self.ask_about(listing, minimal);
        }
        let records = Records::read(&listing.table).expect("an accepted table");
        let policy = Policy::new(records);
        for _ in 0..GROWN {
            if let Some(record) = grown(random, &policy, listing.query) {
                self.ask_whether_listed(listing, sets, &record);
            }
        }
    }

    /// Whether the record of a listed set is accepted, with just this set.
    fn ask_about(&mut self, listing: &Listing, minimal: &Minimal) {
        if minimal.witness.nodes() > LONGEST {
            self.too_long += 1;
            return;
        }
        let record = minimal.witness.record();
        match verdict(listing, &record) {
            Some(used) if used == minimal.set => self.proved += 1,
            other => self.fail(listing, &record, other, "a listed set's record"),
        }
    }

    /// Whether a record that is accepted uses all of a listed set.
    fn ask_whether_listed(&mut self, listing: &Listing, sets: &[Minimal], record: &[Number]) {
        let Some(used) = verdict(listing, record) else {
            self.rejected += 1;
            return;
        };
        if sets.iter().any(|minimal| minimal.set == used) {
            self.same += 1;
        } else if sets.iter().any(|minimal| is_part(minimal.set, used)) {
            self.greater += 1;
        } else {
            self.fail(listing, record, Some(used), "a record without a listed set");
        }
    }

    /// Counts a failure and prints it.
    fn fail(&mut self, listing: &Listing, record: &[Number], used: Option<u32>, what: &str) {
        self.failed += 1;
        if self.failed <= PRINTED {
            println!("the verifier's word, {what}:");
            println!("  table of {}", listed(&listing.table));
            println!("  query: {:?}", listing.query);
            println!("  record of {}", listed(record));
            println!("  accepted with: {used:?}");
        }
    }
}

impl Add for Word {
    type Output = Word;

    fn add(self, other: Word) -> Word {
        Word {
            proved: self.proved + other.proved,
            too_long: self.too_long + other.too_long,
            same: self.same + other.same,
            greater: self.greater + other.greater,
            rejected: self.rejected + other.rejected,
            failed: self.failed + other.failed,
        }
    }
}

/// The used set with which the library accepts a record, if it does.
fn verdict(listing: &Listing, record: &[Number]) -> Option<u32> {
    let query = library_query(listing.query);
    bwlchareg::verify(&listing.table, query, record).ok()
}

/// A record that derives the query, if one is found.
pub fn grown(random: &mut Random, policy: &Policy, query: Query) -> Option<Vec<Number>> {
    let asked = query.read().expect("a valid query");
    let wish = Wish {
        depth: asked.depth,
        nodes: *random.pick(&[1, 4, 16, 64]),
        deep: random.one_in(2),
        repeats: false,
    };
    let nodes = policy.grow(random, asked.goal, wish)?;
    Some(reference::generate::claims::numbers(&nodes))
}
