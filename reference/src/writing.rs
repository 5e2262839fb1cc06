//! The first record of a minimal set: refusals 15 and 16.
//!
//! The records that use only credentials of the set are gone through one after
//! the other, in ascending order, up to the first that is accepted and uses the
//! whole set.

use std::rc::Rc;

use crate::ascending::Ascending;
use crate::derivation::{Derivation, NODE};
use crate::listing::Minimal;
use crate::pairs::{is_in, Witness};
use crate::patience::Patience;
use crate::query::Asked;
use crate::refusal::Refusal;
use crate::table::Table;
use crate::{words, Number};

/// The first record of a minimal set.
#[derive(Clone, Debug)]
pub struct First {
    /// Its derivation.
    pub witness: Rc<Witness>,
    /// How many records come before it that derive the goal from the set. None
    /// of them is accepted.
    pub passed: usize,
}

/// The first record of a set, if it is one of these, which are all minimal sets
/// for what is asked.
pub fn first(table: &Table, asked: Asked, sets: &[Minimal], set: u32) -> Option<First> {
    if !sets.iter().any(|minimal| minimal.set == set) {
        return None;
    }
    let endless = Patience::new(u64::MAX);
    let first = first_within(endless, table, asked, set);
    Some(first.expect("patience without end"))
}

/// The first record of a minimal set, if there is patience for it.
pub fn first_within(patience: Patience, table: &Table, asked: Asked, set: u32) -> Option<First> {
    let mut ascending = Ascending::new(table, asked, set, patience);
    let mut passed = 0;
    loop {
        let witness = ascending.derivation(passed)?;
        let witness = witness.expect("a minimal set has an accepted record");
        if witness.used_set() == set && is_accepted(&mut ascending, table, asked, &witness)? {
            return Some(First { witness, passed });
        }
        passed += 1;
    }
}

/// Whether the record of a derivation is accepted; if there is patience for it.
fn is_accepted(
    ascending: &mut Ascending,
    table: &Table,
    asked: Asked,
    witness: &Witness,
) -> Option<bool> {
    if is_free(table, witness.used_set()) {
        return Some(true);
    }
    ascending.spend(witness.nodes())?;
    Some(complies(table, asked, witness))
}

/// Whether no credential of a set has an automaton: all its records comply.
fn is_free(table: &Table, set: u32) -> bool {
    let numbered = (1..).zip(&table.credentials);
    let mut used = numbered.filter(|(number, _)| is_in(*number, set));
    used.all(|(_, credential)| credential.automaton.is_none())
}

/// Whether the record of a derivation complies. It is written out and read
/// again, as the verifier would read it.
fn complies(table: &Table, asked: Asked, witness: &Witness) -> bool {
    let derivation = Derivation::read(table, asked, &witness.record());
    let derivation = derivation.expect("the record of a derivation");
    words::comply(table, &derivation).is_ok()
}

/// Writes the first record of a set into the cells and tells its length, or
/// refuses: 15 if there is none, since the set is not minimal, 16 if there are
/// fewer cells than numbers. Where it refuses it changes no cell.
pub fn write(first: Option<&First>, cells: &mut [Number]) -> Result<usize, Refusal> {
    let first = first.ok_or(Refusal::new(15, 0u64))?;
    let length = NODE as u64 * first.witness.nodes();
    if (cells.len() as u64) < length {
        return Err(Refusal::new(16, 0u64));
    }
    let record = first.witness.record();
    cells[..record.len()].copy_from_slice(&record);
    Ok(record.len())
}
