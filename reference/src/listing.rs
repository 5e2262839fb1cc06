//! The list of minimal sets: refusals 9 and 10.
//!
//! Of all pairs that derivations of the goal have, those of accepted records
//! are picked out, and of their used sets those of which no other is a proper
//! part.

use std::rc::Rc;

use crate::enumeration;
use crate::pairs::{is_in, is_part, Pair, Witness};
use crate::patience::Patience;
use crate::query::Asked;
use crate::refusal::Refusal;
use crate::table::{Demand, Table};
use crate::Number;

/// A minimal set.
#[derive(Clone, Debug)]
pub struct Minimal {
    /// The set: credential i counts 2^(i-1).
    pub set: u32,
    /// An accepted derivation with exactly this used set.
    pub witness: Rc<Witness>,
}

/// All minimal sets for what is asked, ascending.
pub fn minimal_sets(table: &Table, asked: Asked) -> Vec<Minimal> {
    let endless = Patience::new(u64::MAX);
    minimal_sets_within(endless, table, asked).expect("patience without end")
}

/// The same, if there is patience for it.
pub fn minimal_sets_within(
    patience: Patience,
    table: &Table,
    asked: Asked,
) -> Option<Vec<Minimal>> {
    let pairs = enumeration::pairs(table, asked, patience)?;
    let accepted = pairs.iter().filter(|found| is_accepted(table, found.pair));
    let sets = accepted.map(|found| Minimal {
        set: found.pair.used,
        witness: Rc::clone(&found.witness),
    });
    let mut sets: Vec<Minimal> = sets.collect();
    sets.sort_by_key(|minimal| minimal.set);
    sets.dedup_by_key(|minimal| minimal.set);
    let all = sets.clone();
    sets.retain(|one| !all.iter().any(|other| is_proper_part(other.set, one.set)));
    Some(sets)
}

/// Writes the list into the cells: as many of the sets as there is room for,
/// from the first on. Tells how many there are, or refuses: 9 if there is none,
/// 10 if there are more than cells.
pub fn write(sets: &[Minimal], cells: &mut [u32]) -> Result<usize, Refusal> {
    for (cell, minimal) in cells.iter_mut().zip(sets) {
        *cell = minimal.set;
    }
    match sets.len() {
        0 => Err(Refusal::new(9, 0u64)),
        count if count > cells.len() => Err(Refusal::new(10, 0u64)),
        count => Ok(count),
    }
}

/// Whether every automaton that is attached to a used credential is met.
pub fn is_accepted(table: &Table, pair: Pair) -> bool {
    let numbered = (1..).zip(&table.credentials);
    let mut used = numbered.filter(|(number, _)| is_in(*number, pair.used));
    used.all(|(_, credential)| match credential.automaton {
        Some(automaton) => is_met(table, automaton, pair),
        None => true,
    })
}

/// Whether the automaton with this number is met by a derivation of this pair.
fn is_met(table: &Table, automaton: Number, pair: Pair) -> bool {
    match table.automata[automaton as usize - 1].demand {
        Demand::EveryWord => !is_in(automaton, pair.rejecting),
        Demand::SomeWord => is_in(automaton, pair.accepting),
    }
}

/// Whether a set is a part of another, and not the whole of it.
fn is_proper_part(part: u32, whole: u32) -> bool {
    is_part(part, whole) && part != whole
}
