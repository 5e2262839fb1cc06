//! How the states of a constraint are written, so that each word comes back
//! with the number that it has.

use std::collections::BTreeMap;

use bwlchareg::Number;

use crate::limits::STATES;
use crate::table::{StateSet, Table};
use crate::words::states;

/// How the states of a constraint are written.
pub struct Written {
    /// The words, by state; the others are written as numbers.
    pub words: BTreeMap<Number, String>,
    /// Whether `accept` stands before `start`.
    pub accept_first: bool,
}

/// Writes the states of an automaton with these words where they can be kept:
/// all of them, if `start` before `accept` or the other way around gives them
/// their numbers; else without those that would get others.
pub fn written(table: &Table, automaton: Number, mut words: BTreeMap<Number, String>) -> Written {
    for accept_first in [false, true] {
        let standing = standing(table, automaton, accept_first);
        words.retain(|state, _| standing.contains(state));
        if first_moved(&standing, &words).is_none() {
            return Written {
                words,
                accept_first,
            };
        }
    }
    let standing = standing(table, automaton, false);
    while let Some(state) = first_moved(&standing, &words) {
        words.remove(&state);
    }
    Written {
        words,
        accept_first: false,
    }
}

/// An automaton's states in the order in which they first stand in its text.
fn standing(table: &Table, automaton: Number, accept_first: bool) -> Vec<Number> {
    let sets = &table.automata[automaton as usize - 1];
    let (first, second) = match accept_first {
        false => (sets.start, sets.accept),
        true => (sets.accept, sets.start),
    };
    let own = table
        .edges
        .iter()
        .filter(|edge| edge.automaton == automaton);
    let ends = own.flat_map(|edge| [edge.from, edge.to]);
    let mut all = Vec::new();
    for state in states(first as StateSet)
        .chain(states(second as StateSet))
        .chain(ends)
    {
        if !all.contains(&state) {
            all.push(state);
        }
    }
    all
}

/// The first state whose word would get another number: words get the least
/// ones that are not named as numbers, in the order in which they stand.
fn first_moved(standing: &[Number], words: &BTreeMap<Number, String>) -> Option<Number> {
    let is_word = |state: &Number| words.contains_key(state);
    let named = |state: &Number| standing.contains(state) && !is_word(state);
    let free = (0..STATES).filter(|state| !named(state));
    let mut spoken = standing.iter().copied().filter(is_word).zip(free);
    spoken.find(|(own, given)| own != given).map(|(own, _)| own)
}
