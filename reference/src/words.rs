//! The words of a derivation, and the automata that judge them: refusal 14.
//!
//! A word is the list of roles from the goal down to a kind 1 node. Every word
//! is put before every used automaton, from its starting states on. So an
//! automaton does not depend on where its credential stands in the tree, nor on
//! which branch the word is that it demands.

use crate::derivation::Derivation;
use crate::refusal::Refusal;
use crate::sorts::Role;
use crate::table::{Automaton, Demand, Table, LAST_STATE};
use crate::Number;

/// Judges the words of a derivation, or names the lowest used automaton that is
/// not met.
pub fn comply(table: &Table, derivation: &Derivation) -> Result<(), Refusal> {
    let used_set = derivation.used_set();
    for number in (1..).take(table.automata.len()) {
        if is_used(table, number, used_set) && !is_met(table, number, derivation) {
            return Err(Refusal::new(14, number));
        }
    }
    Ok(())
}

/// Whether the words of a derivation are as the automaton with this number
/// demands, used or not.
pub fn is_met(table: &Table, number: Number, derivation: &Derivation) -> bool {
    let accepted = |word: &[Role]| accepts(table, number, word);
    match table.automata[number as usize - 1].demand {
        Demand::EveryWord => every_word(derivation, accepted),
        Demand::SomeWord => some_word(derivation, accepted),
    }
}

/// Whether an automaton is attached to one of the used credentials.
fn is_used(table: &Table, automaton: Number, used_set: u32) -> bool {
    let numbered = table.credentials.iter().enumerate();
    let mut used = numbered.filter(|(index, _)| (used_set >> index) & 1 == 1);
    used.any(|(_, credential)| credential.automaton == Some(automaton))
}

/// Whether something holds of some word of a derivation.
pub fn some_word(derivation: &Derivation, mut holds: impl FnMut(&[Role]) -> bool) -> bool {
    !every_word(derivation, |word| !holds(word))
}

/// Whether something holds of every word of a derivation. A record may have
/// millions of words, so they are made one at a time.
pub fn every_word(derivation: &Derivation, mut holds: impl FnMut(&[Role]) -> bool) -> bool {
    every_word_below(&mut Vec::new(), derivation, &mut holds)
}

/// The same for a part of a derivation, which stands below these roles.
fn every_word_below(
    above: &mut Vec<Role>,
    derivation: &Derivation,
    holds: &mut impl FnMut(&[Role]) -> bool,
) -> bool {
    above.push(derivation.goal.role);
    let held = if derivation.premises.is_empty() {
        holds(above)
    } else {
        let mut premises = derivation.premises.iter();
        premises.all(|premise| every_word_below(above, premise, holds))
    };
    above.pop();
    held
}

/// The words of a derivation, from left to right.
pub fn words(derivation: &Derivation) -> Vec<Vec<Role>> {
    let mut words = Vec::new();
    every_word(derivation, |word| {
        words.push(word.to_vec());
        true
    });
    words
}

/// A set of states: whether it has state 0, state 1, and so on.
type States = [bool; LAST_STATE as usize + 1];

/// The states of a set in which state s counts 2^s.
fn states(set: Number) -> States {
    std::array::from_fn(|state| (set >> state) & 1 == 1)
}

/// Where each automaton can be after some roles, automaton 1 first. With this
/// at hand the words of many derivations need not be read from the start.
#[derive(Clone, Debug, PartialEq, Eq, Hash)]
pub struct Standing(Vec<States>);

impl Standing {
    /// Before the first role.
    pub fn start(table: &Table) -> Standing {
        let automata = table.automata.iter();
        Standing(
            automata
                .map(|automaton| states(automaton.starting))
                .collect(),
        )
    }

    /// After one role more.
    pub fn after(&self, table: &Table, role: Role) -> Standing {
        let numbered = (1..).zip(&self.0);
        let stepped = numbered.map(|(number, &before)| step(table, number, before, role));
        Standing(stepped.collect())
    }

    /// The automata that demand every word, and reject the word of these roles:
    /// automaton i counts 2^(i-1).
    pub fn rejecting(&self, table: &Table) -> u32 {
        self.judging(table, Demand::EveryWord, false)
    }

    /// The automata that demand some word, and accept the word of these roles:
    /// automaton i counts 2^(i-1).
    pub fn accepting(&self, table: &Table) -> u32 {
        self.judging(table, Demand::SomeWord, true)
    }

    /// The automata that demand so, and accept the word of these roles or reject
    /// it.
    fn judging(&self, table: &Table, demand: Demand, accepted: bool) -> u32 {
        let each = self.0.iter().zip(&table.automata).enumerate();
        let judging = each.filter(|(_, (reached, automaton))| {
            automaton.demand == demand && meets(reached, automaton) == accepted
        });
        judging.map(|(index, _)| 1 << index).sum()
    }

    /// The automata that are dead, in no state at all: automaton i counts
    /// 2^(i-1).
    pub fn dead(&self) -> u32 {
        let numbered = self.0.iter().enumerate();
        let dead = numbered.filter(|&(_, reached)| *reached == states(0));
        dead.map(|(index, _)| 1 << index).sum()
    }
}

/// Whether the automaton with this number accepts a word: whether it can end
/// in an accepting state.
pub fn accepts(table: &Table, number: Number, word: &[Role]) -> bool {
    let automaton = &table.automata[number as usize - 1];
    let mut reached = states(automaton.starting);
    for &role in word {
        reached = step(table, number, reached, role);
    }
    meets(&reached, automaton)
}

/// Whether one of these states is an accepting one.
fn meets(reached: &States, automaton: &Automaton) -> bool {
    let accepting = states(automaton.accepting);
    reached
        .iter()
        .zip(accepting)
        .any(|(&one, other)| one && other)
}

/// Where an automaton can be after a role, given where it can be before.
fn step(table: &Table, number: Number, before: States, role: Role) -> States {
    let mut after = states(0);
    let own = table.edges.iter().filter(|edge| edge.automaton == number);
    for edge in own {
        if before[edge.from as usize] && edge.label.matches(role) {
            after[edge.to as usize] = true;
        }
    }
    after
}
