//! Where the automata stand, for the enumeration of proofs.
//!
//! A set of states is a number in which state s counts 2^s, and so is a set of
//! automata, in which automaton i counts 2^(i-1).

use reference::sorts::Role;
use reference::table::Table;
use reference::Number;

/// So many automata a table has at most.
const MOST: usize = 8;

/// A set of states.
type StateSet = u16;

/// The states in which each automaton can be, automaton 1 first.
pub type States = [StateSet; MOST];

/// The automata of a table.
pub struct Automata<'a> {
    table: &'a Table,
    /// The states from which an accepting state can be reached.
    hopeful: States,
}

impl<'a> Automata<'a> {
    /// The automata of a table.
    pub fn new(table: &'a Table) -> Automata<'a> {
        let mut hopeful = each(table, |automaton| automaton.accepting);
        loop {
            let before = hopeful;
            for edge in &table.edges {
                let states = &mut hopeful[edge.automaton as usize - 1];
                if (*states >> edge.to) & 1 == 1 {
                    *states |= 1 << edge.from;
                }
            }
            if hopeful == before {
                return Automata { table, hopeful };
            }
        }
    }

    /// Before the first role.
    pub fn start(&self) -> States {
        each(self.table, |automaton| automaton.starting)
    }

    /// After one role more.
    pub fn after(&self, states: &States, role: Role) -> States {
        let mut after = [0; MOST];
        for edge in &self.table.edges {
            let index = edge.automaton as usize - 1;
            if (states[index] >> edge.from) & 1 == 1 && edge.label.matches(role) {
                after[index] |= 1 << edge.to;
            }
        }
        after
    }

    /// The automata that reject a word which ends here.
    pub fn rejecting(&self, states: &States) -> u8 {
        without(states, &each(self.table, |automaton| automaton.accepting))
    }

    /// The automata that reject a word which goes on from here, however it
    /// does.
    pub fn hopeless(&self, states: &States) -> u8 {
        without(states, &self.hopeful)
    }
}

/// A set of states for each automaton of a table.
fn each(table: &Table, set: impl Fn(&reference::table::Automaton) -> Number) -> States {
    let mut sets = [0; MOST];
    for (place, automaton) in sets.iter_mut().zip(&table.automata) {
        *place = set(automaton) as StateSet;
    }
    sets
}

/// The automata that are in none of these states.
fn without(states: &States, wanted: &States) -> u8 {
    let both = states.iter().zip(wanted).enumerate();
    let without = both.filter(|(_, (states, wanted))| *states & *wanted == 0);
    without.map(|(index, _)| 1 << index).sum()
}
