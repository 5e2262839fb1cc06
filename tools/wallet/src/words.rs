//! The words of a derivation, and the runs of its automata on them.
//!
//! A word is the list of roles from the goal down to a kind 1 node. Automata
//! start at the goal, in their starting states, and read every role of the
//! word. What is found here is shown; the checker's verdict does not rest on
//! it.

use bwlchareg::Number;

use crate::derivation::{ancestors, numbered, Judged, Node};
use crate::limits::{AUTOMATA, STATES};
use crate::table::{Mark, Role, StateSet, Table};
use crate::Wallet;

/// A set of automata, in which automaton i counts 2^(i-1).
type Automata = u8;

/// A set of states for each automaton, automaton 1 first.
type Standing = [StateSet; AUTOMATA];

/// A word, by its last node.
#[derive(Clone, Copy, Debug, PartialEq, Eq)]
pub struct Word {
    /// The index of its kind 1 node in the list of nodes.
    pub leaf: usize,
    /// The used automata that reject it.
    rejecting: Automata,
}

impl Word {
    /// Whether an automaton, which is a used one, rejects the word.
    pub fn rejected_by(&self, automaton: Number) -> bool {
        is_in(automaton, self.rejecting)
    }
}

/// The words of a derivation, in the order of their last nodes, and the
/// automata that judge them.
#[derive(Clone, Debug, Default, PartialEq, Eq)]
pub struct Words {
    /// The words.
    pub words: Vec<Word>,
    /// The used automata, ascending.
    pub automata: Vec<Number>,
    /// Those of them for which one word is enough.
    lenient: Automata,
    /// Those of them that the words do not meet.
    unmet: Automata,
}

impl Words {
    /// These words, as automata that are used with a table judge them.
    fn new(table: &Table, automata: Vec<Number>, words: Vec<Word>) -> Words {
        let with_mark = |mark| {
            let own = |number: &&Number| table.automaton(**number).is_some_and(|a| a.mark == mark);
            set_of(automata.iter().filter(own))
        };
        let by_some = words.iter().fold(0, |set, word| set | word.rejecting);
        let by_every = words
            .iter()
            .fold(Automata::MAX, |set, word| set & word.rejecting);
        let lenient = with_mark(Mark::SomeWord);
        Words {
            unmet: with_mark(Mark::EveryWord) & by_some | lenient & by_every,
            lenient,
            words,
            automata,
        }
    }

    /// How many of the words an automaton rejects.
    pub fn rejected(&self, automaton: Number) -> usize {
        let words = self.words.iter();
        words.filter(|word| word.rejected_by(automaton)).count()
    }

    /// Whether the words meet what a used automaton demands.
    pub fn is_met(&self, automaton: Number) -> bool {
        !is_in(automaton, self.unmet)
    }

    /// Whether it is for this word, or for this one too, that an automaton is not
    /// met. Where one word is enough, a rejected one is at fault only if all are.
    pub fn is_fault(&self, word: &Word, automaton: Number) -> bool {
        word.rejected_by(automaton) && !self.is_met(automaton)
    }

    /// Whether it is for this word, or for this one too, that some automaton is not
    /// met.
    pub fn is_at_fault(&self, word: &Word) -> bool {
        word.rejecting & self.unmet != 0
    }

    /// Whether one word is enough for an automaton, which is a used one.
    pub fn is_lenient(&self, automaton: Number) -> bool {
        is_in(automaton, self.lenient)
    }

    /// The used automata for which one word is enough, ascending.
    pub fn lenient(&self) -> impl Iterator<Item = Number> + '_ {
        let automata = self.automata.iter().copied();
        automata.filter(|automaton| self.is_lenient(*automaton))
    }

    /// Whether a word meets an automaton for which one word is enough.
    pub fn meets(&self, word: &Word, automaton: Number) -> bool {
        self.is_lenient(automaton) && !word.rejected_by(automaton)
    }
}

/// The words of a judged record, if it is a whole tree; none otherwise. The
/// wallet is the one with which the record was judged.
pub fn words(wallet: &Wallet, judged: &Judged) -> Words {
    if !judged.is_tree() {
        return Words::default();
    }
    let table = &wallet.table;
    let automata = used_automata(table, &judged.nodes);
    // The sets after each level of the branch that leads to the present node.
    let mut branch = vec![start(table)];
    let mut words = Vec::new();
    for (index, node) in judged.nodes.iter().enumerate() {
        branch.truncate(node.level as usize);
        let above = branch.last().copied().unwrap_or_default();
        let reached = moved(table, above, node.goal.role);
        branch.push(reached);
        if is_leaf(&judged.nodes, index) {
            words.push(Word {
                leaf: index,
                rejecting: rejecting(table, &automata, reached),
            });
        }
    }
    Words::new(table, automata, words)
}

/// The credentials that nodes use, ascending.
pub fn used_credentials(nodes: &[Node]) -> Vec<Number> {
    let mut used: Vec<Number> = Vec::new();
    for number in nodes.iter().filter_map(|node| node.credential) {
        if let Err(place) = used.binary_search(&number) {
            used.insert(place, number);
        }
    }
    used
}

/// The credentials that nodes use and to which an automaton is attached, ascending.
pub fn attached(table: &Table, nodes: &[Node], automaton: Number) -> Vec<Number> {
    let mut used = used_credentials(nodes);
    used.retain(|&number| numbered(table, number).is_some_and(|own| own.automaton == automaton));
    used
}

/// The automata that are attached to credentials that nodes use, ascending.
fn used_automata(table: &Table, nodes: &[Node]) -> Vec<Number> {
    let used = used_credentials(nodes).into_iter();
    let credentials = used.filter_map(|number| numbered(table, number));
    let attached = credentials.map(|credential| credential.automaton);
    let mut automata: Vec<Number> = attached.filter(|&automaton| automaton != 0).collect();
    automata.sort_unstable();
    automata.dedup();
    automata
}

/// Whether a node of a whole tree has no child. A child comes right after the
/// node above it.
fn is_leaf(nodes: &[Node], index: usize) -> bool {
    match nodes.get(index + 1) {
        Some(next) => next.parent != Some(index),
        None => true,
    }
}

/// The roles from the goal down to a node.
pub fn roles(judged: &Judged, node: &Node) -> Vec<Role> {
    let above = ancestors(&judged.nodes, node).map(|above| above.goal.role);
    let mut roles = vec![node.goal.role];
    roles.extend(above);
    roles.reverse();
    roles
}

/// The roles of a word.
pub fn spelt(judged: &Judged, word: &Word) -> Vec<Role> {
    roles(judged, &judged.nodes[word.leaf])
}

/// The run of an automaton on a word: its set of states before the first role,
/// then after each.
pub fn run(table: &Table, automaton: Number, word: &[Role]) -> Vec<StateSet> {
    let index = (automaton as usize).wrapping_sub(1);
    let mut standing = start(table);
    let mut run = vec![standing];
    for &role in word {
        standing = moved(table, standing, role);
        run.push(standing);
    }
    let sets = run.iter().filter_map(|standing| standing.get(index));
    sets.copied().collect()
}

/// Whether an automaton accepts a word after which it is in these states.
pub fn accepts(table: &Table, automaton: Number, reached: StateSet) -> bool {
    let accepting = table
        .automaton(automaton)
        .map_or(0, |own| own.accept as StateSet);
    accepting & reached != 0
}

/// The starting sets.
fn start(table: &Table) -> Standing {
    let mut standing = Standing::default();
    for (set, automaton) in standing.iter_mut().zip(&table.automata) {
        *set = automaton.start as StateSet;
    }
    standing
}

/// The sets after one role more: each automaton goes to the `to` states of
/// its matching edges from states in its set.
fn moved(table: &Table, before: Standing, role: Role) -> Standing {
    let mut after = Standing::default();
    for edge in &table.edges {
        let index = (edge.automaton as usize).wrapping_sub(1);
        let there = before.get(index).is_some_and(|set| has(*set, edge.from));
        if there && edge.label.matches(role) {
            after[index] |= (1 as StateSet).checked_shl(u32::from(edge.to)).unwrap_or(0);
        }
    }
    after
}

/// Whether a set has a state.
fn has(set: StateSet, state: Number) -> bool {
    set.checked_shr(u32::from(state)).unwrap_or(0) & 1 == 1
}

/// The states of a set, ascending.
pub fn states(set: StateSet) -> impl Iterator<Item = Number> {
    (0..STATES).filter(move |&state| has(set, state))
}

/// Which of some automata do not accept a word after which all are in these
/// sets.
fn rejecting(table: &Table, automata: &[Number], reached: Standing) -> Automata {
    let rejects = |automaton: &&Number| {
        let index = (**automaton as usize).wrapping_sub(1);
        let own = reached.get(index).copied().unwrap_or(0);
        !accepts(table, **automaton, own)
    };
    set_of(automata.iter().filter(rejects))
}

/// The set of some automata.
fn set_of<'a>(automata: impl Iterator<Item = &'a Number>) -> Automata {
    automata.fold(0, |set, &automaton| set | bit(automaton))
}

/// Whether an automaton is in a set.
fn is_in(automaton: Number, set: Automata) -> bool {
    set & bit(automaton) != 0
}

/// What an automaton counts in a set: nothing, if there is no such automaton.
fn bit(automaton: Number) -> Automata {
    let index = u32::from(automaton).wrapping_sub(1);
    (1 as Automata).checked_shl(index).unwrap_or(0)
}
