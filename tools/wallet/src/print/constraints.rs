//! The constraints' lines. Edges are numbered in the order of their lines, so
//! where edges of several automata stand in turn, `edges of` lines go back to
//! earlier ones.

use std::collections::{BTreeMap, BTreeSet};

use bwlchareg::Number;

use crate::limits::STATES;
use crate::names::Names;
use crate::print::naming::kept;
use crate::print::states::written;
use crate::table::{Edge, Mark, StateSet, Table};
use crate::words;

/// The blocks of lines about constraints, in order. The names of states that
/// cannot be kept are left out of the names.
pub fn blocks(table: &Table, names: &mut Names) -> Vec<Vec<String>> {
    let automata = (1..).take(table.automata.len());
    let heads: Vec<Vec<String>> = automata.map(|number| head(table, names, number)).collect();
    let mut heads = (1..).zip(heads).peekable();
    let mut blocks: Vec<Vec<String>> = Vec::new();
    let same = |one: &Edge, next: &Edge| one.automaton == next.automaton;
    for edges in table.edges.chunk_by(same) {
        let own = edges[0].automaton;
        let mut block = vec![format!("edges of {}", names.constraint(own))];
        while let Some((number, head)) = heads.next_if(|(number, _)| *number <= own) {
            if number == own {
                block = head;
            } else {
                blocks.push(head);
            }
        }
        block.extend(edges.iter().map(|edge| format!("  {}", names.edge(edge))));
        blocks.push(block);
    }
    blocks.extend(heads.map(|(_, head)| head));
    blocks
}

/// The lines of a constraint that stand above its edges.
fn head(table: &Table, names: &mut Names, automaton: Number) -> Vec<String> {
    let states = written(table, automaton, state_words(names, automaton));
    names.states.retain(|(of, _), _| *of != automaton);
    let words = states.words.into_iter();
    names
        .states
        .extend(words.map(|(state, word)| ((automaton, state), word)));
    let own = &table.automata[automaton as usize - 1];
    let start = set("start", own.start, names, automaton);
    let accept = set("accept", own.accept, names, automaton);
    let sets = if states.accept_first {
        [accept, start]
    } else {
        [start, accept]
    };
    let mut lines = vec![format!("constraint {}", names.constraint(automaton))];
    // That every word is demanded need not be said.
    if own.mark == Mark::SomeWord {
        lines.push(format!("  {}", own.mark.text()));
    }
    lines.extend(sets.into_iter().flatten());
    lines
}

/// The words for an automaton's states that a text can have.
fn state_words(names: &Names, automaton: Number) -> BTreeMap<Number, String> {
    let given = names.states.iter();
    let own = given.filter(|((of, _), _)| *of == automaton);
    let own = own
        .map(|((_, state), word)| (*state, word.clone()))
        .collect();
    kept(&own, 0..=STATES - 1, &mut BTreeSet::new())
}

/// The line of a set of states; an empty set has none.
fn set(word: &str, states: Number, names: &Names, automaton: Number) -> Option<String> {
    let states = words::states(states as StateSet)
        .map(|state| format!(" {}", names.state(automaton, state)));
    let states: String = states.collect();
    (!states.is_empty()).then(|| format!("  {word}{states}"))
}
