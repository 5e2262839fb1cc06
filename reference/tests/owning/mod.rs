//! How many automata of made-up tables go by owners.

use reference::records::Records;
use reference::Number;

/// The automata of these tables that have an edge with label 4, and all.
pub fn automata(tables: &[Records]) -> [usize; 2] {
    let has_4 = |records: &Records, automaton: Number| {
        let mut edges = records.edges.iter();
        edges.any(|&[of, _, label, ..]| of == automaton && label == 4)
    };
    let with = tables.iter().map(|records| {
        let automata = 1..=records.head().automata;
        automata.filter(|&number| has_4(records, number)).count()
    });
    let all = tables.iter().map(|records| records.automata.len());
    [with.sum(), all.sum()]
}
