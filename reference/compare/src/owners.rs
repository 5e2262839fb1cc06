//! How many automata of the compared tables go by owners, that is, have an edge
//! with label 4.

use std::ops::Add;

use reference::table::{Edge, Label, Table};
use reference::Number;

/// One automaton in so many must have label 4 at the least.
const SHARE: u64 = 4;

/// The automata of the accepted tables that have been counted so far.
#[derive(Clone, Copy, Debug, Default, PartialEq, Eq)]
pub struct Automata {
    all: u64,
    by_owner: u64,
}

impl Automata {
    /// Counts the automata of a table, if it is accepted.
    pub fn count(&mut self, table: &[Number]) {
        if let Ok(table) = Table::read(table) {
            self.all += table.automata.len() as u64;
            self.by_owner += u64::from(by_owner(&table).count_ones());
        }
    }

    /// The counts, what they are of, and how great they must be.
    pub fn lines(self) -> [(String, Option<u64>, u64); 2] {
        let least = self.all.div_ceil(SHARE);
        [
            ("automata".into(), Some(self.all), 1),
            ("automata with label 4".into(), Some(self.by_owner), least),
        ]
    }
}

impl Add for Automata {
    type Output = Automata;

    fn add(self, other: Automata) -> Automata {
        Automata {
            all: self.all + other.all,
            by_owner: self.by_owner + other.by_owner,
        }
    }
}

/// Whether an edge has label 4.
pub fn is_by_owner(edge: &Edge) -> bool {
    matches!(edge.label, Label::OwnedBy(_))
}

/// The automata of a table that have an edge with label 4: automaton i counts
/// 2^(i-1).
pub fn by_owner(table: &Table) -> u32 {
    let edges = table.edges.iter().filter(|edge| is_by_owner(edge));
    edges.fold(0, |set, edge| set | 1 << (edge.automaton - 1))
}

/// The table without its edges with label 4, so that these match no role.
pub fn matching_none(mut table: Table) -> Table {
    table.edges.retain(|edge| !is_by_owner(edge));
    table
}

/// The table with every role in the place of an owner's.
pub fn matching_every(mut table: Table) -> Table {
    for edge in table.edges.iter_mut().filter(|edge| is_by_owner(edge)) {
        edge.label = Label::Every;
    }
    table
}

#[cfg(test)]
mod tests {
    use reference::records::Records;
    use reference::shop;
    use reference::table::Table;

    use super::{by_owner, matching_every, matching_none, Automata};

    /// The shop's table T with three automata, of which the last has label 4.
    fn records() -> Records {
        let mut records = Records::read(&shop::T).expect("T is accepted");
        records.automata.extend([[1, 1, 0]; 3]);
        records
            .edges
            .extend([[1, 0, 2, 0, 0, 0], [3, 0, 4, 2, 0, 0]]);
        records
    }

    #[test]
    fn automata_with_label_4_are_counted() {
        let mut automata = Automata::default();
        automata.count(&records().numbers());
        automata.count(&shop::U);
        automata.count(&shop::T);
        automata.count(&[]);
        let (all, by_owner) = (4, 1);
        assert_eq!(automata, Automata { all, by_owner });
        let least = |automata: Automata| automata.lines()[1].2;
        assert_eq!(least(automata), 1);
        assert_eq!(least(automata + automata), 2);
    }

    #[test]
    fn edges_with_label_4_are_left_out_or_widened() {
        let table = Table::read(&records().numbers()).expect("an accepted table");
        assert_eq!(by_owner(&table), 4);
        let (none, every) = (matching_none(table.clone()), matching_every(table.clone()));
        assert_eq!([by_owner(&none), by_owner(&every)], [0, 0]);
        assert_eq!(none.edges, table.edges[..1]);
        assert_eq!(every.edges[1].label, table.edges[0].label);
    }
}
