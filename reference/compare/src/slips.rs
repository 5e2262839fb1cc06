//! Slips that are easily made where a state set is moved along a role, each by a
//! table for which moving it rightly does what the slip does for the given one.

use std::fmt;

use reference::derivation::Derivation;
use reference::table::{Edge, Label, Table};
use reference::words::comply;
use reference::Number;

/// A table of so many edges has many.
pub const MANY: usize = 100;
/// Each slip must show on such tables so often at the least.
pub const LEAST: u64 = 50;

/// Something that may go wrong where a state set is moved along a role.
#[derive(Clone, Copy, Debug, PartialEq, Eq, PartialOrd, Ord)]
pub enum Slip {
    /// The last edge is not looked at.
    Last,
    /// Of equal edges of several automata only the first counts.
    Merged,
    /// Of an automaton's edges with one label to one state only the last counts.
    OneFrom,
    /// Of an automaton's edges with one label from one state only the last
    /// counts.
    OneTo,
    /// Edges to lower states are not looked at.
    Down,
    /// Edges to higher states are not looked at.
    Up,
    /// Every automaton goes by the edges of all.
    Pooled,
    /// Edges for one role match all roles of the owner.
    AnyName,
    /// Edges for one role match all roles with the name.
    AnyOwner,
}

impl Slip {
    /// The slips by which a record may be rejected that is accepted: edges are
    /// missing.
    pub const MISSING: [Slip; 6] = [
        Slip::Last,
        Slip::Merged,
        Slip::OneFrom,
        Slip::OneTo,
        Slip::Down,
        Slip::Up,
    ];

    /// The slips by which a record may be accepted that is rejected: there are
    /// more edges, or they match more.
    pub const MORE: [Slip; 3] = [Slip::Pooled, Slip::AnyName, Slip::AnyOwner];

    /// Every slip that there is.
    pub fn all() -> impl Iterator<Item = Slip> {
        Slip::MISSING.into_iter().chain(Slip::MORE)
    }

    /// The table for which moving a state set rightly does what the slip does
    /// for this one.
    pub fn table(self, table: &Table) -> Table {
        let edges = match self {
            Slip::Last => kept(table, |_, _, behind| !behind.is_empty()),
            Slip::Merged => kept(table, |edge, before, _| {
                !before.iter().any(|e| twins(e, edge))
            }),
            Slip::OneFrom => kept(table, |edge, _, behind| {
                !behind.iter().any(|e| own(e, edge) && e.to == edge.to)
            }),
            Slip::OneTo => kept(table, |edge, _, behind| {
                !behind.iter().any(|e| own(e, edge) && e.from == edge.from)
            }),
            Slip::Down => kept(table, |edge, _, _| edge.to >= edge.from),
            Slip::Up => kept(table, |edge, _, _| edge.to <= edge.from),
            Slip::Pooled => pooled(table),
            Slip::AnyName => table.edges.iter().map(of_any_name).collect(),
            Slip::AnyOwner => of_any_owner(table),
        };
        Table {
            edges,
            ..table.clone()
        }
    }
}

/// Whether a table has many edges.
pub fn has_many_edges(table: &Table) -> bool {
    table.edges.len() >= MANY
}

/// The slips by which a derivation that complies would not; none if the table
/// does not have many edges.
pub fn rejecting(table: &Table, derivation: &Derivation) -> Vec<Slip> {
    let rejects = |slip: &Slip| comply(&slip.table(table), derivation).is_err();
    match has_many_edges(table) {
        true => Slip::MISSING.into_iter().filter(rejects).collect(),
        false => Vec::new(),
    }
}

/// The edges of a table that are to be kept, given those before and behind.
fn kept(table: &Table, keeps: impl Fn(&Edge, &[Edge], &[Edge]) -> bool) -> Vec<Edge> {
    let edges = &table.edges;
    let kept = |&index: &usize| keeps(&edges[index], &edges[..index], &edges[index + 1..]);
    let kept = (0..edges.len()).filter(kept);
    kept.map(|index| edges[index].clone()).collect()
}

/// Whether two edges differ in the automaton at most.
fn twins(one: &Edge, other: &Edge) -> bool {
    (one.from, &one.label, one.to) == (other.from, &other.label, other.to)
}

/// Whether two edges are one automaton's and have the same label.
fn own(one: &Edge, other: &Edge) -> bool {
    (one.automaton, &one.label) == (other.automaton, &other.label)
}

/// The edges of a table, for every automaton.
fn pooled(table: &Table) -> Vec<Edge> {
    let automata = 1..=table.automata.len() as Number;
    let of = |automaton: Number| {
        let edges = table.edges.iter().cloned();
        edges.map(move |edge| Edge { automaton, ..edge })
    };
    automata.flat_map(of).collect()
}

/// The edge, for all roles of the owner if it is for one.
fn of_any_name(edge: &Edge) -> Edge {
    let mut edge = edge.clone();
    if let Label::Exactly(role) = edge.label {
        edge.label = Label::OwnedBy(role.owner);
    }
    edge
}

/// The edges of a table, and for each that is for one role those for the other
/// roles with its name that are defined.
fn of_any_owner(table: &Table) -> Vec<Edge> {
    let mut edges = table.edges.clone();
    for edge in &table.edges {
        let Label::Exactly(role) = edge.label else {
            continue;
        };
        let defined = table.credentials.iter().map(|credential| credential.role);
        let others = defined.filter(|other| other.name == role.name && *other != role);
        edges.extend(others.map(|other| Edge {
            label: Label::Exactly(other),
            ..edge.clone()
        }));
    }
    edges
}

impl fmt::Display for Slip {
    fn fmt(&self, out: &mut fmt::Formatter<'_>) -> fmt::Result {
        out.pad(match self {
            Slip::Last => "without the last edge",
            Slip::Merged => "if equal edges were one",
            Slip::OneFrom => "with one from-state",
            Slip::OneTo => "with one to-state",
            Slip::Down => "without edges down",
            Slip::Up => "without edges up",
            Slip::Pooled => "if all had all edges",
            Slip::AnyName => "if names did not count",
            Slip::AnyOwner => "if owners did not count",
        })
    }
}

#[cfg(test)]
mod tests {
    use reference::derivation::Derivation;
    use reference::generate::full;
    use reference::records::{EdgeRecord, Records};
    use reference::table::Table;
    use reference::Number;

    use super::{rejecting, Slip};

    /// The roles 1.1, 1.2 and 2.2, and two automata with these edges.
    fn table(edges: &[EdgeRecord]) -> Table {
        let records = Records {
            credentials: [[1, 1], [1, 2], [2, 2]]
                .map(|[owner, name]| [owner, name, 1, 9, 0, 0])
                .to_vec(),
            cells: vec![],
            automata: vec![[1, 2, 0]; 2],
            edges: edges.to_vec(),
        };
        Table::read(&records.numbers()).expect("an accepted table")
    }

    /// Up by 1.2, level by every role, down by 1.2; and the first is the other
    /// automaton's too.
    const EDGES: [EdgeRecord; 4] = [
        [1, 0, 1, 1, 2, 3],
        [1, 3, 2, 0, 0, 3],
        [1, 5, 1, 1, 2, 3],
        [2, 0, 1, 1, 2, 3],
    ];

    /// Whether a slip amounts to these edges in the place of some.
    fn amounts(slip: Slip, edges: &[EdgeRecord], to: &[EdgeRecord]) -> bool {
        slip.table(&table(edges)) == table(to)
    }

    #[test]
    fn slips_leave_edges_out() {
        let [up, level, down, other] = EDGES;
        assert!(amounts(Slip::Last, &EDGES, &[up, level, down]));
        assert!(amounts(Slip::Last, &[], &[]));
        assert!(amounts(Slip::Merged, &EDGES, &[up, level, down]));
        assert!(amounts(Slip::OneFrom, &EDGES, &[level, down, other]));
        assert!(amounts(Slip::OneTo, &EDGES, &EDGES));
        let lower = [1, 0, 1, 1, 2, 0];
        assert!(amounts(Slip::OneTo, &[up, other, lower], &[other, lower]));
        assert!(amounts(Slip::Down, &EDGES, &[up, level, other]));
        assert!(amounts(Slip::Up, &EDGES, &[level, down]));
    }

    #[test]
    fn slips_add_edges_and_roles() {
        let [up, level, _, _] = EDGES;
        let others = [[2, 0, 1, 1, 2, 3], [2, 3, 2, 0, 0, 3]];
        let all = [up, level, others[0], others[1]];
        assert!(amounts(Slip::Pooled, &[up, level], &all));
        let by_owner = [1, 0, 4, 1, 0, 3];
        assert!(amounts(Slip::AnyName, &[up, level], &[by_owner, level]));
        let by_name = [1, 0, 1, 2, 2, 3];
        assert!(amounts(Slip::AnyOwner, &[up, level], &[up, level, by_name]));
    }

    /// The slips by which the record of a way of a full table with so many edges
    /// would be rejected.
    fn slips(edges: Number, way: usize) -> Vec<Slip> {
        let table = full::records(edges).numbers();
        let table = Table::read(&table).expect("an accepted table");
        let asked = full::ASKED.read().expect("a valid query");
        let derivation = Derivation::read(&table, asked, &full::WAYS[way]);
        rejecting(&table, &derivation.expect("a right record"))
    }

    #[test]
    fn a_record_is_rejected_by_slips_where_there_are_many_edges() {
        for edges in [100, 128] {
            assert!(!slips(edges, 0).contains(&Slip::Last));
            assert!(slips(edges, 1).contains(&Slip::Last));
            for slip in [Slip::Merged, Slip::Down, Slip::Up] {
                assert!([0, 1].iter().all(|&way| slips(edges, way).contains(&slip)));
            }
        }
        assert_eq!(slips(99, 1), []);
    }
}
