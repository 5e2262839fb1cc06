//! The places where an input can be damaged.

use std::fmt;

use crate::records::{CredentialRecord, EdgeRecord, Head, Records};
use crate::sorts::HIGHEST;
use crate::table::{EVERY_STATE, LAST_STATE};
use crate::Number;

/// A kind of field, or another thing that can be wrong with an input.
#[derive(Clone, Copy, Debug, PartialEq, Eq, PartialOrd, Ord)]
pub enum Place {
    /// The head's count of credentials, n.
    HeadCredentials,
    /// The head's count of part cells, q.
    HeadCells,
    /// The head's count of automata, a.
    HeadAutomata,
    /// The head's count of edges, e.
    HeadEdges,
    /// The number of numbers.
    Length,
    /// A credential's owner.
    CredentialOwner,
    /// A credential's name.
    CredentialName,
    /// A credential's kind.
    CredentialKind,
    /// The first field of a credential of this kind.
    CredentialFirst(Number),
    /// The second field of a credential of this kind.
    CredentialSecond(Number),
    /// A credential's automaton.
    CredentialAutomaton,
    /// A part cell's principal.
    CellPrincipal,
    /// A part cell's name.
    CellName,
    /// A part cell's next.
    CellNext,
    /// The number of cells in a chain.
    Chain,
    /// An automaton's starting set.
    AutomatonStarting,
    /// An automaton's accepting set.
    AutomatonAccepting,
    /// An automaton's mark.
    AutomatonMark,
    /// An edge's automaton.
    EdgeAutomaton,
    /// The state that an edge leaves.
    EdgeFrom,
    /// An edge's label.
    EdgeLabel,
    /// The owner of an edge with this label.
    EdgeOwner(Number),
    /// The name of an edge with this label.
    EdgeName(Number),
    /// The state that an edge enters.
    EdgeTo,
    /// The query's principal.
    QueryPrincipal,
    /// The query's owner.
    QueryOwner,
    /// The query's name.
    QueryName,
    /// The query's depth limit.
    QueryDepth,
}

impl Place {
    /// The places of the head's four counts.
    pub const HEAD: [Place; 4] = [
        Place::HeadCredentials,
        Place::HeadCells,
        Place::HeadAutomata,
        Place::HeadEdges,
    ];

    /// The places of the query's four fields.
    pub const QUERY: [Place; 4] = [
        Place::QueryPrincipal,
        Place::QueryOwner,
        Place::QueryName,
        Place::QueryDepth,
    ];

    /// Every place that there is.
    pub fn all() -> Vec<Place> {
        let mut places = vec![Place::Length, Place::CredentialOwner, Place::CredentialName];
        places.extend(Place::HEAD);
        places.push(Place::CredentialKind);
        places.extend([1, 2, 3, 4].map(Place::CredentialFirst));
        places.extend([1, 2, 3, 4].map(Place::CredentialSecond));
        places.extend([Place::CredentialAutomaton, Place::CellPrincipal]);
        places.extend([Place::CellName, Place::CellNext, Place::Chain]);
        places.extend([Place::AutomatonStarting, Place::AutomatonAccepting]);
        places.push(Place::AutomatonMark);
        places.extend([Place::EdgeAutomaton, Place::EdgeFrom, Place::EdgeLabel]);
        places.extend([1, 2, 3, 4].map(Place::EdgeOwner));
        places.extend([1, 2, 3, 4].map(Place::EdgeName));
        places.push(Place::EdgeTo);
        places.extend(Place::QUERY);
        places.sort();
        places
    }

    /// The refusals that damage here can lead to, when nothing else is wrong.
    /// The first is the one for a value out of range. Any number is a set of
    /// states, so damage to an automaton's sets is never refused.
    pub fn refusals(self) -> &'static [u32] {
        match self {
            Place::HeadCredentials | Place::HeadCells => &[2, 3],
            Place::HeadAutomata | Place::HeadEdges => &[2, 3],
            Place::Length => &[3, 1],
            Place::CredentialKind | Place::CredentialFirst(4) => &[4, 6],
            Place::CredentialOwner | Place::CredentialName | Place::CredentialAutomaton => &[4],
            Place::CredentialFirst(_) | Place::CredentialSecond(_) => &[4],
            Place::CellPrincipal | Place::CellName => &[5],
            Place::CellNext => &[5, 6],
            Place::Chain => &[6],
            Place::AutomatonStarting | Place::AutomatonAccepting => &[],
            Place::AutomatonMark => &[17],
            Place::EdgeAutomaton | Place::EdgeFrom | Place::EdgeLabel | Place::EdgeTo => &[7],
            Place::EdgeOwner(_) | Place::EdgeName(_) => &[7],
            Place::QueryPrincipal | Place::QueryOwner => &[8],
            Place::QueryName | Place::QueryDepth => &[8],
        }
    }
}

impl fmt::Display for Place {
    fn fmt(&self, out: &mut fmt::Formatter<'_>) -> fmt::Result {
        let words = match self {
            Place::HeadCredentials => "head n".into(),
            Place::HeadCells => "head q".into(),
            Place::HeadAutomata => "head a".into(),
            Place::HeadEdges => "head e".into(),
            Place::Length => "length".into(),
            Place::CredentialOwner => "credential owner".into(),
            Place::CredentialName => "credential name".into(),
            Place::CredentialKind => "credential kind".into(),
            Place::CredentialFirst(kind) => format!("credential first, kind {kind}"),
            Place::CredentialSecond(kind) => format!("credential second, kind {kind}"),
            Place::CredentialAutomaton => "credential automaton".into(),
            Place::CellPrincipal => "cell principal".into(),
            Place::CellName => "cell name".into(),
            Place::CellNext => "cell next".into(),
            Place::Chain => "chain".into(),
            Place::AutomatonStarting => "automaton starting set".into(),
            Place::AutomatonAccepting => "automaton accepting set".into(),
            Place::AutomatonMark => "automaton mark".into(),
            Place::EdgeAutomaton => "edge automaton".into(),
            Place::EdgeFrom => "edge from".into(),
            Place::EdgeLabel => "edge label".into(),
            Place::EdgeOwner(label) => format!("edge owner, label {label}"),
            Place::EdgeName(label) => format!("edge name, label {label}"),
            Place::EdgeTo => "edge to".into(),
            Place::QueryPrincipal => "query principal".into(),
            Place::QueryOwner => "query owner".into(),
            Place::QueryName => "query name".into(),
            Place::QueryDepth => "query depth".into(),
        };
        out.pad(&words)
    }
}

/// One number of a table: what it is, and how great it may be.
#[derive(Clone, Copy, Debug, PartialEq, Eq)]
pub struct Field {
    /// Where it lies in the slice, from 0.
    pub index: usize,
    /// What it is.
    pub place: Place,
    /// The greatest value that it may have, whatever the others are.
    pub limit: Number,
    /// The number of its record; 0 in the head.
    pub record: Number,
}

/// Every number of the table with these records, in order.
pub fn fields(records: &Records) -> Vec<Field> {
    let head = records.head();
    let places: Vec<Vec<(Place, Number)>> = [head_places()]
        .into_iter()
        .chain(
            records
                .credentials
                .iter()
                .map(|r| credential_places(r, head)),
        )
        .chain(records.cells.iter().map(|_| cell_places(head)))
        .chain(records.automata.iter().map(|_| automaton_places()))
        .chain(records.edges.iter().map(|r| edge_places(r, head)))
        .collect();
    places
        .into_iter()
        .zip(record_numbers(head))
        .flat_map(|(record, number)| record.into_iter().map(move |place| (place, number)))
        .enumerate()
        .map(|(index, ((place, limit), record))| Field {
            index,
            place,
            limit,
            record,
        })
        .collect()
}

/// The numbers of the records in the order in which they are written; the
/// head, which comes first, has 0.
fn record_numbers(head: Head) -> impl Iterator<Item = Number> {
    let counts = head.numbers().into_iter();
    [0].into_iter().chain(counts.flat_map(|count| 1..=count))
}

/// The places and limits of the head's counts.
fn head_places() -> Vec<(Place, Number)> {
    let limits = Head::LIMITS.numbers();
    Place::HEAD.into_iter().zip(limits).collect()
}

/// The places and limits of a credential's fields.
fn credential_places(record: &CredentialRecord, head: Head) -> Vec<(Place, Number)> {
    let kind = record[2];
    let first = if kind == 4 { head.cells } else { HIGHEST };
    let second = if kind == 2 || kind == 3 { HIGHEST } else { 0 };
    vec![
        (Place::CredentialOwner, HIGHEST),
        (Place::CredentialName, HIGHEST),
        (Place::CredentialKind, 4),
        (Place::CredentialFirst(kind), first),
        (Place::CredentialSecond(kind), second),
        (Place::CredentialAutomaton, head.automata),
    ]
}

/// The places and limits of a part cell's fields.
fn cell_places(head: Head) -> Vec<(Place, Number)> {
    vec![
        (Place::CellPrincipal, HIGHEST),
        (Place::CellName, HIGHEST),
        (Place::CellNext, head.cells),
    ]
}

/// The places and limits of an automaton's numbers.
fn automaton_places() -> Vec<(Place, Number)> {
    vec![
        (Place::AutomatonStarting, EVERY_STATE),
        (Place::AutomatonAccepting, EVERY_STATE),
        (Place::AutomatonMark, 1),
    ]
}

/// The places and limits of an edge's fields.
fn edge_places(record: &EdgeRecord, head: Head) -> Vec<(Place, Number)> {
    let label = record[2];
    let owner = if label == 2 { 0 } else { HIGHEST };
    let name = if label == 2 || label == 4 { 0 } else { HIGHEST };
    vec![
        (Place::EdgeAutomaton, head.automata),
        (Place::EdgeFrom, LAST_STATE),
        (Place::EdgeLabel, 4),
        (Place::EdgeOwner(label), owner),
        (Place::EdgeName(label), name),
        (Place::EdgeTo, LAST_STATE),
    ]
}
