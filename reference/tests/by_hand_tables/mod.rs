//! Small tables that are written down by hand, of which several tests ask.
#![allow(dead_code)] // each test uses a part

use reference::records::{CellRecord, CredentialRecord, EdgeRecord, Records};
use reference::{Number, Query};

/// The roles of the tables below: Gate.1 is asked for, mostly for principal 9.
pub const G: [Number; 2] = [1, 1];
pub const A: [Number; 2] = [1, 2];
pub const B: [Number; 2] = [1, 3];
pub const C: [Number; 2] = [1, 4];
pub const D: [Number; 2] = [1, 5];

/// Principal 9 in Gate.1, as deep as can be.
pub const ASKED: Query = Query {
    principal: 9,
    owner: 1,
    name: 1,
    depth: 16,
};

/// A credential that defines a role, of kind 1, 2 or 4, or of kind 3.
pub fn member(role: [Number; 2], principal: Number) -> CredentialRecord {
    [role[0], role[1], 1, principal, 0, 0]
}

pub fn from(role: [Number; 2], other: [Number; 2]) -> CredentialRecord {
    [role[0], role[1], 2, other[0], other[1], 0]
}

pub fn linked(role: [Number; 2], first: Number, second: Number) -> CredentialRecord {
    [role[0], role[1], 3, first, second, 0]
}

pub fn in_every(role: [Number; 2], cell: Number) -> CredentialRecord {
    [role[0], role[1], 4, cell, 0, 0]
}

/// The same credential with automaton 1.
pub fn kept(mut credential: CredentialRecord) -> CredentialRecord {
    credential[5] = 1;
    credential
}

/// An edge of automaton 1 on exactly a role, on every role, on all but one, on
/// any of an owner.
pub fn on(from: Number, role: [Number; 2], to: Number) -> EdgeRecord {
    [1, from, 1, role[0], role[1], to]
}

pub fn on_every(from: Number, to: Number) -> EdgeRecord {
    [1, from, 2, 0, 0, to]
}

pub fn on_all_but(from: Number, role: [Number; 2], to: Number) -> EdgeRecord {
    [1, from, 3, role[0], role[1], to]
}

pub fn on_any_of(from: Number, owner: Number, to: Number) -> EdgeRecord {
    [1, from, 4, owner, 0, to]
}

/// The cells of a chain that begins at cell 1.
pub fn chain(roles: &[[Number; 2]]) -> Vec<CellRecord> {
    let nexts = (2..=roles.len() as Number).chain([0]);
    let cells = roles.iter().zip(nexts);
    cells.map(|(role, next)| [role[0], role[1], next]).collect()
}

/// The table with these records, and with automaton 1 if it has edges: it
/// starts in state 0 and accepts in these states.
pub fn table(
    credentials: &[CredentialRecord],
    parts: &[CellRecord],
    accepting: Number,
    edges: &[EdgeRecord],
) -> Vec<Number> {
    let automata = match edges {
        [] => vec![],
        _ => vec![[1, accepting, 0]],
    };
    let records = Records {
        credentials: credentials.to_vec(),
        cells: parts.to_vec(),
        automata,
        edges: edges.to_vec(),
    };
    records.numbers()
}

/// The table with these credentials alone.
pub fn plain(credentials: &[CredentialRecord]) -> Vec<Number> {
    table(credentials, &[], 0, &[])
}
