//! Tables that are made from a wallet's, to ask the library about them.

use bwlchareg::{Number, Query};

use crate::table::{Body, Label, Role, Table};
use crate::why::Sort;

/// The table with no constraint attached.
pub fn unconstrained(table: &Table) -> Table {
    with(table, |_| false)
}

/// The table with one automaton attached where it is, and no other.
pub fn with_only(table: &Table, automaton: Number) -> Table {
    with(table, |own| own == automaton)
}

/// The table with the automata attached that are kept.
fn with(table: &Table, is_kept: impl Fn(Number) -> bool) -> Table {
    let mut table = table.clone();
    for credential in &mut table.credentials {
        if !is_kept(credential.automaton) {
            credential.automaton = 0;
        }
    }
    table
}

/// A table and a query with one name in the place of another.
pub fn renamed(
    table: &Table,
    query: Query,
    sort: Sort,
    old: Number,
    new: Number,
) -> (Table, Query) {
    let (mut table, mut query) = (table.clone(), query);
    for name in names(&mut table, &mut query) {
        if (name.sort, *name.number) == (sort, old) {
            *name.number = new;
        }
    }
    (table, query)
}

/// Where a name stands: in a record of the table, by its index, or in the query.
#[derive(Clone, Copy, Debug, PartialEq, Eq, PartialOrd, Ord)]
pub enum Place {
    /// A credential.
    Credential(usize),
    /// A part cell.
    Cell(usize),
    /// An edge.
    Edge(usize),
    /// The query.
    Query,
}

/// A name in its place.
pub struct Name<'a> {
    pub place: Place,
    pub sort: Sort,
    pub number: &'a mut Number,
}

/// All names of a table and a query, in their order.
pub fn names<'a>(table: &'a mut Table, query: &'a mut Query) -> Vec<Name<'a>> {
    let mut names = Names(Vec::new());
    for (index, credential) in table.credentials.iter_mut().enumerate() {
        let place = Place::Credential(index);
        names.role(place, &mut credential.role);
        match &mut credential.body {
            Body::Member(principal) => names.add(place, Sort::Principal, principal),
            Body::Contained(role) => names.role(place, role),
            Body::Linked { first, second } => {
                names.add(place, Sort::RoleName, first);
                names.add(place, Sort::RoleName, second);
            }
            Body::Parts(_) => {}
        }
    }
    for (index, cell) in table.cells.iter_mut().enumerate() {
        names.role(Place::Cell(index), &mut cell.role);
    }
    for (index, edge) in table.edges.iter_mut().enumerate() {
        match &mut edge.label {
            Label::Only(role) | Label::Not(role) => names.role(Place::Edge(index), role),
            Label::Of(owner) => names.add(Place::Edge(index), Sort::Principal, owner),
            Label::Any => {}
        }
    }
    names.add(Place::Query, Sort::Principal, &mut query.principal);
    names.add(Place::Query, Sort::Principal, &mut query.owner);
    names.add(Place::Query, Sort::RoleName, &mut query.name);
    names.0
}

/// Names that are gathered.
struct Names<'a>(Vec<Name<'a>>);

impl<'a> Names<'a> {
    fn add(&mut self, place: Place, sort: Sort, number: &'a mut Number) {
        self.0.push(Name {
            place,
            sort,
            number,
        });
    }

    fn role(&mut self, place: Place, role: &'a mut Role) {
        self.add(place, Sort::Principal, &mut role.owner);
        self.add(place, Sort::RoleName, &mut role.name);
    }
}
