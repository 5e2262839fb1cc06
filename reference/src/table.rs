//! What the records of a table mean: the table's rows after those of its head.
//!
//! A record is read into a value of its sort. Where that cannot be done, the
//! table is refused at that record.

use std::iter::successors;

use crate::records::{AutomatonRecord, CellRecord, CredentialRecord, EdgeRecord, Head, Records};
use crate::refusal::Refusal;
use crate::sorts::{one_to, Goal, Name, Principal, Role};
use crate::Number;

/// The highest state; the lowest is 0.
pub const LAST_STATE: Number = 15;
/// The set of all states, in which state s counts 2^s: sixteen bits, however wide
/// a number is.
pub const EVERY_STATE: Number = u16::MAX as Number;

/// A table whose checks find nothing.
#[derive(Clone, Debug, PartialEq, Eq)]
pub struct Table {
    /// The credentials, credential 1 first.
    pub credentials: Vec<Credential>,
    /// The part cells, cell 1 first.
    pub cells: Vec<Cell>,
    /// The automata, automaton 1 first.
    pub automata: Vec<Automaton>,
    /// The edges, edge 1 first.
    pub edges: Vec<Edge>,
}

/// A credential: it defines a role.
#[derive(Clone, Debug, PartialEq, Eq)]
pub struct Credential {
    /// The role that it defines.
    pub role: Role,
    /// Who is in the role.
    pub members: Members,
    /// The number of the automaton attached to it, if there is one.
    pub automaton: Option<Number>,
}

/// Who is in a credential's role: the four kinds.
#[derive(Clone, Debug, PartialEq, Eq)]
pub enum Members {
    /// Kind 1: this principal.
    One(Principal),
    /// Kind 2: whoever is in this role.
    AllOf(Role),
    /// Kind 3: whoever is in M.second, for some M in owner.first.
    Linked(Name, Name),
    /// Kind 4: whoever is in every part's role; the number of the chain's
    /// first cell.
    InEvery(Number),
}

/// A part cell: a role of a chain, and where the chain goes on.
#[derive(Clone, Debug, PartialEq, Eq)]
pub struct Cell {
    /// The part's role.
    pub role: Role,
    /// The number of the chain's next cell; none ends the chain.
    pub next: Option<Number>,
}

/// An automaton: two sets of states, in which state s counts 2^s, and what it
/// demands.
#[derive(Clone, Debug, PartialEq, Eq)]
pub struct Automaton {
    /// The starting states.
    pub starting: Number,
    /// The accepting states.
    pub accepting: Number,
    /// Which words of a record it must accept.
    pub demand: Demand,
}

/// Which words of a record an automaton must accept to be met: its mark.
#[derive(Clone, Copy, Debug, PartialEq, Eq, PartialOrd, Ord)]
pub enum Demand {
    /// Mark 0: every word.
    EveryWord,
    /// Mark 1: at least one word.
    SomeWord,
}

/// An edge of an automaton.
#[derive(Clone, Debug, PartialEq, Eq)]
pub struct Edge {
    /// The number of the automaton to which it belongs.
    pub automaton: Number,
    /// The state it leaves.
    pub from: Number,
    /// The roles on which it is taken.
    pub label: Label,
    /// The state it enters.
    pub to: Number,
}

/// The roles that an edge matches.
#[derive(Clone, Debug, PartialEq, Eq)]
pub enum Label {
    /// Label 1: exactly this role.
    Exactly(Role),
    /// Label 2: every role.
    Every,
    /// Label 3: every role but this one.
    AllBut(Role),
    /// Label 4: every role of this owner.
    OwnedBy(Principal),
}

impl Table {
    /// Reads a table, or refuses it at the first record that fails.
    ///
    /// All credentials are read before any cell, all cells before any chain
    /// is followed, all chains before any edge, all edges before any mark.
    pub fn read(table: &[Number]) -> Result<Table, Refusal> {
        let records = Records::read(table)?;
        let head = records.head();
        let credentials = each(4, &records.credentials, |_, record| {
            Credential::read(record, head)
        })?;
        let cells = each(5, &records.cells, |number, record| {
            Cell::read(number, record, head)
        })?;
        each(6, &credentials, |_, credential| {
            credential.chain_is_right(&cells).then_some(())
        })?;
        let edges = each(7, &records.edges, |_, record| Edge::read(record, head))?;
        let automata = each(17, &records.automata, |_, record| Automaton::read(record))?;
        Ok(Table {
            credentials,
            cells,
            automata,
            edges,
        })
    }

    /// The credential with this number, if there is one.
    pub fn credential(&self, number: Number) -> Option<&Credential> {
        let index = (number as usize).checked_sub(1)?;
        self.credentials.get(index)
    }

    /// The goals on which a goal rests if it is proved through the credential
    /// with this number, by way of this middle. There is no such list if it
    /// cannot be proved so, and an empty one under kind 1.
    ///
    /// Only kind 3 has a middle; for the others it is 0.
    pub fn premises(&self, goal: Goal, credential: Number, middle: Number) -> Option<Vec<Goal>> {
        let credential = self.credential(credential)?;
        if credential.role != goal.role {
            return None;
        }
        let Goal { principal, role } = goal;
        let same_in = |role| Goal { principal, role };
        match (&credential.members, middle) {
            (&Members::One(member), 0) if member == principal => Some(Vec::new()),
            (&Members::AllOf(role), 0) => Some(vec![same_in(role)]),
            (&Members::Linked(first, second), middle) => {
                let middle = Principal::read(middle)?;
                let linking = Role::new(role.owner, first);
                let linked = Role::new(middle, second);
                let member = Goal {
                    principal: middle,
                    role: linking,
                };
                Some(vec![member, same_in(linked)])
            }
            (&Members::InEvery(first), 0) => {
                let parts = chain(first, &self.cells);
                Some(parts.map(|cell| same_in(cell.role)).collect())
            }
            _ => None,
        }
    }
}

/// Reads the records of one sort, each with its number. The first one for
/// which there is no value is refused.
fn each<Record, Value>(
    refusal: u32,
    records: &[Record],
    read: impl Fn(Number, &Record) -> Option<Value>,
) -> Result<Vec<Value>, Refusal> {
    let numbered = (1..).zip(records);
    numbered
        .map(|(number, record)| read(number, record).ok_or(Refusal::new(refusal, number)))
        .collect()
}

impl Credential {
    /// The credential that a record stands for, if it stands for one.
    fn read(record: &CredentialRecord, head: Head) -> Option<Credential> {
        let &[owner, name, kind, first, second, automaton] = record;
        let role = Role::read(owner, name)?;
        let members = match (kind, first, second) {
            (1, principal, 0) => Members::One(Principal::read(principal)?),
            (2, owner, name) => Members::AllOf(Role::read(owner, name)?),
            (3, first, second) => Members::Linked(Name::read(first)?, Name::read(second)?),
            (4, cell, 0) => Members::InEvery(one_to(head.cells, cell)?),
            _ => return None,
        };
        let automaton = match automaton {
            0 => None,
            number => Some(one_to(head.automata, number)?),
        };
        Some(Credential {
            role,
            members,
            automaton,
        })
    }

    /// Whether the credential's chain has 2 to 4 cells, if it has a chain.
    fn chain_is_right(&self, cells: &[Cell]) -> bool {
        match self.members {
            Members::InEvery(first) => {
                // Five cells are enough to know that a chain is too long.
                let met = chain(first, cells).take(5).count();
                (2..=4).contains(&met)
            }
            _ => true,
        }
    }
}

/// The cells of the chain that begins at a cell, in order. Each next cell is
/// a greater one, so the chain ends.
pub fn chain(first: Number, cells: &[Cell]) -> impl Iterator<Item = &Cell> {
    let cell = |number: Number| cells.get(number as usize - 1);
    successors(cell(first), move |last| last.next.and_then(cell))
}

impl Label {
    /// Whether an edge with this label is taken on a role.
    pub fn matches(&self, role: Role) -> bool {
        match *self {
            Label::Exactly(this) => role == this,
            Label::Every => true,
            Label::AllBut(this) => role != this,
            Label::OwnedBy(owner) => role.owner == owner,
        }
    }
}

impl Cell {
    /// The part cell that a record stands for, if it stands for one.
    fn read(number: Number, record: &CellRecord, head: Head) -> Option<Cell> {
        let &[principal, name, next] = record;
        let role = Role::read(principal, name)?;
        let next = match next {
            0 => None,
            next if next > number && next <= head.cells => Some(next),
            _ => return None,
        };
        Some(Cell { role, next })
    }
}

impl Automaton {
    /// The automaton that a record stands for, if it stands for one. Any two
    /// numbers are sets.
    fn read(&[starting, accepting, mark]: &AutomatonRecord) -> Option<Automaton> {
        Some(Automaton {
            starting,
            accepting,
            demand: Demand::read(mark)?,
        })
    }
}

impl Demand {
    /// What a mark demands, if it is one.
    fn read(mark: Number) -> Option<Demand> {
        match mark {
            0 => Some(Demand::EveryWord),
            1 => Some(Demand::SomeWord),
            _ => None,
        }
    }
}

impl Edge {
    /// The edge that a record stands for, if it stands for one.
    fn read(record: &EdgeRecord, head: Head) -> Option<Edge> {
        let &[automaton, from, label, owner, name, to] = record;
        let label = match (label, owner, name) {
            (1, owner, name) => Label::Exactly(Role::read(owner, name)?),
            (2, 0, 0) => Label::Every,
            (3, owner, name) => Label::AllBut(Role::read(owner, name)?),
            (4, owner, 0) => Label::OwnedBy(Principal::read(owner)?),
            _ => return None,
        };
        Some(Edge {
            automaton: one_to(head.automata, automaton)?,
            from: state(from)?,
            label,
            to: state(to)?,
        })
    }
}

/// The number itself, if it is a state.
fn state(number: Number) -> Option<Number> {
    (number <= LAST_STATE).then_some(number)
}
