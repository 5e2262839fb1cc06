//! A table by its records, and its numbers (docs/DEFINITION.md, "The table").
//!
//! The checker takes numbers; everything here that speaks of a credential, a
//! part cell, an automaton or an edge takes these. `Table::numbers` and
//! `Table::of_numbers` go from one to the other and lose nothing.

use std::ops::Range;

use bwlchareg::{layout, Number};

/// A role: an owner, who is a principal, and a role name, both 1 to 64.
#[derive(Clone, Copy, Debug, PartialEq, Eq, PartialOrd, Ord)]
pub struct Role {
    /// The principal who owns the role.
    pub owner: Number,
    /// The role's name.
    pub name: Number,
}

impl Role {
    /// The role that a query asks about.
    pub fn asked(query: bwlchareg::Query) -> Role {
        Role {
            owner: query.owner,
            name: query.name,
        }
    }
}

/// What stands behind a credential's arrow.
#[derive(Clone, Copy, Debug, PartialEq, Eq)]
pub enum Body {
    /// Kind 1: this principal is in the role.
    Member(Number),
    /// Kind 2: whoever is in this role is in the role.
    Contained(Role),
    /// Kind 3: whoever is in M.second, for some M in owner.first.
    Linked {
        /// The name of the role whose members are the middles.
        first: Number,
        /// The name of the middle's role.
        second: Number,
    },
    /// Kind 4: whoever is in the role of every cell of the chain that begins
    /// at this part cell.
    Parts(Number),
}

/// A credential. It defines `role`.
#[derive(Clone, Copy, Debug, PartialEq, Eq)]
pub struct Credential {
    /// The role that it defines.
    pub role: Role,
    /// What it says of that role.
    pub body: Body,
    /// The automaton attached to it, from 1; 0 for none.
    pub automaton: Number,
}

/// A part cell: a role and the cell behind it, 0 for none.
#[derive(Clone, Copy, Debug, PartialEq, Eq)]
pub struct Cell {
    /// The part's role.
    pub role: Role,
    /// The next cell of the chain, from 1; 0 where the chain ends.
    pub next: Number,
}

/// A set of states, in which state s counts 2^s.
pub type StateSet = u16;

/// An automaton: two sets of states, in which state s counts 2^s, and its mark.
#[derive(Clone, Copy, Debug, PartialEq, Eq)]
pub struct Automaton {
    /// The starting states.
    pub start: Number,
    /// The accepting states.
    pub accept: Number,
    /// What it demands of the words of a record.
    pub mark: Mark,
}

/// What an automaton demands of the words of a record.
#[derive(Clone, Copy, Debug, Default, PartialEq, Eq)]
pub enum Mark {
    /// Mark 0: that it accepts every word.
    #[default]
    EveryWord,
    /// Mark 1: that it accepts at least one word.
    SomeWord,
}

impl Mark {
    /// The mark's number.
    fn number(self) -> Number {
        match self {
            Mark::EveryWord => layout::EVERY_WORD,
            Mark::SomeWord => layout::SOME_WORD,
        }
    }

    /// The line of a wallet's text that says so.
    pub fn text(self) -> &'static str {
        match self {
            Mark::EveryWord => "every word",
            Mark::SomeWord => "some word",
        }
    }
}

/// Which roles an edge reads.
#[derive(Clone, Copy, Debug, PartialEq, Eq)]
pub enum Label {
    /// Label 1: this role.
    Only(Role),
    /// Label 2: every role.
    Any,
    /// Label 3: every role but this one.
    Not(Role),
    /// Label 4: every role of this principal.
    Of(Number),
}

impl Label {
    /// Whether an edge with this label reads a role.
    pub fn matches(self, role: Role) -> bool {
        match self {
            Label::Only(own) => own == role,
            Label::Any => true,
            Label::Not(own) => own != role,
            Label::Of(owner) => owner == role.owner,
        }
    }
}

/// An edge of an automaton.
#[derive(Clone, Copy, Debug, PartialEq, Eq)]
pub struct Edge {
    /// The automaton, from 1.
    pub automaton: Number,
    /// The state that it leaves, 0 to 15.
    pub from: Number,
    /// The roles that it reads.
    pub label: Label,
    /// The state that it leads to, 0 to 15.
    pub to: Number,
}

/// A table: credentials, part cells, automata and edges, each numbered from 1.
#[derive(Clone, Debug, Default, PartialEq, Eq)]
pub struct Table {
    /// At most 20.
    pub credentials: Vec<Credential>,
    /// At most 63.
    pub cells: Vec<Cell>,
    /// At most 8.
    pub automata: Vec<Automaton>,
    /// At most 128.
    pub edges: Vec<Edge>,
}

impl Table {
    /// The table as numbers: the head's four counts, then the records.
    pub fn numbers(&self) -> Vec<Number> {
        let mut numbers = vec![
            self.credentials.len() as Number,
            self.cells.len() as Number,
            self.automata.len() as Number,
            self.edges.len() as Number,
        ];
        numbers.extend(self.credentials.iter().flat_map(credential_numbers));
        numbers.extend(self.cells.iter().flat_map(cell_numbers));
        numbers.extend(self.automata.iter().flat_map(automaton_numbers));
        numbers.extend(self.edges.iter().flat_map(edge_numbers));
        numbers
    }

    /// The records of a table that the checker accepts; its refusal of any
    /// other.
    pub fn of_numbers(numbers: &[Number]) -> Result<Table, bwlchareg::Refusal> {
        bwlchareg::check(numbers)?;
        let [credentials, cells, automata, edges] = layout::counts(numbers);
        let records = |count, place: fn(&[Number], usize) -> Range<usize>| {
            (1..=count).map(move |number| &numbers[place(numbers, number)])
        };
        Ok(Table {
            credentials: records(credentials, layout::credential)
                .map(credential)
                .collect(),
            cells: records(cells, layout::cell).map(cell).collect(),
            automata: records(automata, layout::automaton)
                .map(automaton)
                .collect(),
            edges: records(edges, layout::edge).map(edge).collect(),
        })
    }

    /// The automaton of a number, from 1, if there is one.
    pub fn automaton(&self, number: Number) -> Option<&Automaton> {
        self.automata.get((number as usize).checked_sub(1)?)
    }

    /// The roles of the chain that begins at a part cell.
    pub fn parts(&self, first: Number) -> Vec<Role> {
        let mut roles = Vec::new();
        let mut next = first;
        while next != 0 {
            let cell = self.cells[next as usize - 1];
            roles.push(cell.role);
            next = cell.next;
        }
        roles
    }
}

fn credential_numbers(credential: &Credential) -> [Number; layout::CREDENTIAL] {
    let (kind, first, second) = match credential.body {
        Body::Member(principal) => (1, principal, 0),
        Body::Contained(role) => (2, role.owner, role.name),
        Body::Linked { first, second } => (3, first, second),
        Body::Parts(cell) => (4, cell, 0),
    };
    let Role { owner, name } = credential.role;
    [owner, name, kind, first, second, credential.automaton]
}

fn cell_numbers(cell: &Cell) -> [Number; layout::CELL] {
    [cell.role.owner, cell.role.name, cell.next]
}

fn automaton_numbers(automaton: &Automaton) -> [Number; layout::AUTOMATON] {
    [automaton.start, automaton.accept, automaton.mark.number()]
}

fn edge_numbers(edge: &Edge) -> [Number; layout::EDGE] {
    let (label, owner, name) = match edge.label {
        Label::Only(role) => (1, role.owner, role.name),
        Label::Any => (2, 0, 0),
        Label::Not(role) => (3, role.owner, role.name),
        Label::Of(owner) => (4, owner, 0),
    };
    [edge.automaton, edge.from, label, owner, name, edge.to]
}

// The checker has accepted the numbers that the functions below are given, so
// every kind, mark and label is one of those that are told apart.

fn credential(numbers: &[Number]) -> Credential {
    let (first, second) = (numbers[3], numbers[4]);
    Credential {
        role: role(numbers),
        body: match numbers[2] {
            1 => Body::Member(first),
            2 => Body::Contained(role(&numbers[3..])),
            3 => Body::Linked { first, second },
            _ => Body::Parts(first),
        },
        automaton: numbers[5],
    }
}

fn cell(numbers: &[Number]) -> Cell {
    Cell {
        role: role(numbers),
        next: numbers[2],
    }
}

fn automaton(numbers: &[Number]) -> Automaton {
    Automaton {
        start: numbers[0],
        accept: numbers[1],
        mark: match numbers[2] {
            layout::EVERY_WORD => Mark::EveryWord,
            _ => Mark::SomeWord,
        },
    }
}

fn edge(numbers: &[Number]) -> Edge {
    let own = role(&numbers[3..]);
    Edge {
        automaton: numbers[0],
        from: numbers[1],
        label: match numbers[2] {
            1 => Label::Only(own),
            2 => Label::Any,
            3 => Label::Not(own),
            _ => Label::Of(own.owner),
        },
        to: numbers[5],
    }
}

fn role(numbers: &[Number]) -> Role {
    Role {
        owner: numbers[0],
        name: numbers[1],
    }
}
