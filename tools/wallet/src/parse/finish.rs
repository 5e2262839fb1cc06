//! The end of a text: part cells are put in order, and every rank becomes a
//! number.

use bwlchareg::{Number, Query};

use crate::mistake::{quoted, Mistake};
use crate::names::Names;
use crate::parse::draft::{BodyDraft, CellDraft, Draft};
use crate::parse::numbering::Sort;
use crate::parse::query::find;
use crate::parse::reader::Numeral;
use crate::table::{Body, Cell, Credential, Edge, Label, Role, Table};
use crate::{Lines, Wallet};

/// The wallet of a text that has been read to its end.
pub fn finish(draft: &Draft) -> Result<Wallet, Mistake> {
    let names = said(draft);
    if let Some((_, words, _)) = &draft.query {
        find(&names, words)?;
    }
    let mut cells = given_cells(&draft.cells)?;
    let mut cell_lines: Vec<usize> = draft.cells.iter().map(|cell| cell.line).collect();
    let mut credentials = Vec::new();
    for credential in &draft.credentials {
        let body = match &credential.body {
            BodyDraft::Single(body) => *body,
            BodyDraft::Parts(roles, None) => {
                let first = add_chain(&mut cells, roles);
                cell_lines.resize(cells.len(), credential.line);
                Body::Parts(first)
            }
            BodyDraft::Parts(roles, Some(cell)) => {
                check_chain(draft, roles, *cell)?;
                Body::Parts(cell.value)
            }
        };
        credentials.push(Credential {
            role: credential.role,
            body,
            automaton: draft.automaton(credential)?,
        });
    }
    let edges = draft.constraints.edges.iter();
    let table = Table {
        credentials,
        cells,
        automata: draft.constraints.automata(),
        edges: edges.clone().map(|(edge, _)| *edge).collect(),
    };
    let lines = Lines {
        credentials: draft.credentials.iter().map(|c| c.line).collect(),
        cells: cell_lines,
        automata: draft.constraints.lines(),
        edges: edges.map(|(_, line)| *line).collect(),
        query: draft.query.as_ref().map(|(.., line)| *line),
    };
    Ok(numbered(draft, table, names, lines))
}

/// The cells of the `cell` lines, each of which leads to a later one.
fn given_cells(drafts: &[CellDraft]) -> Result<Vec<Cell>, Mistake> {
    let mut cells = Vec::new();
    for (own, draft) in (1..).zip(drafts) {
        let next = draft.next.map_or(0, |next| next.value);
        if let Some(Numeral { value, place }) = draft.next {
            if value <= own || value as usize > drafts.len() {
                let instead = match drafts.len() {
                    last if last == own as usize => {
                        "leave out `then`, or write another `cell` line".to_string()
                    }
                    last if last == own as usize + 1 => format!("write {last}"),
                    last => format!("write a number from {} to {last}", own + 1),
                };
                let wrong = format!("cell {value} is not among the `cell` lines after cell {own}");
                return Err(place.mistake(wrong, instead));
            }
        }
        cells.push(Cell {
            role: draft.role,
            next,
        });
    }
    Ok(cells)
}

/// Adds cells for the roles of an intersection, and tells the first.
fn add_chain(cells: &mut Vec<Cell>, roles: &[Role]) -> Number {
    let first = cells.len() as Number + 1;
    let last = cells.len() + roles.len();
    for role in roles {
        let following = cells.len() + 2;
        let next = if following > last {
            0
        } else {
            following as Number
        };
        cells.push(Cell { role: *role, next });
    }
    first
}

/// Whether the chain at a cell of the `cell` lines has these roles.
fn check_chain(draft: &Draft, roles: &[Role], cell: Numeral) -> Result<(), Mistake> {
    let number = cell.value;
    let mut chain = Vec::new();
    let mut next = Some(number);
    while let Some(number) = next {
        let Some(cell) = draft.cells.get(number as usize - 1) else {
            break;
        };
        chain.push(cell.role);
        next = cell.next.map(|next| next.value);
    }
    if chain.is_empty() {
        return Err(cell.place.mistake(
            format_args!("there is no cell {number}"),
            format_args!("write a line `cell {number} = ...`, or leave out `at cell`"),
        ));
    }
    if chain != roles {
        let said: Vec<String> = chain.iter().map(|role| draft.words.said(*role)).collect();
        return Err(cell.place.mistake(
            format_args!(
                "the chain at cell {number} is {}",
                quoted(&said.join(" & "))
            ),
            "write these roles after the arrow, or another cell",
        ));
    }
    Ok(())
}

/// The wallet, with numbers in the place of ranks.
fn numbered(draft: &Draft, mut table: Table, names: Names, lines: Lines) -> Wallet {
    let numbers = Numbers {
        principals: draft.words.numbers(Sort::Principal),
        names: draft.words.numbers(Sort::Name),
    };
    for credential in &mut table.credentials {
        credential.role = numbers.role(credential.role);
        credential.body = numbers.body(credential.body);
    }
    for cell in &mut table.cells {
        cell.role = numbers.role(cell.role);
    }
    for edge in &mut table.edges {
        *edge = numbers.edge(*edge, &draft.constraints.states(edge.automaton));
    }
    Wallet {
        table,
        query: draft
            .query
            .as_ref()
            .map(|(query, ..)| numbers.query(*query)),
        names,
        lines,
    }
}

/// The numbers of principals and role names, in the order of their ranks.
struct Numbers {
    principals: Vec<Number>,
    names: Vec<Number>,
}

impl Numbers {
    fn principal(&self, rank: Number) -> Number {
        self.principals[rank as usize]
    }

    fn name(&self, rank: Number) -> Number {
        self.names[rank as usize]
    }

    fn role(&self, role: Role) -> Role {
        Role {
            owner: self.principal(role.owner),
            name: self.name(role.name),
        }
    }

    fn body(&self, body: Body) -> Body {
        match body {
            Body::Member(member) => Body::Member(self.principal(member)),
            Body::Contained(role) => Body::Contained(self.role(role)),
            Body::Linked { first, second } => Body::Linked {
                first: self.name(first),
                second: self.name(second),
            },
            Body::Parts(cell) => Body::Parts(cell),
        }
    }

    /// An edge of an automaton whose states have these numbers.
    fn edge(&self, edge: Edge, states: &[Number]) -> Edge {
        Edge {
            from: states[edge.from as usize],
            label: match edge.label {
                Label::Only(role) => Label::Only(self.role(role)),
                Label::Any => Label::Any,
                Label::Not(role) => Label::Not(self.role(role)),
                Label::Of(owner) => Label::Of(self.principal(owner)),
            },
            to: states[edge.to as usize],
            ..edge
        }
    }

    fn query(&self, query: Query) -> Query {
        let Role { owner, name } = self.role(Role::asked(query));
        Query {
            principal: self.principal(query.principal),
            owner,
            name,
            ..query
        }
    }
}

/// The names of all numbers, but for those that only the query names.
fn said(draft: &Draft) -> Names {
    Names {
        principals: draft.words.named(Sort::Principal),
        roles: draft.words.named(Sort::Name),
        constraints: draft.constraints.names(),
        states: draft.constraints.state_names(),
    }
}
