//! A wallet while its text is read, line by line. Principals, role names and
//! states are known by their ranks until the last line; `finish` then gives
//! everything its number.

use bwlchareg::{Number, Query};

use crate::limits::{CELLS, CREDENTIALS};
use crate::mistake::{quoted, Mistake, Place};
use crate::parse::constraints::{Constraints, Which};
use crate::parse::numbering::{Sort, Vocabulary};
use crate::parse::reader::{Numeral, Word};
use crate::parse::statement::{BodyWords, LabelWords, QueryWords, RoleWords, Statement};
use crate::table::{Body, Label, Role};

/// What has been read so far.
#[derive(Clone, Debug, Default)]
pub struct Draft {
    /// The principals and role names.
    pub words: Vocabulary,
    /// The constraints and their edges.
    pub constraints: Constraints,
    /// The credentials.
    pub credentials: Vec<CredentialDraft>,
    /// The cells of `cell` lines.
    pub cells: Vec<CellDraft>,
    /// How many part cells there are, with those of intersections without
    /// `at cell`.
    parts: usize,
    /// The query by ranks and in words, and its line.
    pub query: Option<(Query, QueryWords, usize)>,
}

/// A credential. The constraint that it names may stand further below.
#[derive(Clone, Debug)]
pub struct CredentialDraft {
    /// The role that it defines.
    pub role: Role,
    /// What follows the arrow.
    pub body: BodyDraft,
    /// The constraint after `under`.
    pub under: Option<Word>,
    /// Its line.
    pub line: usize,
}

/// What follows an arrow. The cell that it names may stand further below.
#[derive(Clone, Debug)]
pub enum BodyDraft {
    /// Kinds 1 to 3.
    Single(Body),
    /// Kind 4: the roles, and the cell after `at cell`.
    Parts(Vec<Role>, Option<Numeral>),
}

/// A `cell` line.
#[derive(Clone, Debug)]
pub struct CellDraft {
    /// The part's role.
    pub role: Role,
    /// The cell after `then`.
    pub next: Option<Numeral>,
    /// Its line.
    pub line: usize,
}

impl Draft {
    /// Adds what a line says, which begins at a place.
    pub fn add(&mut self, statement: &Statement, place: Place) -> Result<(), Mistake> {
        if !statement.is_within_constraint() {
            self.constraints.close();
        }
        match statement {
            Statement::Credential(role, body, under) => {
                self.add_credential(role, body, under.clone(), place)
            }
            Statement::Constraint(name) => self.constraints.add(name, place),
            Statement::Demand(mark) => self.constraints.demand(*mark, place),
            Statement::Start(states) => self.constraints.set(Which::Start, states, place),
            Statement::Accept(states) => self.constraints.set(Which::Accept, states, place),
            Statement::Edge(from, label, to) => {
                let label = self.label(label)?;
                self.constraints.edge(from, label, to, place)
            }
            Statement::Query(words) => self.set_query(words, place),
            Statement::Principals(all) => self.give(Sort::Principal, all),
            Statement::Names(all) => self.give(Sort::Name, all),
            Statement::Cell(number, role, next) => self.add_cell(*number, role, *next, place),
            Statement::EdgesOf(name) => self.constraints.go_on(name),
        }
    }

    fn add_credential(
        &mut self,
        role: &RoleWords,
        body: &BodyWords,
        under: Option<Word>,
        place: Place,
    ) -> Result<(), Mistake> {
        if self.credentials.len() == CREDENTIALS {
            return Err(place.mistake("this would be the 21st credential", "write at most 20"));
        }
        let role = self.words.role(role)?;
        let body = self.body(body)?;
        self.credentials.push(CredentialDraft {
            role,
            body,
            under,
            line: place.line,
        });
        Ok(())
    }

    fn body(&mut self, body: &BodyWords) -> Result<BodyDraft, Mistake> {
        let words = &mut self.words;
        Ok(BodyDraft::Single(match body {
            BodyWords::Member(word) => Body::Member(words.rank(Sort::Principal, word)?),
            BodyWords::Contained(role) => Body::Contained(words.role(role)?),
            BodyWords::Linked(first, second) => Body::Linked {
                first: words.role(first)?.name,
                second: words.rank(Sort::Name, second)?,
            },
            BodyWords::Parts(roles, cell) => {
                if cell.is_none() {
                    let mut owners = roles.iter().map(|role| &role.owner);
                    owners.try_for_each(|owner| self.add_part(owner.place))?;
                }
                let roles = roles.iter().map(|role| self.words.role(role));
                return Ok(BodyDraft::Parts(roles.collect::<Result<_, _>>()?, *cell));
            }
        }))
    }

    fn add_cell(
        &mut self,
        number: Numeral,
        role: &RoleWords,
        next: Option<Numeral>,
        place: Place,
    ) -> Result<(), Mistake> {
        self.add_part(place)?;
        let own = self.cells.len() + 1;
        if number.value as usize != own {
            return Err(number.place.mistake(
                format_args!("the next cell is cell {own}, not {}", number.value),
                format_args!("write `cell {own}`: cells are numbered in the order of their lines"),
            ));
        }
        let role = self.words.role(role)?;
        self.cells.push(CellDraft {
            role,
            next,
            line: place.line,
        });
        Ok(())
    }

    /// Counts a part cell.
    fn add_part(&mut self, place: Place) -> Result<(), Mistake> {
        if self.parts == CELLS {
            return Err(place.mistake("this would be the 64th part", "write at most 63"));
        }
        self.parts += 1;
        Ok(())
    }

    fn set_query(&mut self, words: &QueryWords, place: Place) -> Result<(), Mistake> {
        if let Some((.., line)) = self.query {
            return Err(place.mistake(
                format_args!("there is already a query on line {line}"),
                "leave out one of them",
            ));
        }
        let [principal, owner, name] = words.names();
        let query = Query {
            principal: self.words.asked_rank(principal)?,
            owner: self.words.asked_rank(owner)?,
            name: self.words.asked_rank(name)?,
            depth: words.depth.value,
        };
        self.query = Some((query, words.clone(), place.line));
        Ok(())
    }

    fn give(&mut self, sort: Sort, all: &[(Word, Numeral)]) -> Result<(), Mistake> {
        let mut all = all.iter();
        all.try_for_each(|(word, number)| self.words.give(sort, word, *number))
    }

    fn label(&mut self, label: &LabelWords) -> Result<Label, Mistake> {
        Ok(match label {
            LabelWords::Only(role) => Label::Only(self.words.role(role)?),
            LabelWords::Any => Label::Any,
            LabelWords::Not(role) => Label::Not(self.words.role(role)?),
            LabelWords::Of(owner) => Label::Of(self.words.rank(Sort::Principal, owner)?),
        })
    }

    /// The number of the constraint that a credential names.
    pub fn automaton(&self, credential: &CredentialDraft) -> Result<Number, Mistake> {
        let Some(name) = &credential.under else {
            return Ok(0);
        };
        self.constraints.number(name)?.ok_or_else(|| {
            name.place.mistake(
                format_args!("there is no constraint {}", quoted(&name.text)),
                "write the name of one, or add a `constraint` line for it",
            )
        })
    }
}
