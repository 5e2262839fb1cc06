//! What a line says, in words and with their places.

use crate::parse::numbering::Sort;
use crate::parse::reader::{Numeral, Word};
use crate::table::Mark;

/// A role in words.
#[derive(Clone, Debug, PartialEq, Eq)]
pub struct RoleWords {
    /// The owner.
    pub owner: Word,
    /// The name.
    pub name: Word,
}

/// What follows a credential's arrow, in words.
#[derive(Clone, Debug, PartialEq, Eq)]
pub enum BodyWords {
    /// `D`
    Member(Word),
    /// `B.s`
    Contained(RoleWords),
    /// `A.s.t`, where A is the role's owner.
    Linked(RoleWords, Word),
    /// `B.s & C.t`, and the cell after `at cell`.
    Parts(Vec<RoleWords>, Option<Numeral>),
}

/// A state as it is named.
#[derive(Clone, Debug, PartialEq, Eq)]
pub enum StateWord {
    /// By its number.
    Number(Numeral),
    /// By a word.
    Word(Word),
}

/// An edge's label in words.
#[derive(Clone, Debug, PartialEq, Eq)]
pub enum LabelWords {
    /// `A.r`
    Only(RoleWords),
    /// `any`
    Any,
    /// `not A.r`
    Not(RoleWords),
    /// `any of A`
    Of(Word),
}

/// A query in words.
#[derive(Clone, Debug, PartialEq, Eq)]
pub struct QueryWords {
    /// The principal.
    pub principal: Word,
    /// The role.
    pub role: RoleWords,
    /// The depth limit.
    pub depth: Numeral,
}

impl QueryWords {
    /// The principal, the role's owner and its name, each with what it is.
    pub fn names(&self) -> [(Sort, &Word); 3] {
        [
            (Sort::Principal, &self.principal),
            (Sort::Principal, &self.role.owner),
            (Sort::Name, &self.role.name),
        ]
    }
}

/// What a line says.
#[derive(Clone, Debug, PartialEq, Eq)]
pub enum Statement {
    /// `A.r <- ...`, and the constraint after `under`.
    Credential(RoleWords, BodyWords, Option<Word>),
    /// `constraint c`
    Constraint(Word),
    /// `every word` or `some word`
    Demand(Mark),
    /// `start ...`
    Start(Vec<StateWord>),
    /// `accept ...`
    Accept(Vec<StateWord>),
    /// `0 -- A.r --> 1`
    Edge(StateWord, LabelWords, StateWord),
    /// `D in A.r within 2`
    Query(QueryWords),
    /// `principals A = 1, B = 2`
    Principals(Vec<(Word, Numeral)>),
    /// `names r = 1, s = 2`
    Names(Vec<(Word, Numeral)>),
    /// `cell 1 = B.s then 2`
    Cell(Numeral, RoleWords, Option<Numeral>),
    /// `edges of c`
    EdgesOf(Word),
}

impl Statement {
    /// Whether the line belongs to the constraint above it.
    pub fn is_within_constraint(&self) -> bool {
        matches!(
            self,
            Statement::Demand(_) | Statement::Start(_) | Statement::Accept(_) | Statement::Edge(..)
        )
    }
}
