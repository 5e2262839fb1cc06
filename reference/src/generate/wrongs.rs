//! What can be wrong with a verifying call.

use std::fmt;

use crate::Number;

/// One of the two numbers of a node.
#[derive(Clone, Copy, Debug, PartialEq, Eq, PartialOrd, Ord)]
pub enum Part {
    /// The credential number.
    Credential,
    /// The middle.
    Middle,
}

/// What a number is changed to.
#[derive(Clone, Copy, Debug, PartialEq, Eq, PartialOrd, Ord)]
pub enum Value {
    /// 0.
    Zero,
    /// One less or one more.
    Neighbour,
    /// This number.
    Number(Number),
    /// Another credential, principal or name, a value with one high bit
    /// changed, or any number at all.
    Any,
}

/// A way of spoiling a right record, or its table or query.
#[derive(Clone, Copy, Debug, PartialEq, Eq, PartialOrd, Ord)]
pub enum Wrong {
    /// One number of a node is another.
    Changed(Part, Value),
    /// The record ends after a node.
    CutBetweenNodes,
    /// The record ends inside a node.
    CutInsideNode,
    /// One number is left over.
    LongerByOne,
    /// Several numbers are left over.
    LongerByMore,
    /// A pair of principal and role occurs twice on a branch.
    Repeated,
    /// The query's depth limit is lower than the derivation is deep.
    TooDeep,
    /// A credential of this kind has a middle that its kind does not allow.
    MiddleOfKind(Number),
    /// The middle cannot be derived to be in the linking role.
    NoMember,
    /// A credential defines another role.
    OtherRole,
    /// A credential of kind 1 is about another principal.
    OtherPrincipal,
    /// The query is another one, and valid.
    OtherGoal,
    /// An automaton is attached to a credential of one branch, where it
    /// accepts every word, and rejects a word of another branch.
    BrokenElsewhere,
    /// An automaton that demands some word is attached to a credential, and
    /// rejects every word.
    BrokenEverywhere,
    /// The first node that is too deep is also wrong by itself.
    TooDeepAndChanged,
    /// The first node that is too deep is not there, or not whole.
    TooDeepAndCut,
    /// The first node whose pair occurs above is also wrong by itself.
    RepeatedAndChanged,
    /// The record ends inside a node whose first number is wrong.
    CutAndChanged,
    /// Words are rejected, and numbers are left over.
    BrokenAndLonger,
    /// Several numbers are others, and perhaps the depth limit or the length.
    Several,
    /// The record is noise.
    Noise,
    /// The record is noise, but mostly of credentials that fit the goal.
    LikelyNoise,
    /// The table is damaged.
    Table,
    /// The query is damaged.
    Query,
    /// The table and the query are damaged, and the record is noise.
    Everything,
}

impl Wrong {
    /// Every way of spoiling that there is.
    pub fn all() -> Vec<Wrong> {
        use Value::{Any, Neighbour, Zero};
        let values = [
            Zero,
            Neighbour,
            Value::Number(64),
            Value::Number(65),
            Value::Number(Number::MAX),
            Any,
        ];
        let mut wrongs = Vec::new();
        for part in [Part::Credential, Part::Middle] {
            wrongs.extend(values.map(|value| Wrong::Changed(part, value)));
        }
        wrongs.extend([Wrong::CutBetweenNodes, Wrong::CutInsideNode]);
        wrongs.extend([Wrong::LongerByOne, Wrong::LongerByMore]);
        wrongs.extend([Wrong::Repeated, Wrong::TooDeep]);
        wrongs.extend([1, 2, 3, 4].map(Wrong::MiddleOfKind));
        wrongs.extend([Wrong::NoMember, Wrong::OtherRole]);
        wrongs.extend([Wrong::OtherPrincipal, Wrong::OtherGoal]);
        wrongs.extend([Wrong::BrokenElsewhere, Wrong::BrokenEverywhere]);
        wrongs.push(Wrong::TooDeepAndChanged);
        wrongs.extend([Wrong::TooDeepAndCut, Wrong::RepeatedAndChanged]);
        wrongs.extend([Wrong::CutAndChanged, Wrong::BrokenAndLonger]);
        wrongs.extend([Wrong::Several, Wrong::Noise, Wrong::LikelyNoise]);
        wrongs.extend([Wrong::Table, Wrong::Query, Wrong::Everything]);
        wrongs
    }

    /// The one refusal to which it always leads, if there is one.
    pub fn refusal(self) -> Option<u32> {
        match self {
            Wrong::CutBetweenNodes | Wrong::CutInsideNode => Some(11),
            Wrong::LongerByOne | Wrong::LongerByMore => Some(11),
            Wrong::TooDeepAndCut | Wrong::CutAndChanged | Wrong::BrokenAndLonger => Some(11),
            Wrong::MiddleOfKind(_) | Wrong::NoMember => Some(12),
            Wrong::OtherRole | Wrong::OtherPrincipal => Some(12),
            Wrong::TooDeepAndChanged | Wrong::RepeatedAndChanged => Some(12),
            Wrong::Repeated | Wrong::TooDeep => Some(13),
            Wrong::BrokenElsewhere | Wrong::BrokenEverywhere => Some(14),
            Wrong::Changed(..) | Wrong::OtherGoal | Wrong::Several => None,
            Wrong::Noise | Wrong::LikelyNoise => None,
            Wrong::Table | Wrong::Query | Wrong::Everything => None,
        }
    }

    /// The refusals to which it must have led in a large number of trials; 0
    /// stands for an accepted record.
    pub fn expected(self) -> Vec<u32> {
        match self {
            Wrong::Several => vec![0, 11, 12, 13, 14],
            Wrong::LikelyNoise => vec![0, 12, 13, 14],
            Wrong::Noise => vec![11, 12],
            Wrong::Table => vec![0, 1, 2, 3, 4, 5, 6, 7, 12, 14, 17],
            Wrong::Query => vec![8],
            Wrong::Everything => (1..=8).chain([17]).collect(),
            other => vec![other.refusal().unwrap_or(12)],
        }
    }
}

impl fmt::Display for Wrong {
    fn fmt(&self, out: &mut fmt::Formatter<'_>) -> fmt::Result {
        let words = match self {
            Wrong::Changed(part, value) => format!("{part} changed to {value}"),
            Wrong::CutBetweenNodes => "cut between nodes".into(),
            Wrong::CutInsideNode => "cut inside a node".into(),
            Wrong::LongerByOne => "longer by one number".into(),
            Wrong::LongerByMore => "longer by several numbers".into(),
            Wrong::Repeated => "a pair twice on a branch".into(),
            Wrong::TooDeep => "depth limit lowered".into(),
            Wrong::MiddleOfKind(kind) => format!("wrong middle, kind {kind}"),
            Wrong::NoMember => "middle is no member".into(),
            Wrong::OtherRole => "credential of another role".into(),
            Wrong::OtherPrincipal => "kind 1 of another principal".into(),
            Wrong::OtherGoal => "another query".into(),
            Wrong::BrokenElsewhere => "broken on another branch".into(),
            Wrong::BrokenEverywhere => "broken on every branch".into(),
            Wrong::TooDeepAndChanged => "too deep and changed".into(),
            Wrong::TooDeepAndCut => "too deep and cut".into(),
            Wrong::RepeatedAndChanged => "a pair twice on a branch, and changed".into(),
            Wrong::CutAndChanged => "changed and cut behind it".into(),
            Wrong::BrokenAndLonger => "broken and longer".into(),
            Wrong::Several => "several numbers changed".into(),
            Wrong::Noise => "noise".into(),
            Wrong::LikelyNoise => "likely noise".into(),
            Wrong::Table => "damaged table".into(),
            Wrong::Query => "damaged query".into(),
            Wrong::Everything => "table, query and record".into(),
        };
        out.pad(&words)
    }
}

impl fmt::Display for Part {
    fn fmt(&self, out: &mut fmt::Formatter<'_>) -> fmt::Result {
        out.pad(match self {
            Part::Credential => "credential",
            Part::Middle => "middle",
        })
    }
}

impl fmt::Display for Value {
    fn fmt(&self, out: &mut fmt::Formatter<'_>) -> fmt::Result {
        match self {
            Value::Zero => out.pad("0"),
            Value::Neighbour => out.pad("a neighbour"),
            Value::Number(number) => write!(out, "{number}"),
            Value::Any => out.pad("any number"),
        }
    }
}
