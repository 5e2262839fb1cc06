//! What accepted records are like.

use std::collections::BTreeSet;
use std::fmt;

use reference::derivation::{Derivation, NODE};
use reference::generate::claims::Claim;
use reference::pairs::is_in;
use reference::query::DEEPEST;
use reference::records::Head;
use reference::table::{Members, Table};
use reference::words::{comply, every_word};
use reference::Number;

use crate::branches::{Again, OFTEN};
use crate::dead;
use crate::owners::{by_owner, matching_none};
use crate::slips::{has_many_edges, rejecting, Slip, LEAST, MANY};

/// Something that an accepted record can be or have.
#[derive(Clone, Copy, Debug, PartialEq, Eq, PartialOrd, Ord)]
pub enum Feature {
    /// A used credential has an automaton.
    Automaton,
    /// So have several, and the automata are not the same.
    Automata,
    /// There is an automaton, and there are several words.
    AutomatonAndWords,
    /// A credential that is not used has an automaton that is not used.
    UnusedAutomaton,
    /// A used automaton has label 4.
    ByOwner,
    /// So it is, and without its edges with label 4 it would reject a word.
    OwnersRole,
    /// An automaton that is not used is dead on a word.
    DeadAutomaton,
    /// A credential of this kind is used.
    Kind(Number),
    /// A role stands twice on a branch: before, the record was refused with 13.
    RoleTwice,
    /// So it does, and there is an automaton.
    RoleTwiceAndAutomaton,
    /// A role stands on a branch so often.
    RoleOften,
    /// A principal stands twice on a branch, in different roles.
    PrincipalTwice,
    /// The deepest node is as deep as the query allows.
    AtTheLimit,
    /// There are sixteen levels.
    SixteenLevels,
    /// There are more than 65,535 nodes.
    ManyNodes,
    /// A used credential has an automaton, and the table has many edges.
    ManyEdges,
    /// So it is, and by such a slip the record would be rejected.
    Slip(Slip),
}

impl Feature {
    /// Every feature that there is.
    pub fn all() -> Vec<Feature> {
        let mut features = vec![Feature::Automaton, Feature::Automata];
        features.extend([Feature::AutomatonAndWords, Feature::UnusedAutomaton]);
        features.extend([Feature::ByOwner, Feature::OwnersRole]);
        features.push(Feature::DeadAutomaton);
        features.extend([1, 2, 3, 4].map(Feature::Kind));
        features.extend([Feature::RoleTwice, Feature::RoleTwiceAndAutomaton]);
        features.extend([Feature::RoleOften, Feature::PrincipalTwice]);
        features.extend([Feature::AtTheLimit, Feature::SixteenLevels]);
        features.extend([Feature::ManyNodes, Feature::ManyEdges]);
        features.extend(Slip::MISSING.map(Feature::Slip));
        features
    }

    /// How many accepted records must have it at the least.
    pub fn least(self) -> u64 {
        match self {
            Feature::Automaton | Feature::RoleTwice => 5_000,
            Feature::ManyEdges | Feature::Slip(_) => LEAST,
            _ => 1,
        }
    }

    /// The features of an accepted claim.
    pub fn of(claim: &Claim) -> Vec<Feature> {
        let table = Table::read(&claim.table).expect("an accepted table");
        let asked = claim.query.read().expect("a valid query");
        let derivation = Derivation::read(&table, asked, &claim.record);
        let derivation = derivation.expect("an accepted record");
        let uses = Uses::of(&table, derivation.used_set());
        let shape = Shape::of(&derivation);
        let again = Again::of(&derivation);
        let uses_owner = uses.any_of(by_owner(&table));
        let slips = rejecting(&table, &derivation);
        let has = |feature: Feature| match feature {
            Feature::Automaton => !uses.automata.is_empty(),
            Feature::Automata => uses.automata.len() > 1,
            Feature::AutomatonAndWords => !uses.automata.is_empty() && shape.words > 1,
            Feature::UnusedAutomaton => !uses.other_automata.is_empty(),
            Feature::ByOwner => uses_owner,
            Feature::OwnersRole => {
                uses_owner && comply(&matching_none(table.clone()), &derivation).is_err()
            }
            Feature::DeadAutomaton => uses.leaves_any_of(dead::on_words(&table, &derivation)),
            Feature::Kind(kind) => uses.kinds.contains(&kind),
            Feature::RoleTwice => again.role > 1,
            Feature::RoleTwiceAndAutomaton => again.role > 1 && !uses.automata.is_empty(),
            Feature::RoleOften => again.role >= OFTEN,
            Feature::PrincipalTwice => again.principal > 1,
            Feature::AtTheLimit => shape.levels == asked.depth as usize,
            Feature::SixteenLevels => shape.levels == DEEPEST as usize,
            Feature::ManyNodes => claim.record.len() > NODE * usize::from(u16::MAX),
            Feature::ManyEdges => !uses.automata.is_empty() && has_many_edges(&table),
            Feature::Slip(slip) => slips.contains(&slip),
        };
        let all = Feature::all().into_iter();
        all.filter(|&feature| has(feature)).collect()
    }
}

/// What a record uses of its table.
#[derive(Default)]
pub struct Uses {
    /// The kinds of its credentials.
    pub kinds: BTreeSet<Number>,
    /// The automata attached to its credentials.
    pub automata: BTreeSet<Number>,
    /// The automata attached only to other credentials.
    pub other_automata: BTreeSet<Number>,
}

impl Uses {
    /// What is used by a record with this used set.
    pub fn of(table: &Table, used_set: u32) -> Uses {
        let mut uses = Uses::default();
        for (index, credential) in table.credentials.iter().enumerate() {
            if (used_set >> index) & 1 == 1 {
                uses.kinds.insert(kind(&credential.members));
                uses.automata.extend(credential.automaton);
            } else {
                uses.other_automata.extend(credential.automaton);
            }
        }
        uses.other_automata = &uses.other_automata - &uses.automata;
        uses
    }

    /// Whether one of the automata attached to the record's credentials is in a
    /// set, in which automaton i counts 2^(i-1).
    pub fn any_of(&self, set: u32) -> bool {
        self.automata.iter().any(|&number| is_in(number, set))
    }

    /// Whether one that is attached to none of them is in a set.
    pub fn leaves_any_of(&self, set: u32) -> bool {
        let mut left = (1..=Head::LIMITS.automata).filter(|number| !self.automata.contains(number));
        left.any(|number| is_in(number, set))
    }
}

/// The number of a credential's kind.
fn kind(members: &Members) -> Number {
    match members {
        Members::One(_) => 1,
        Members::AllOf(_) => 2,
        Members::Linked(..) => 3,
        Members::InEvery(_) => 4,
    }
}

/// How many words a derivation has, and how many levels.
#[derive(Default)]
struct Shape {
    words: u64,
    levels: usize,
}

impl Shape {
    /// The shape of a derivation: a word has as many roles as its last node
    /// is deep.
    fn of(derivation: &Derivation) -> Shape {
        let mut shape = Shape::default();
        every_word(derivation, |word| {
            shape.words += 1;
            shape.levels = shape.levels.max(word.len());
            true
        });
        shape
    }
}

impl fmt::Display for Feature {
    fn fmt(&self, out: &mut fmt::Formatter<'_>) -> fmt::Result {
        let words = match self {
            Feature::Automaton => "uses an automaton".into(),
            Feature::Automata => "uses several automata".into(),
            Feature::AutomatonAndWords => "uses an automaton, has several words".into(),
            Feature::UnusedAutomaton => "leaves an automaton unused".into(),
            Feature::ByOwner => "uses an automaton with label 4".into(),
            Feature::OwnersRole => "label 4 matches, and is needed".into(),
            Feature::DeadAutomaton => "an unused automaton is dead".into(),
            Feature::Kind(kind) => format!("uses a credential of kind {kind}"),
            Feature::RoleTwice => "a role twice on a branch".into(),
            Feature::RoleTwiceAndAutomaton => "so, and uses an automaton".into(),
            Feature::RoleOften => format!("a role {OFTEN} times on a branch"),
            Feature::PrincipalTwice => "a principal twice on a branch".into(),
            Feature::AtTheLimit => "as deep as the query allows".into(),
            Feature::SixteenLevels => "sixteen levels".into(),
            Feature::ManyNodes => "more than 65,535 nodes".into(),
            Feature::ManyEdges => format!("uses an automaton, {MANY} edges or more"),
            Feature::Slip(slip) => format!("so, rejected {slip}"),
        };
        out.pad(&words)
    }
}
