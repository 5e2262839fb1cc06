//! Claims: a table, a query, and a record that is to prove it.

use crate::generate::clubs::{self, Circle};
use crate::generate::constraints::{self, Constraint, Role};
use crate::generate::growth::{Node, Policy, Wish};
use crate::generate::{nets, policies};
use crate::query::{Query, DEEPEST};
use crate::random::Random;
use crate::records::{Head, Records};
use crate::sorts::Goal;
use crate::{verify, Number};

/// What a verifying call is given.
#[derive(Clone, Debug, PartialEq, Eq)]
pub struct Claim {
    /// The table's numbers.
    pub table: Vec<Number>,
    /// The query.
    pub query: Query,
    /// The record's numbers.
    pub record: Vec<Number>,
}

/// A record that derives its query. Its words may be rejected all the same.
#[derive(Clone, Debug)]
pub struct Grown<'a> {
    /// The table from which it was grown.
    pub policy: &'a Policy,
    /// The same table, but perhaps with another automaton.
    pub records: Records,
    /// The query.
    pub query: Query,
    /// The nodes of the derivation in preorder.
    pub nodes: Vec<Node>,
}

impl<'a> Grown<'a> {
    /// Grows a record from a table for a random query, if the first trial
    /// does not fail. Every second one is as deep as the query allows.
    pub fn new(random: &mut Random, policy: &'a Policy) -> Option<Grown<'a>> {
        let (goal, height) = high_goal(random, policy)?;
        let wish = Wish {
            depth: random.between(height, DEEPEST),
            nodes: *random.pick(&[1, 4, 16, 64, 512]),
            deep: random.one_in(2),
            repeats: false,
        };
        let nodes = policy.grow(random, goal, wish)?;
        let depth = match random.below(2) {
            0 => wish.depth,
            _ => levels(&nodes),
        };
        Some(Grown {
            policy,
            records: policy.records.clone(),
            query: query(goal, depth),
            nodes,
        })
    }

    /// The claim with this record.
    pub fn claim(&self) -> Claim {
        Claim {
            table: self.records.numbers(),
            query: self.query,
            record: numbers(&self.nodes),
        }
    }

    /// How deep the derivation is.
    pub fn levels(&self) -> Number {
        levels(&self.nodes)
    }

    /// The kind of a node's credential.
    pub fn kind(&self, node: &Node) -> Number {
        self.records.credentials[node.credential as usize - 1][2]
    }

    /// The same record, with an automaton attached to one of its credentials
    /// so that it is accepted. There may be none, or none that is found.
    pub fn kept(&self, random: &mut Random) -> Option<Grown<'a>> {
        let nodes = self.nodes.iter();
        let roles: Vec<Role> = nodes.map(|node| written(node.goal)).collect();
        let tries = (0..8).filter_map(|_| {
            let mark = random.between(0, 1);
            let constraint = Constraint::any(random, &roles).marked(mark);
            let credential = random.pick(&self.nodes).credential;
            self.constrained(random, credential, &constraint)
        });
        let mut accepted = tries.filter(|grown| {
            let Claim {
                table,
                query,
                record,
            } = grown.claim();
            verify(&table, query, &record).is_ok()
        });
        accepted.next()
    }

    /// The same record, with an automaton attached to this credential, if
    /// there is room for one.
    pub fn constrained(
        &self,
        random: &mut Random,
        credential: Number,
        constraint: &Constraint,
    ) -> Option<Grown<'a>> {
        let mut grown = self.clone();
        let number = constraints::add(random, &mut grown.records, constraint)?;
        grown.records.credentials[credential as usize - 1][5] = number;
        Some(grown)
    }
}

/// A table from which records are grown, often with automata. In one of three
/// roles lead back to themselves, and one of twelve has many edges.
pub fn table(random: &mut Random) -> Records {
    let most = Head::LIMITS.credentials;
    match random.below(12) {
        0 => nets::made_up(random, most).records,
        1..=4 => {
            let circle = Circle::drawn(random);
            clubs::made_up(random, circle, most).records
        }
        _ => policies::records(random),
    }
}

/// A goal that can be derived, and its height: the highest one of a few.
fn high_goal(random: &mut Random, policy: &Policy) -> Option<(Goal, Number)> {
    let goals = policy.goals();
    if goals.is_empty() {
        return None;
    }
    let drawn = (0..3).map(|_| *random.pick(&goals));
    drawn.max_by_key(|&(_, height)| height)
}

/// The query for a goal.
pub fn query(goal: Goal, depth: Number) -> Query {
    let (owner, name) = written(goal);
    Query {
        principal: goal.principal.number(),
        owner,
        name,
        depth,
    }
}

/// A goal's role, as written.
pub fn written(goal: Goal) -> Role {
    (goal.role.owner.number(), goal.role.name.number())
}

/// How deep a derivation with these nodes is.
pub fn levels(nodes: &[Node]) -> Number {
    let levels = nodes.iter().map(|node| node.level);
    levels.max().unwrap_or(0)
}

/// The record with these nodes.
pub fn numbers(nodes: &[Node]) -> Vec<Number> {
    let nodes = nodes.iter();
    nodes
        .flat_map(|node| [node.credential, node.middle])
        .collect()
}
