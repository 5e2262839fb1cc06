//! Derivations grown from a table: what can be derived in it, and a record
//! that does so.

use std::collections::{BTreeMap, BTreeSet};

use crate::query::DEEPEST;
use crate::random::Random;
use crate::records::Records;
use crate::sorts::{Goal, Principal, Role};
use crate::table::{Members, Table};
use crate::Number;

/// A table, and what can be derived in it.
#[derive(Clone, Debug)]
pub struct Policy {
    /// The table as written.
    pub records: Records,
    /// The table.
    pub table: Table,
    /// Who is in some role by a credential of kind 1. Nobody else is in any
    /// role at all.
    members: Vec<Principal>,
    /// The fewest levels in which a goal can be derived. A derivation of so few
    /// levels has no goal twice on a branch: what lies between the two could be
    /// left out. Other goals cannot be derived.
    heights: BTreeMap<Goal, Number>,
}

/// A way of proving a goal.
struct Way {
    credential: Number,
    middle: Number,
    premises: Vec<Goal>,
}

/// A node of a derivation, with what it derives and where it stands.
#[derive(Clone, Copy, Debug, PartialEq, Eq)]
pub struct Node {
    /// The number of the credential.
    pub credential: Number,
    /// The middle.
    pub middle: Number,
    /// What is derived at the node.
    pub goal: Goal,
    /// The node's level.
    pub level: Number,
}

/// How a derivation is to grow.
#[derive(Clone, Copy, Debug, PartialEq, Eq)]
pub struct Wish {
    /// The depth limit.
    pub depth: Number,
    /// Once there are so many nodes, the lowest way of proving each further
    /// goal is preferred.
    pub nodes: usize,
    /// Whether the highest way of proving a goal is preferred before.
    pub deep: bool,
    /// Whether a goal may occur twice on a branch.
    pub repeats: bool,
}

impl Policy {
    /// What can be derived in the table with these records, which is an
    /// accepted one.
    pub fn new(records: Records) -> Policy {
        let table = Table::read(&records.numbers()).expect("a table that is accepted");
        let mut policy = Policy {
            records,
            members: members(&table),
            table,
            heights: BTreeMap::new(),
        };
        for level in 1..=DEEPEST {
            let found = policy.derivable(level);
            if found.is_empty() {
                break;
            }
            policy
                .heights
                .extend(found.iter().map(|&goal| (goal, level)));
        }
        policy
    }

    /// Every goal that can be derived, and the fewest levels that it takes.
    pub fn goals(&self) -> Vec<(Goal, Number)> {
        self.heights
            .iter()
            .map(|(&goal, &height)| (goal, height))
            .collect()
    }

    /// Whether a goal can be derived.
    pub fn is_derivable(&self, goal: Goal) -> bool {
        self.heights.contains_key(&goal)
    }

    /// The goals that can be derived in so many levels but not in fewer.
    fn derivable(&self, levels: Number) -> Vec<Goal> {
        let credentials = self.table.credentials.iter();
        let roles: BTreeSet<Role> = credentials.map(|credential| credential.role).collect();
        let mut goals = Vec::new();
        for role in roles {
            for &principal in &self.members {
                let goal = Goal { principal, role };
                if !self.is_derivable(goal) && !self.ways(goal, levels).is_empty() {
                    goals.push(goal);
                }
            }
        }
        goals
    }

    /// The ways of proving a goal whose premises can all be derived, each in
    /// one level less than these.
    fn ways(&self, goal: Goal, levels: Number) -> Vec<Way> {
        let mut ways = Vec::new();
        for (number, credential) in (1..).zip(&self.table.credentials) {
            if credential.role != goal.role {
                continue;
            }
            for middle in self.middles(&credential.members) {
                let premises = self.table.premises(goal, number, middle);
                let fits = |&goal: &Goal| self.height(goal).is_some_and(|h| h < levels);
                if let Some(premises) = premises.filter(|goals| goals.iter().all(fits)) {
                    ways.push(Way {
                        credential: number,
                        middle,
                        premises,
                    });
                }
            }
        }
        ways
    }

    /// The middles worth trying with a credential.
    fn middles(&self, kind: &Members) -> Vec<Number> {
        match kind {
            Members::Linked(..) => self.members.iter().map(|member| member.number()).collect(),
            _ => vec![0],
        }
    }

    /// The fewest levels in which a goal can be derived.
    fn height(&self, goal: Goal) -> Option<Number> {
        self.heights.get(&goal).copied()
    }

    /// Grows a derivation of a goal. There may be none within the levels, or it
    /// may not be found in reasonable time.
    pub fn grow(&self, random: &mut Random, goal: Goal, wish: Wish) -> Option<Vec<Node>> {
        let mut growth = Growth {
            policy: self,
            wish,
            nodes: Vec::new(),
            trials: 2 * wish.nodes + 1_000,
        };
        let grown = growth.goal(random, goal, &mut Vec::new());
        grown.then_some(growth.nodes)
    }
}

/// The principals of kind 1 credentials, each once.
fn members(table: &Table) -> Vec<Principal> {
    let mut members = Vec::new();
    for credential in &table.credentials {
        if let Members::One(member) = credential.members {
            members.push(member);
        }
    }
    members.sort();
    members.dedup();
    members
}

/// A derivation that is growing.
struct Growth<'a> {
    policy: &'a Policy,
    wish: Wish,
    nodes: Vec<Node>,
    /// How many goals may still be tried.
    trials: usize,
}

impl Growth<'_> {
    /// Adds a derivation of a goal that stands below these goals, or nothing
    /// if none is found.
    fn goal(&mut self, random: &mut Random, goal: Goal, above: &mut Vec<Goal>) -> bool {
        let repeated = above.contains(&goal) && !self.wish.repeats;
        let level = above.len() as Number + 1;
        if repeated || level > self.wish.depth || self.trials == 0 {
            return false;
        }
        self.trials -= 1;
        let before = self.nodes.len();
        above.push(goal);
        let mut ways = self.ways(random, goal, level);
        let found = ways.drain(..).any(|way| {
            self.nodes.truncate(before);
            self.nodes.push(Node {
                credential: way.credential,
                middle: way.middle,
                goal,
                level,
            });
            let mut premises = way.premises.into_iter();
            premises.all(|premise| self.goal(random, premise, above))
        });
        above.pop();
        if !found {
            self.nodes.truncate(before);
        }
        found
    }

    /// The ways of proving a goal at a level, the preferred ones first.
    fn ways(&self, random: &mut Random, goal: Goal, level: Number) -> Vec<Way> {
        let levels = self.wish.depth - level + 1;
        let mut ways = self.policy.ways(goal, levels);
        random.shuffle(&mut ways);
        let height = |way: &Way| {
            let heights = way.premises.iter().map(|&goal| self.policy.height(goal));
            heights.max().flatten().unwrap_or(0)
        };
        if self.nodes.len() >= self.wish.nodes {
            ways.sort_by_key(height);
        } else if self.wish.deep {
            ways.sort_by_key(|way| DEEPEST - height(way));
        }
        ways
    }
}
