//! A record's judgement, and the derivation that it writes down.
//!
//! The proved checker judges; nothing here decides. The record is then read
//! once more, by docs/DEFINITION.md, "Derivations", "Records" and "Words", so
//! that its nodes can be shown and, where the checker stops at a node, it can be
//! said why.

use bwlchareg::{Number, Query, Refusal};

use crate::limits::NAMES;
use crate::names::Names;
use crate::table::{Body, Credential, Role, Table};
use crate::Wallet;

/// That a principal is in a role.
#[derive(Clone, Copy, Debug, PartialEq, Eq)]
pub struct Goal {
    /// The principal.
    pub principal: Number,
    /// The role.
    pub role: Role,
}

/// A node of a derivation.
#[derive(Clone, Copy, Debug, PartialEq, Eq)]
pub struct Node {
    /// The node's number in preorder, from 1.
    pub number: usize,
    /// The level: 1 for the goal, one deeper for each child.
    pub level: Number,
    /// What is derived at the node.
    pub goal: Goal,
    /// The credential's number, if the record still has it.
    pub credential: Option<Number>,
    /// The middle, if the record still has it.
    pub middle: Option<Number>,
    /// The index of the node above in the list of nodes.
    pub parent: Option<usize>,
}

impl Node {
    /// Whether the record has both numbers of the node.
    pub fn is_whole(&self) -> bool {
        self.middle.is_some()
    }
}

/// Why a record is stopped at a node: one of the alternatives of refusals 11,
/// 12 and 13.
#[derive(Clone, Copy, Debug, PartialEq, Eq)]
pub enum Why {
    /// 11: no numbers are left for the node.
    NoneLeft,
    /// 11: one number is left for the node.
    OneLeft,
    /// 11: so many numbers remain after the tree.
    Remaining(usize),
    /// 12: there is no credential of this number.
    NoCredential(Number),
    /// 12: the credential defines this role, not the goal's.
    OtherRole(Role),
    /// 12: the credential names this principal, not the goal's.
    OtherPrincipal(Number),
    /// 12: the credential has kind 3, so this middle must be 1 to 64.
    MiddleOutOfRange(Number),
    /// 12: the credential has another kind, so this middle must be 0.
    MiddleNotZero(Number),
    /// 13: the level is above this depth limit.
    TooDeep(Number),
    /// 13: the goal is that of this node, which is on the branch.
    OnBranch(usize),
}

impl Why {
    /// The number of the refusal.
    pub fn refusal(self) -> u32 {
        match self {
            Why::NoneLeft | Why::OneLeft | Why::Remaining(_) => 11,
            Why::TooDeep(_) | Why::OnBranch(_) => 13,
            _ => 12,
        }
    }
}

/// Where a record is stopped, and why.
#[derive(Clone, Copy, Debug, PartialEq, Eq)]
pub struct Fault {
    /// The number of the node; one more than there are nodes, if numbers
    /// remain after the tree.
    pub node: usize,
    /// What is wrong there.
    pub why: Why,
}

impl Fault {
    /// The refusal that this fault leads to.
    fn refusal(self) -> Refusal {
        Refusal {
            number: self.why.refusal(),
            position: self.node as u64,
        }
    }
}

/// A record that has been judged.
#[derive(Clone, Debug, PartialEq, Eq)]
pub struct Judged {
    /// What the checker answers: the used set, or the refusal.
    pub verdict: Result<u32, Refusal>,
    /// What is asked.
    pub query: Query,
    /// The nodes in preorder, up to the one at fault; none if the table or
    /// the query is refused.
    pub nodes: Vec<Node>,
    /// Why the record is stopped, if it is refused with 11, 12 or 13.
    pub fault: Option<Fault>,
}

impl Judged {
    /// The checker's refusal, if it refuses.
    pub fn refusal(&self) -> Option<Refusal> {
        self.verdict.err()
    }

    /// Whether the record is one whole tree, so that it has words: whether it
    /// is accepted, or refused for its words alone.
    pub fn is_tree(&self) -> bool {
        match self.verdict {
            Ok(_) => true,
            Err(refusal) => refusal.number == 14,
        }
    }

    /// The numbers of the nodes: the record, as far as it was read.
    pub fn numbers(&self) -> Vec<Number> {
        let nodes = self.nodes.iter();
        nodes
            .flat_map(|node| [node.credential, node.middle])
            .flatten()
            .collect()
    }

    /// The node at fault, if there is one in the list.
    pub fn faulty(&self) -> Option<&Node> {
        let fault = self.fault?;
        self.nodes.last().filter(|node| node.number == fault.node)
    }

    /// The fault in words: `credential 2 names another principal, School`.
    pub fn reason(&self, names: &Names) -> Option<String> {
        let fault = self.fault?;
        let node = self.faulty();
        let credential = node.and_then(|node| node.credential).unwrap_or(0);
        let goal = node.map(|node| names.goal(node.goal.principal, node.goal.role));
        let goal = goal.unwrap_or_default();
        let level = node.map_or(0, |node| node.level);
        Some(match fault.why {
            Why::NoneLeft => format!("no numbers are left for node {}", fault.node),
            Why::OneLeft => format!("only one number is left for node {}", fault.node),
            Why::Remaining(1) => "1 number remains after the tree".to_string(),
            Why::Remaining(count) => format!("{count} numbers remain after the tree"),
            Why::NoCredential(number) => format!("there is no credential {number}"),
            Why::OtherRole(role) => format!(
                "credential {credential} defines another role, {}",
                names.role(role)
            ),
            Why::OtherPrincipal(principal) => format!(
                "credential {credential} names another principal, {}",
                names.principal(principal)
            ),
            Why::MiddleOutOfRange(middle) => {
                format!("the middle of credential {credential} must be 1 to {NAMES}, not {middle}")
            }
            Why::MiddleNotZero(middle) => {
                format!("the middle of credential {credential} must be 0, not {middle}")
            }
            Why::TooDeep(limit) => format!("level {level} is deeper than the depth limit, {limit}"),
            Why::OnBranch(above) => {
                format!("{goal} is already on the branch, at node {above}")
            }
        })
    }
}

/// Verifies a record of a wallet, and reads its nodes. The verdict is the
/// checker's.
pub fn judge(wallet: &Wallet, query: Query, record: &[Number]) -> Judged {
    let verdict = bwlchareg::verify(&wallet.table.numbers(), query, record);
    let mut judged = Judged {
        verdict,
        query,
        nodes: Vec::new(),
        fault: None,
    };
    // Numbers of a table or a query that is refused may stand for nothing.
    let readable = match verdict {
        Ok(_) => true,
        Err(refusal) => (11..=14).contains(&refusal.number),
    };
    if readable {
        let (nodes, fault) = read(&wallet.table, query, record);
        judged.nodes = nodes;
        // A reason is only given for what the checker has found.
        judged.fault = fault.filter(|fault| verdict == Err(fault.refusal()));
    }
    judged
}

/// A goal whose node has not been read.
#[derive(Clone, Copy)]
struct Open {
    goal: Goal,
    level: Number,
    parent: Option<usize>,
}

/// Reads the nodes of a record up to the first that is at fault, for a table
/// and a query that are accepted.
///
/// Goals that wait for their nodes stand on a stack, the next one on top. A
/// branch has at most 16 levels, and each leaves at most three goals waiting.
pub fn read(table: &Table, query: Query, record: &[Number]) -> (Vec<Node>, Option<Fault>) {
    let mut nodes: Vec<Node> = Vec::new();
    let mut rest = record.iter().copied();
    let mut waiting = vec![Open {
        goal: asked(query),
        level: 1,
        parent: None,
    }];
    while let Some(open) = waiting.pop() {
        let node = Node {
            number: nodes.len() + 1,
            level: open.level,
            goal: open.goal,
            credential: rest.next(),
            middle: rest.next(),
            parent: open.parent,
        };
        nodes.push(node);
        match allowed(table, query.depth, &nodes, &node) {
            Ok(premises) => waiting.extend(premises.into_iter().rev().map(|goal| Open {
                goal,
                level: node.level + 1,
                parent: Some(node.number - 1),
            })),
            Err(why) => {
                let node = node.number;
                return (nodes, Some(Fault { node, why }));
            }
        }
    }
    let fault = match rest.len() {
        0 => None,
        count => Some(Fault {
            node: nodes.len() + 1,
            why: Why::Remaining(count),
        }),
    };
    (nodes, fault)
}

/// The goals on which a node rests, or why the record is stopped there. The
/// tests have the order of their numbers.
fn allowed(table: &Table, limit: Number, nodes: &[Node], node: &Node) -> Result<Vec<Goal>, Why> {
    let premises = premises(table, node)?;
    placed(nodes, node, limit)?;
    Ok(premises)
}

/// The goal of a query.
fn asked(query: Query) -> Goal {
    Goal {
        principal: query.principal,
        role: Role::asked(query),
    }
}

/// The goals on which a node rests, in order, or why its numbers are refused
/// (11 and 12, in this order).
fn premises(table: &Table, node: &Node) -> Result<Vec<Goal>, Why> {
    let number = node.credential.ok_or(Why::NoneLeft)?;
    let middle = node.middle.ok_or(Why::OneLeft)?;
    let credential = numbered(table, number).ok_or(Why::NoCredential(number))?;
    let Goal { principal, role } = node.goal;
    if credential.role != role {
        return Err(Why::OtherRole(credential.role));
    }
    let same_in = |role: Role| Goal { principal, role };
    match (credential.body, middle) {
        (Body::Member(member), _) if member != principal => Err(Why::OtherPrincipal(member)),
        (Body::Linked { first, second }, 1..=NAMES) => Ok(vec![
            Goal {
                principal: middle,
                role: Role {
                    owner: role.owner,
                    name: first,
                },
            },
            same_in(Role {
                owner: middle,
                name: second,
            }),
        ]),
        (Body::Linked { .. }, _) => Err(Why::MiddleOutOfRange(middle)),
        (_, 1..) => Err(Why::MiddleNotZero(middle)),
        (Body::Member(_), 0) => Ok(Vec::new()),
        (Body::Contained(role), 0) => Ok(vec![same_in(role)]),
        (Body::Parts(first), 0) => Ok(table.parts(first).into_iter().map(same_in).collect()),
    }
}

/// The credential of a number, if there is one.
pub fn numbered(table: &Table, number: Number) -> Option<&Credential> {
    let index = (number as usize).checked_sub(1)?;
    table.credentials.get(index)
}

/// Whether a node may stand where it does, or why it may not (13).
fn placed(nodes: &[Node], node: &Node, limit: Number) -> Result<(), Why> {
    if node.level > limit {
        return Err(Why::TooDeep(limit));
    }
    let mut above = ancestors(nodes, node);
    match above.find(|above| above.goal == node.goal) {
        Some(above) => Err(Why::OnBranch(above.number)),
        None => Ok(()),
    }
}

/// The nodes above a node, the nearest first.
pub fn ancestors<'a>(nodes: &'a [Node], node: &Node) -> impl Iterator<Item = &'a Node> {
    let at = |index: Option<usize>| index.and_then(|index| nodes.get(index));
    std::iter::successors(at(node.parent), move |node| at(node.parent))
}
