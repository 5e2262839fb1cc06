//! Records that are right number by number, but do not fit their goal, their
//! query or their table.

use std::collections::BTreeSet;

use crate::derivation::NODE;
use crate::generate::claims::{levels, numbers, query, written, Claim, Grown};
use crate::generate::constraints::{Constraint, Role};
use crate::generate::growth::{Node, Wish};
use crate::query::DEEPEST;
use crate::random::Random;
use crate::records::CredentialRecord;
use crate::sorts::{Goal, Principal, HIGHEST};
use crate::Number;

/// So many nodes at most are searched for two branches that differ.
const SEARCHED: usize = 2_000;

/// Another derivation from the same table, in which a pair of principal and role
/// occurs twice on a branch and nothing else is wrong; and the index of the first
/// such node.
pub fn repeated(random: &mut Random, grown: &Grown) -> Option<(Claim, usize)> {
    let (goal, height) = *random.pick(&grown.policy.goals());
    let wish = Wish {
        depth: random.between(height, DEEPEST),
        nodes: *random.pick(&[4, 16, 64]),
        deep: random.one_in(2),
        repeats: true,
    };
    let nodes = grown.policy.grow(random, goal, wish)?;
    let node = first_repeated(&nodes)?;
    let claim = Claim {
        table: grown.records.numbers(),
        query: query(goal, levels(&nodes)),
        record: numbers(&nodes),
    };
    Some((claim, node))
}

/// The index of the first node whose goal occurs above it.
fn first_repeated(nodes: &[Node]) -> Option<usize> {
    let mut above = Vec::new();
    for (index, node) in nodes.iter().enumerate() {
        above.truncate(node.level as usize - 1);
        if above.contains(&node.goal) {
            return Some(index);
        }
        above.push(node.goal);
    }
    None
}

/// The record with a lower depth limit than it needs, and the index of the
/// first node that is too deep.
pub fn too_deep(random: &mut Random, grown: &Grown) -> Option<(Claim, usize)> {
    let levels = grown.levels();
    if levels == 1 {
        return None;
    }
    let mut claim = grown.claim();
    claim.query.depth = match random.below(2) {
        0 => levels - 1,
        _ => random.between(1, levels - 1),
    };
    let mut nodes = grown.nodes.iter();
    let node = nodes.position(|node| node.level > claim.query.depth)?;
    Some((claim, node))
}

/// The index of one of the nodes that are as wanted.
fn node(random: &mut Random, grown: &Grown, wanted: impl Fn(&Node) -> bool) -> Option<usize> {
    let numbered = grown.nodes.iter().enumerate();
    let there = numbered.filter(|&(_, node)| wanted(node));
    one(random, there.map(|(index, _)| index).collect())
}

/// The number of one of the credentials that are as wanted.
fn credential(
    random: &mut Random,
    grown: &Grown,
    wanted: impl Fn(&CredentialRecord) -> bool,
) -> Option<Number> {
    let numbered = (1..).zip(&grown.records.credentials);
    let there = numbered.filter(|&(_, credential)| wanted(credential));
    one(random, there.map(|(number, _)| number).collect())
}

/// One of some values, if there are any.
fn one<Value: Copy>(random: &mut Random, values: Vec<Value>) -> Option<Value> {
    if values.is_empty() {
        None
    } else {
        Some(*random.pick(&values))
    }
}

/// A middle that the kind of its credential does not allow.
pub fn middle_of_kind(random: &mut Random, grown: &Grown, kind: Number) -> Option<Claim> {
    let index = node(random, grown, |node| grown.kind(node) == kind)?;
    let Node { middle, goal, .. } = grown.nodes[index];
    let mut claim = grown.claim();
    claim.record[NODE * index + 1] = match kind {
        3 => *random.pick(&[0, HIGHEST + 1, middle + 256, Number::MAX]),
        _ => *random.pick(&[1, goal.principal.number(), HIGHEST, 256, Number::MAX]),
    };
    Some(claim)
}

/// A middle who cannot be in the linking role.
pub fn no_member(random: &mut Random, grown: &Grown) -> Option<Claim> {
    let index = node(random, grown, |node| grown.kind(node) == 3)?;
    let linking = grown.nodes[index + 1].goal;
    let principals = (1..=HIGHEST).filter_map(Principal::read);
    let is_outside = |principal: &Principal| {
        let goal = Goal {
            principal: *principal,
            ..linking
        };
        !grown.policy.is_derivable(goal)
    };
    let outside: Vec<Principal> = principals.filter(is_outside).collect();
    let mut claim = grown.claim();
    claim.record[NODE * index + 1] = random.pick(&outside).number();
    Some(claim)
}

/// A credential that defines another role than the goal's, and that is fine
/// otherwise. If there are any, it is one with the same owner or name.
pub fn other_role(random: &mut Random, grown: &Grown) -> Option<Claim> {
    let index = random.below(grown.nodes.len());
    let (owner, name) = written(grown.nodes[index].goal);
    let near = |c: &CredentialRecord| (c[0] == owner) != (c[1] == name);
    let far = |c: &CredentialRecord| c[0] != owner && c[1] != name;
    let number = credential(random, grown, near).or(credential(random, grown, far))?;
    let kind = grown.records.credentials[number as usize - 1][2];
    let mut claim = grown.claim();
    claim.record[NODE * index] = number;
    claim.record[NODE * index + 1] = match kind {
        3 => random.between(1, HIGHEST),
        _ => 0,
    };
    Some(claim)
}

/// A credential of kind 1 that defines the goal's role for somebody else.
pub fn other_principal(random: &mut Random, grown: &Grown) -> Option<Claim> {
    let index = node(random, grown, |node| grown.kind(node) == 1)?;
    let goal = grown.nodes[index].goal;
    let number = credential(random, grown, |&[owner, name, kind, first, ..]| {
        (owner, name) == written(goal) && kind == 1 && first != goal.principal.number()
    })?;
    let mut claim = grown.claim();
    claim.record[NODE * index] = number;
    Some(claim)
}

/// The record for another query: another principal, owner or name.
pub fn other_goal(random: &mut Random, grown: &Grown) -> Option<Claim> {
    let mut claim = grown.claim();
    let goals = grown.policy.goals();
    let goal = random.pick(&goals).0;
    let mut query = query(goal, claim.query.depth);
    match random.below(4) {
        0 => query.principal = random.between(1, HIGHEST),
        1 => (query.owner, query.name) = (claim.query.owner, claim.query.name),
        2 => (query.principal, query.owner) = (claim.query.principal, claim.query.owner),
        _ => (query.principal, query.name) = (claim.query.principal, claim.query.name),
    }
    let other = query != claim.query;
    claim.query = query;
    other.then_some(claim)
}

/// A branch: its roles and credentials from the goal down to a kind 1 node.
type Branch = Vec<(Role, Number)>;

/// Every branch of the derivation, from left to right.
fn branches(grown: &Grown) -> Vec<Branch> {
    let mut branches = Vec::new();
    let mut branch = Branch::new();
    for node in &grown.nodes {
        branch.truncate(node.level as usize - 1);
        branch.push((written(node.goal), node.credential));
        if grown.kind(node) == 1 {
            branches.push(branch.clone());
        }
    }
    branches
}

/// The record with an automaton attached to a credential. It accepts every
/// word that passes through the credential, and rejects another word.
pub fn broken<'a>(random: &mut Random, grown: &Grown<'a>) -> Option<Grown<'a>> {
    if grown.nodes.len() > SEARCHED {
        return None;
    }
    let at = random.pick(&grown.nodes);
    let has_it = |branch: &Branch| branch.iter().any(|&(_, number)| number == at.credential);
    let (through, others): (Vec<Branch>, Vec<Branch>) =
        branches(grown).into_iter().partition(has_it);
    let has_role = |branch: &Branch, role: Role| branch.iter().any(|&(other, _)| other == role);
    let mut constraints = Vec::new();
    let role = written(at.goal);
    if others.iter().any(|branch| !has_role(branch, role)) {
        constraints.push(Constraint::somewhere(role));
    }
    for &(role, _) in others.iter().flatten() {
        if !through.iter().any(|branch| has_role(branch, role)) {
            constraints.push(Constraint::nowhere(role));
        }
    }
    if constraints.is_empty() {
        return None;
    }
    let constraint = match by_owner(&through, &others) {
        Some(constraint) if random.one_in(3) => constraint,
        _ => random.pick(&constraints).clone(),
    };
    grown.constrained(random, at.credential, &constraint)
}

/// The record with an automaton attached to a credential, which demands some word
/// and rejects every word.
pub fn broken_everywhere<'a>(random: &mut Random, grown: &Grown<'a>) -> Option<Grown<'a>> {
    let goal = written(grown.nodes[0].goal);
    let leaves = grown.nodes.iter().filter(|node| grown.kind(node) == 1);
    let shortest = leaves.map(|node| node.level).min()?;
    let of_nobody = (1..=HIGHEST).find(|&owner| {
        let mut nodes = grown.nodes.iter();
        nodes.all(|node| written(node.goal).0 != owner)
    });
    let constraint = match (random.below(4), of_nobody) {
        (0, _) => Constraint::nothing(random),
        (1, Some(owner)) => Constraint::last_of(owner),
        (2, _) if shortest > 1 => Constraint::at_most(shortest - 1),
        _ => Constraint::nowhere(goal),
    };
    let credential = random.pick(&grown.nodes).credential;
    grown.constrained(random, credential, &constraint.marked(1))
}

/// That words have roles of the owners of these branches alone, if that rejects
/// a word of others.
fn by_owner(through: &[Branch], others: &[Branch]) -> Option<Constraint> {
    let roles = through.iter().flatten();
    let owners: BTreeSet<Number> = roles.map(|(role, _)| role.0).collect();
    let mut other_roles = others.iter().flatten();
    let rejects = other_roles.any(|(role, _)| !owners.contains(&role.0));
    let owners: Vec<Number> = owners.into_iter().collect();
    rejects.then(|| Constraint::owned_by(&owners))
}
