//! Right records spoiled in a wanted way.

use crate::derivation::NODE;
use crate::generate::claims::{Claim, Grown};
use crate::generate::misfits::{
    broken, broken_everywhere, middle_of_kind, no_member, other_goal, other_principal, other_role,
    repeated, too_deep,
};
use crate::generate::wrongs::{Part, Value, Wrong};
use crate::generate::{damage, queries};
use crate::query::DEEPEST;
use crate::random::Random;
use crate::sorts::{Goal, HIGHEST};
use crate::table::{Members, Table};
use crate::Number;

/// The claim that a record makes once it is spoiled in this way. Not every
/// record can be spoiled in every way.
pub fn spoil(random: &mut Random, grown: &Grown, wrong: Wrong) -> Option<Claim> {
    match wrong {
        Wrong::Changed(part, value) => changed(random, grown, part, value),
        Wrong::CutBetweenNodes => Some(cut_between(random, grown)),
        Wrong::CutInsideNode => Some(cut_inside(random, grown)),
        Wrong::LongerByOne => Some(longer(random, grown, 1)),
        Wrong::LongerByMore => Some(more(random, grown)),
        Wrong::Repeated => repeated(random, grown).map(|(claim, _)| claim),
        Wrong::TooDeep => too_deep(random, grown).map(|(claim, _)| claim),
        Wrong::MiddleOfKind(kind) => middle_of_kind(random, grown, kind),
        Wrong::NoMember => no_member(random, grown),
        Wrong::OtherRole => other_role(random, grown),
        Wrong::OtherPrincipal => other_principal(random, grown),
        Wrong::OtherGoal => other_goal(random, grown),
        Wrong::BrokenElsewhere => broken(random, grown).map(|grown| grown.claim()),
        Wrong::BrokenEverywhere => broken_everywhere(random, grown).map(|grown| grown.claim()),
        Wrong::TooDeepAndChanged => {
            too_deep(random, grown).map(|(claim, node)| hopeless(random, claim, node))
        }
        Wrong::TooDeepAndCut => {
            too_deep(random, grown).map(|(claim, node)| cut_at(random, claim, node))
        }
        Wrong::RepeatedAndChanged => {
            repeated(random, grown).map(|(claim, node)| hopeless(random, claim, node))
        }
        Wrong::CutAndChanged => Some(cut_and_changed(random, grown)),
        Wrong::BrokenAndLonger => broken(random, grown).map(|grown| more(random, &grown)),
        Wrong::Several => Some(several(random, grown)),
        Wrong::Noise => Some(noise(random, grown)),
        Wrong::LikelyNoise => Some(likely_noise(random, grown)),
        Wrong::Table => Some(with_table(random, grown)),
        Wrong::Query => Some(with_query(random, grown)),
        Wrong::Everything => Some(everything(random, grown)),
    }
}

/// One number of a random node changed, if that changes it.
fn changed(random: &mut Random, grown: &Grown, part: Part, value: Value) -> Option<Claim> {
    let mut claim = grown.claim();
    let node = random.below(grown.nodes.len());
    let number = match part {
        Part::Credential => &mut claim.record[NODE * node],
        Part::Middle => &mut claim.record[NODE * node + 1],
    };
    let own = *number;
    *number = new_value(random, own, value);
    (*number != own).then_some(claim)
}

/// What a number is changed to.
fn new_value(random: &mut Random, own: Number, value: Value) -> Number {
    match value {
        Value::Zero => 0,
        Value::Neighbour if own > 0 && random.one_in(2) => own - 1,
        Value::Neighbour => own.wrapping_add(1),
        Value::Number(number) => number,
        Value::Any => match random.below(6) {
            0 => own ^ 256,
            1 => own ^ 0x8000,
            2 => random.between(0, Number::MAX),
            3 => random.between(0, HIGHEST + 1),
            _ => random.between(1, 20),
        },
    }
}

/// The record without the nodes from some node on.
fn cut_between(random: &mut Random, grown: &Grown) -> Claim {
    let mut claim = grown.claim();
    claim
        .record
        .truncate(NODE * random.below(grown.nodes.len()));
    claim
}

/// The record up to the first number of some node.
fn cut_inside(random: &mut Random, grown: &Grown) -> Claim {
    let mut claim = grown.claim();
    claim
        .record
        .truncate(NODE * random.below(grown.nodes.len()) + 1);
    claim
}

/// So many numbers after the record: its own once more, or any.
fn longer(random: &mut Random, grown: &Grown, count: usize) -> Claim {
    let mut claim = grown.claim();
    let length = claim.record.len() + count;
    if random.one_in(2) {
        claim.record = claim.record.into_iter().cycle().take(length).collect();
    } else {
        claim.record.resize_with(length, || random.between(0, 20));
    }
    claim
}

/// Some numbers more than one after the record, or just as many again.
fn more(random: &mut Random, grown: &Grown) -> Claim {
    let count = match random.below(8) {
        0 => NODE * grown.nodes.len(),
        _ => 2 + random.below(12),
    };
    longer(random, grown, count)
}

/// The claim with something at a node that is wrong whatever the goal is.
fn hopeless(random: &mut Random, mut claim: Claim, node: usize) -> Claim {
    match random.below(2) {
        0 => claim.record[NODE * node] = *random.pick(&[0, 21, Number::MAX]),
        _ => claim.record[NODE * node + 1] = *random.pick(&[65, Number::MAX]),
    }
    claim
}

/// The claim with a record that ends before a node, or inside it.
fn cut_at(random: &mut Random, mut claim: Claim, node: usize) -> Claim {
    claim.record.truncate(NODE * node + random.below(2));
    claim
}

/// The record up to the first number of some node, which is a wrong one.
fn cut_and_changed(random: &mut Random, grown: &Grown) -> Claim {
    let mut claim = grown.claim();
    let node = random.below(grown.nodes.len());
    claim.record[NODE * node] = *random.pick(&[0, 21, Number::MAX]);
    claim.record.truncate(NODE * node + 1);
    claim
}

/// A few numbers changed, and now and then the depth limit, or the length.
fn several(random: &mut Random, grown: &Grown) -> Claim {
    let mut claim = grown.claim();
    for _ in 0..random.between(1, 4) {
        let index = random.below(claim.record.len());
        let value = *random.pick(&[Value::Zero, Value::Neighbour, Value::Any]);
        claim.record[index] = new_value(random, claim.record[index], value);
    }
    if random.one_in(4) {
        claim.query.depth = random.between(1, DEEPEST);
    }
    if random.one_in(4) {
        let length = random.below(claim.record.len() + 4);
        claim.record.resize(length, 0);
    }
    claim
}

/// A record of small numbers, or of any.
fn noise(random: &mut Random, grown: &Grown) -> Claim {
    let mut claim = grown.claim();
    let greatest = *random.pick(&[2, 20, HIGHEST, Number::MAX]);
    let length = random.below(24);
    let number = |random: &mut Random| match random.below(3) {
        0 => 0,
        _ => random.between(0, greatest),
    };
    claim.record = (0..length).map(|_| number(random)).collect();
    claim
}

/// A record in which nearly every node has a credential that fits the goal,
/// drawn without any view to where it leads.
fn likely_noise(random: &mut Random, grown: &Grown) -> Claim {
    let mut claim = grown.claim();
    let table = &grown.policy.table;
    let asked = claim.query.read().expect("a valid query");
    claim.record.clear();
    let mut open = vec![asked.goal];
    while let Some(goal) = open.pop() {
        let (credential, middle) = likely_node(random, table, goal);
        claim.record.extend([credential, middle]);
        let premises = table.premises(goal, credential, middle);
        open.extend(premises.into_iter().flatten().rev());
        if claim.record.len() > 400 {
            break;
        }
    }
    claim
}

/// A credential that defines the goal's role, with a middle for its kind.
fn likely_node(random: &mut Random, table: &Table, goal: Goal) -> (Number, Number) {
    let numbered = (1..).zip(&table.credentials);
    let fitting = numbered.filter(|(_, credential)| {
        let other = matches!(credential.members, Members::One(member) if member != goal.principal);
        credential.role == goal.role && !other
    });
    let fitting: Vec<Number> = fitting.map(|(number, _)| number).collect();
    if fitting.is_empty() || random.one_in(32) {
        return (random.between(0, 20), 0);
    }
    let number = *random.pick(&fitting);
    let middle = match table.credentials[number as usize - 1].members {
        Members::Linked(..) => random.pick(&table.credentials).role.owner.number(),
        _ => 0,
    };
    (number, middle)
}

/// The record with a damaged table. Some damages leave a table accepted.
fn with_table(random: &mut Random, grown: &Grown) -> Claim {
    Claim {
        table: damage::any(random, &grown.records),
        ..grown.claim()
    }
}

/// The record with a query of which one field is out of range, or several.
fn with_query(random: &mut Random, grown: &Grown) -> Claim {
    let mut claim = grown.claim();
    claim.query = queries::spoiled(random, claim.query);
    claim
}

/// A damaged table with a damaged query, and a record of noise.
fn everything(random: &mut Random, grown: &Grown) -> Claim {
    Claim {
        table: with_table(random, grown).table,
        query: with_query(random, grown).query,
        record: noise(random, grown).record,
    }
}
