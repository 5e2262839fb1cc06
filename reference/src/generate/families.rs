//! Wallets of a given shape, in sizes that vary, with their credentials in any
//! order, any numbers for principals and names, and any depth limit.
//!
//! The shapes themselves are in [`shapes`]. Some families have constraints: some
//! that accept nothing, which shut ways off, and any on some of the ways to the
//! goal.

use std::fmt;

use crate::generate::constraints::{self, Constraint};
use crate::generate::marks;
use crate::generate::shapes::{self, Place, Way};
use crate::generate::wallets::Wallet;
use crate::query::DEEPEST;
use crate::random::Random;
use crate::records::{Head, Records};
use crate::sorts::HIGHEST;
use crate::Number;

/// A family of wallets.
#[derive(Clone, Copy, Debug, PartialEq, Eq, PartialOrd, Ord)]
pub enum Family {
    /// A ladder of kind 3 with two sides.
    Ladder,
    /// A ladder of kind 3, rung above rung, with people to be tried as middles.
    Rungs,
    /// A ladder of kind 2.
    Containments,
    /// A chain of roles with equally many definers each.
    EqualChoices,
    /// A chain of roles with any numbers of definers.
    Choices,
    /// Chains of chains.
    Layers,
    /// Ways to the goal that have no credential in common.
    Ways,
    /// One of the above, with constraints that accept nothing.
    Barred,
    /// Ways to the goal, some of them with constraints.
    Constrained,
}

impl Family {
    /// Every family that there is.
    pub const ALL: [Family; 9] = [
        Family::Ladder,
        Family::Rungs,
        Family::Containments,
        Family::EqualChoices,
        Family::Choices,
        Family::Layers,
        Family::Ways,
        Family::Barred,
        Family::Constrained,
    ];

    /// How many of them have no constraints: those that come first.
    const FREE: usize = 7;
}

/// A wallet of a family with at most so many credentials, 8 to 20.
pub fn made_up(random: &mut Random, family: Family, most: Number) -> Wallet {
    let mut wallet = match family {
        Family::Barred => barred(random, most),
        Family::Constrained => constrained(random, most),
        _ => free(random, family, most),
    };
    rename(random, &mut wallet);
    random.shuffle(&mut wallet.records.credentials);
    wallet.query.depth = match random.below(8) {
        0 => random.between(1, DEEPEST),
        1 | 2 => random.between(2, 6),
        _ => DEEPEST,
    };
    wallet
}

/// A wallet of a family that has no constraints.
fn free(random: &mut Random, family: Family, most: Number) -> Wallet {
    match family {
        Family::Ladder => shapes::ladder(random.between(2, most / 4)),
        Family::Rungs => {
            let rungs = random.between(1, most / 2 - 1);
            shapes::rungs(rungs, random.between(2, (most - rungs).min(5)))
        }
        Family::Containments => shapes::containments(random.between(3, (most - 1) / 2)),
        Family::EqualChoices => {
            let parts = random.between(2, 4);
            let each = random.between(1, ((most - 1) / parts).min(5));
            shapes::choices(&vec![each; parts as usize], *random.pick(&Place::ALL))
        }
        Family::Choices => shapes::choices(&definers(random, most), *random.pick(&Place::ALL)),
        Family::Layers => {
            let mut wallet = shapes::layers(random.between(1, (most - 1) / 4));
            // What is left out are credentials that are there twice.
            wallet.records.credentials.truncate(most as usize);
            wallet
        }
        _ => shapes::ways(&ways(random, most), *random.pick(&Way::ALL)),
    }
}

/// How many definers each of some roles has, 1 to 5, so many in all at most
/// with the chain's credential.
fn definers(random: &mut Random, most: Number) -> Vec<Number> {
    let mut definers = vec![1; random.between(2, 4) as usize];
    let room = most - 1 - definers.len() as Number;
    for _ in 0..random.between(0, room) {
        let definers = random.pick_mut(&mut definers);
        *definers = (*definers + 1).min(5);
    }
    definers
}

/// How many credentials each of some ways has: equally many, or any numbers.
fn ways(random: &mut Random, most: Number) -> Vec<Number> {
    let each = random.between(1, 5);
    let equal = random.one_in(2);
    let room = match random.one_in(2) {
        true => most,
        false => random.between(each, most),
    };
    let mut ways = vec![each];
    loop {
        let next = if equal { each } else { random.between(1, 5) };
        if ways.iter().sum::<Number>() + next > room {
            return ways;
        }
        ways.push(next);
    }
}

/// A wallet of another family in which constraints that accept nothing are
/// attached to some credentials.
fn barred(random: &mut Random, most: Number) -> Wallet {
    let family = Family::ALL[random.below(Family::FREE)];
    let mut wallet = free(random, family, most);
    for _ in 0..random.between(1, 3) {
        let nothing = Constraint::nothing(random);
        let number = constraints::add(random, &mut wallet.records, &nothing);
        let credential = random.pick_mut(&mut wallet.records.credentials);
        credential[5] = number.expect("there is room for three automata");
    }
    marks::draw(random, &mut wallet.records);
    wallet
}

/// Ways to the goal, of which some have a constraint on one of their
/// credentials.
fn constrained(random: &mut Random, most: Number) -> Wallet {
    let ways = ways(random, most);
    let mut wallet = shapes::ways(&ways, *random.pick(&Way::ALL));
    let roles = constraints::defined(&wallet.records);
    let mut first = 0;
    for &each in ways.iter().take(Head::LIMITS.automata as usize) {
        // The first way has one in any case.
        if first == 0 || random.one_in(2) {
            let constraint = Constraint::any(random, &roles);
            let number = constraints::add(random, &mut wallet.records, &constraint);
            let credential = first + random.below(each as usize);
            wallet.records.credentials[credential][5] = number.unwrap_or(0);
        }
        first += each as usize;
    }
    marks::draw(random, &mut wallet.records);
    wallet
}

/// Gives the principals of a wallet other numbers, and its names too.
pub fn rename(random: &mut Random, wallet: &mut Wallet) {
    let [principals, names] = [0; 2].map(|_| {
        let mut numbers: Vec<Number> = (1..=HIGHEST).collect();
        random.shuffle(&mut numbers);
        numbers
    });
    let principal = |number: &mut Number| *number = principals[*number as usize - 1];
    let name = |number: &mut Number| *number = names[*number as usize - 1];
    rename_records(&mut wallet.records, &principal, &name);
    principal(&mut wallet.query.principal);
    principal(&mut wallet.query.owner);
    name(&mut wallet.query.name);
}

/// Gives other numbers to all principals and names of a table.
fn rename_records(
    records: &mut Records,
    principal: &impl Fn(&mut Number),
    name: &impl Fn(&mut Number),
) {
    for [owner, role, kind, first, second, _] in &mut records.credentials {
        principal(owner);
        name(role);
        match kind {
            1 => principal(first),
            2 => {
                principal(first);
                name(second);
            }
            3 => [first, second].into_iter().for_each(name),
            _ => {}
        }
    }
    for [owner, role, _] in &mut records.cells {
        principal(owner);
        name(role);
    }
    for [_, _, label, owner, role, _] in &mut records.edges {
        match label {
            2 => {}
            4 => principal(owner),
            _ => {
                principal(owner);
                name(role);
            }
        }
    }
}

impl fmt::Display for Family {
    fn fmt(&self, out: &mut fmt::Formatter<'_>) -> fmt::Result {
        out.pad(match self {
            Family::Ladder => "ladder of kind 3",
            Family::Rungs => "ladder of kind 3 with people",
            Family::Containments => "ladder of kind 2",
            Family::EqualChoices => "choices, equal definers",
            Family::Choices => "choices, any definers",
            Family::Layers => "layers",
            Family::Ways => "ways of so many credentials each",
            Family::Barred => "constraints that accept nothing",
            Family::Constrained => "constraints on some of the ways",
        })
    }
}
