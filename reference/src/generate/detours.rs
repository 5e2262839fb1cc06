//! Wallets in which what comes first is often not what will do.
//!
//! The goal rests on several roles, and each of them on one and the same role,
//! the fork. From there the ways part: by several credentials, by several
//! middles, or both. A constraint says of each of the several roles by which of
//! the ways a branch through it may go. So a minimal set has ways that are
//! right on one branch and wrong on another.

use crate::generate::constraints::{self, one, owned, Constraint, Role, EVERY};
use crate::generate::families::rename;
use crate::generate::marks;
use crate::generate::shapes::{MEMBER, OWNER};
use crate::generate::wallets::Wallet;
use crate::query::{Query, DEEPEST};
use crate::random::Random;
use crate::records::{CellRecord, CredentialRecord, Head, Records};
use crate::Number;

/// The names of the owner's roles: the goal, the roles that it rests on, the
/// fork, the role of the middles; and what a middle calls its own role.
const GOAL: Number = 1;
const PARTS: Number = 2;
const FORK: Number = 6;
const LINKING: Number = 7;
const LINKED: Number = 8;
/// The name of the first role to which a credential of the fork leads.
const ENDS: Number = 9;
/// The first middle's number. No other principal but the owner and the member
/// is there.
const MIDDLES: Number = 2;

/// How many levels a derivation has: the goal, a part, the fork, an end.
const LEVELS: Number = 4;

/// A wallet of this kind. Seldom the constraint demands no more than some word.
pub fn made_up(random: &mut Random) -> Wallet {
    let parts = random.between(2, 4);
    let ends = ends(random);
    let mut records = Records {
        credentials: credentials(parts, &ends),
        cells: cells(random, parts),
        automata: Vec::new(),
        edges: Vec::new(),
    };
    constrain(random, &mut records, parts, &ends);
    marks::draw_one_in(4, random, &mut records);
    while random.one_in(2) && records.head().credentials < Head::LIMITS.credentials {
        let again = *random.pick(&records.credentials);
        records.credentials.push(again);
    }
    random.shuffle(&mut records.credentials);
    let query = Query {
        principal: MEMBER,
        owner: OWNER,
        name: GOAL,
        depth: *random.pick(&[LEVELS - 1, LEVELS, LEVELS, LEVELS, DEEPEST]),
    };
    let mut wallet = Wallet { records, query };
    rename(random, &mut wallet);
    wallet
}

/// The role in which each way from the fork ends: a role of a middle, or a role
/// of the owner. There are two to five ways, of one sort or of both.
fn ends(random: &mut Random) -> Vec<Role> {
    let by_middle = *random.pick(&[0, 2, 4]);
    let ways = 0..random.between(2, 5);
    ways.map(|way| match random.below(4) < by_middle {
        true => (MIDDLES + way, LINKED),
        false => (OWNER, ENDS + way),
    })
    .collect()
}

/// Whether a way that ends in a role goes by a middle.
fn is_by_middle(end: &Role) -> bool {
    end.1 == LINKED
}

/// The names of the parts.
fn names(parts: Number) -> impl Iterator<Item = Number> {
    PARTS..PARTS + parts
}

/// The goal's credential, those of the parts, those of the ways, and the
/// member in every end.
fn credentials(parts: Number, ends: &[Role]) -> Vec<CredentialRecord> {
    let mut credentials = vec![[OWNER, GOAL, 4, 1, 0, 0]];
    credentials.extend(names(parts).map(|part| [OWNER, part, 2, OWNER, FORK, 0]));
    if ends.iter().any(is_by_middle) {
        credentials.push([OWNER, FORK, 3, LINKING, LINKED, 0]);
    }
    for end in ends {
        credentials.push(match is_by_middle(end) {
            true => [OWNER, LINKING, 1, end.0, 0, 0],
            false => [OWNER, FORK, 2, end.0, end.1, 0],
        });
        credentials.push([end.0, end.1, 1, MEMBER, 0, 0]);
    }
    credentials
}

/// The goal's chain: every part, and if there is room, now and then one of them
/// once more.
fn cells(random: &mut Random, parts: Number) -> Vec<CellRecord> {
    let mut names: Vec<Number> = names(parts).collect();
    if parts < 4 && random.one_in(2) {
        names.push(*random.pick(&names));
    }
    random.shuffle(&mut names);
    let nexts = (2..=names.len() as Number).chain([0]);
    let cells = names.into_iter().zip(nexts);
    cells.map(|(name, next)| [OWNER, name, next]).collect()
}

/// Attaches the constraint to one of the credentials that every derivation
/// uses. A middle's branch ends in the linking role, which is right everywhere.
/// Half of the time the constraint goes by owners: a middle owns one role alone,
/// and all others are the owner's, so it says the same.
fn constrain(random: &mut Random, records: &mut Records, parts: Number, ends: &[Role]) {
    let by_owner = random.one_in(2);
    let matched = |end: &Role| match by_owner && is_by_middle(end) {
        true => owned(end.0),
        false => one(*end),
    };
    let mut ways = Vec::new();
    for part in names(parts) {
        let mut right = vec![one((OWNER, LINKING)), matched(random.pick(ends))];
        let others = ends.iter().filter(|_| random.one_in(3));
        right.extend(others.map(matched));
        ways.push(((OWNER, part), right));
    }
    let between = if by_owner { owned(OWNER) } else { EVERY };
    let constraint = Constraint::last_by_second(between, &ways);
    let number = constraints::add(random, records, &constraint);
    let used = random.below(1 + parts as usize);
    records.credentials[used][5] = number.expect("there is room for an automaton");
}
