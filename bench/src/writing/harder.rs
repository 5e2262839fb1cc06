//! Tables in which what comes first does not do: a role has several definers, or
//! a link several middles, of which those with the least numbers fail at some
//! places of the derivation and are needed at others.

use bwlchareg::layout::EVERY_WORD;
use reference::generate::shapes::{self, from_records as wallet, GOAL, MEMBER, OWNER};
use reference::generate::wallets::Wallet;
use reference::query::Query;
use reference::records::CredentialRecord;
use reference::Number;

use super::parts::{add_tree, chain, Tree};
use crate::families::{growing, Named};

/// Of the tables on which the list is timed, those of which a record is written
/// too.
const LISTED: [&str; 6] = [
    "ladder of 5 of kind 3, people 5",
    "ladder of 10 of kind 3, people 5",
    "ladder of 15 of kind 3, people 5",
    "ladder of 10 of kind 3",
    "6 ways of 3, 1 of 2",
    "6 ways of 3, 1 of 2, constraints on 7",
];

/// Two roles that the goal's chain asks for, and one that both of them need.
const LEFT: Number = 2;
const RIGHT: Number = 3;
const SHARED: Number = 4;
/// Who is in the shared role, and has the member in a role of its own.
const MIDDLE: Number = 2;

/// All tables.
pub fn tables() -> Vec<Named> {
    let mut tables = growing();
    tables.retain(|(what, _)| LISTED.contains(&what.as_str()));
    tables.extend(own());
    tables
}

/// The tables that are made here. Each has one minimal set, of all its
/// credentials.
pub fn own() -> Vec<Named> {
    let ladder = |rungs| format!("ladder of {rungs} of kind 3, middles 4");
    let words = |choices| format!("two definers by words, choices {choices}");
    let branch = |levels| format!("two definers by branch, levels {levels}");
    let depth = |levels| format!("two definers by depth, levels {levels}");
    vec![
        (ladder(3), middles(3)),
        (ladder(6), middles(6)),
        (ladder(9), middles(9)),
        (words(1), by_words(1)),
        (words(3), by_words(3)),
        (words(5), by_words(5)),
        (branch(1), by_branch(1)),
        (branch(5), by_branch(5)),
        (depth(2), by_depth(2)),
        (depth(6), by_depth(6)),
    ]
}

/// A ladder of 1 to 9 rungs with four people who are tried as middles on every
/// rung, of whom only the last leads on; and the other three are needed. The
/// goal is a chain of three roles, each linked by the top rung's role, and for
/// each another one of the three is the middle that leads on.
fn middles(rungs: Number) -> Wallet {
    const LAST: Number = 4;
    const ASKED: Number = 20;
    let mut wallet = shapes::rungs(rungs, LAST);
    let (top, records) = (wallet.query.name, &mut wallet.records);
    for person in 1..LAST {
        let name = ASKED + person;
        records.credentials.push([LAST, name, 3, top, name, 0]);
        records.credentials.push([person, name, 1, MEMBER, 0, 0]);
        let next = if person + 1 == LAST { 0 } else { person + 1 };
        records.cells.push([LAST, name, next]);
    }
    records.credentials.push([LAST, ASKED, 4, 1, 0, 0]);
    wallet.query = Query {
        principal: MEMBER,
        name: ASKED,
        ..wallet.query
    };
    wallet
}

/// Two definers of a role are needed because of a constraint. The goal is a chain
/// of two roles, and the same ways lead on from both: at each of 1 to 5 roles in
/// a line either straight to the next, which comes first, or round by another.
/// An automaton counts the roles, and lets pass nothing but the straight way
/// below the one and the longest below the other.
fn by_words(choices: Number) -> Wallet {
    let (straight, round) = (|choice: Number| 10 + choice, |choice: Number| 30 + choice);
    let contains = |name: Number, next: Number| [OWNER, name, 2, OWNER, next, 0];
    let mut credentials = vec![
        [OWNER, GOAL, 4, 1, 0, 1],
        contains(LEFT, straight(1)),
        contains(RIGHT, straight(1)),
    ];
    for choice in 1..=choices {
        let next = straight(choice + 1);
        credentials.push(contains(straight(choice), next));
        credentials.push(contains(straight(choice), round(choice)));
        credentials.push(contains(round(choice), next));
    }
    credentials.push([OWNER, straight(choices + 1), 1, MEMBER, 0, 0]);
    let mut wallet = wallet(credentials, chain(1, &[LEFT, RIGHT]));
    // Below the right role, state 2, there are choices more roles than below
    // the left one.
    let accepting = 2 * choices + 3;
    wallet
        .records
        .automata
        .push([1, 1 << accepting, EVERY_WORD]);
    wallet.records.edges.extend([
        [1, 0, 1, OWNER, GOAL, 1],
        [1, 1, 1, OWNER, LEFT, 2 + choices],
        [1, 1, 1, OWNER, RIGHT, 2],
    ]);
    let counted = (2..accepting).map(|state| [1, state, 2, 0, 0, state + 1]);
    wallet.records.edges.extend(counted);
    wallet
}

/// Two definers of a role are needed because no pair of principal and role comes
/// twice on a branch. The shared role is needed below the left role for the middle,
/// and below the right one for the member. Each of its definers is a chain of a
/// tree of 1 to 5 levels, and then of one of the two roles: so it fails below that
/// role, when the tree is done.
fn by_branch(levels: Number) -> Wallet {
    const TREE: Number = 10;
    const LINKED: Number = 40;
    let mut credentials = vec![
        [OWNER, GOAL, 4, 1, 0, 0],
        [OWNER, SHARED, 4, 3, 0, 0],
        [OWNER, SHARED, 4, 5, 0, 0],
        [OWNER, LEFT, 2, OWNER, SHARED, 0],
        [OWNER, RIGHT, 2, OWNER, SHARED, 0],
        [OWNER, LEFT, 1, MEMBER, 0, 0],
        [OWNER, RIGHT, 1, MIDDLE, 0, 0],
    ];
    credentials.extend(linked(LINKED, LEFT));
    let mut cells = chain(1, &[LINKED, RIGHT]);
    cells.extend(chain(3, &[TREE, LEFT]));
    cells.extend(chain(5, &[TREE, RIGHT]));
    let mut wallet = wallet(credentials, cells);
    let tree = Tree {
        levels,
        roles: 2,
        times: 1,
    };
    add_tree(&mut wallet.records, TREE, tree, &[MIDDLE, MEMBER]);
    wallet
}

/// Two definers of a role are needed because of the depth limit. The shared role
/// is needed right below the goal for the member, and 2 to 6 levels further down
/// for the middle. Its first definer leads down as many levels to both of them,
/// which are too many where the role is deep already; its second has the middle.
fn by_depth(levels: Number) -> Wallet {
    const DOWN: Number = 10;
    const DEEP: Number = 30;
    let contains = |name: Number, next: Number| [OWNER, name, 2, OWNER, next, 0];
    let mut credentials = vec![
        [OWNER, GOAL, 4, 1, 0, 0],
        contains(SHARED, DEEP),
        [OWNER, SHARED, 1, MIDDLE, 0, 0],
        contains(RIGHT, DOWN),
        [OWNER, LEFT, 3, DEEP, LEFT, 0],
    ];
    credentials.extend((2..levels).map(|level| contains(DOWN + level - 2, DOWN + level - 1)));
    credentials.extend(linked(DOWN + levels - 2, SHARED));
    credentials.extend((1..levels).map(|level| contains(DEEP + level - 1, DEEP + level)));
    let last = DEEP + levels - 1;
    credentials.extend([MIDDLE, MEMBER].map(|principal| [OWNER, last, 1, principal, 0, 0]));
    let mut wallet = wallet(credentials, chain(1, &[SHARED, RIGHT, LEFT]));
    wallet.query.depth = levels + 3;
    wallet
}

/// A role whose members another one links: the member, who is in the middle's left
/// role.
fn linked(role: Number, by: Number) -> [CredentialRecord; 2] {
    [
        [OWNER, role, 3, by, LEFT, 0],
        [MIDDLE, LEFT, 1, MEMBER, 0, 0],
    ]
}

#[cfg(test)]
mod tests {
    use super::{own, tables, LISTED};
    use crate::listing::Listing;

    #[test]
    fn every_credential_is_needed() {
        for (what, wallet) in own() {
            let all = (1 << wallet.records.credentials.len()) - 1;
            let list = Listing::of(&wallet).library_list();
            assert_eq!(list, Ok(vec![all]), "{what}");
        }
    }

    #[test]
    fn no_table_is_left_out() {
        assert_eq!(tables().len(), LISTED.len() + own().len());
    }
}
