//! Clubs, and other wallets in which a role leads back to itself.
//!
//! "My friends are the friends of my friends" is one credential: that somebody
//! is in Club.friend may rest on the claim that somebody else is. So a role comes
//! again on a branch, each time with another principal. In other wallets the way
//! back goes over several roles, or by a part of a chain.

use std::fmt;

use crate::generate::constraints::{self, Constraint, EVERY};
use crate::generate::families::rename;
use crate::generate::marks;
use crate::generate::shapes::{from_records, GOAL, OWNER};
use crate::generate::wallets::Wallet;
use crate::query::DEEPEST;
use crate::random::Random;
use crate::records::{CellRecord, CredentialRecord, Records};
use crate::Number;

/// What leads back to a role.
#[derive(Clone, Copy, Debug, PartialEq, Eq, PartialOrd, Ord)]
pub enum Circle {
    /// One club with friends of friends.
    Club,
    /// Several people whose friends' friends are their friends.
    Friends,
    /// Roles in a ring or a clique, each of which contains the next.
    Ring,
    /// Roles in a ring, each of which is linked by the next.
    LinkedRing,
    /// A chain of which a part leads back to the role that it defines.
    Parts,
    /// A way round that spares a membership, if a role may come again.
    Spared,
    /// Credentials of every kind over a few roles.
    Mixture,
}

impl Circle {
    /// Every circle that there is.
    pub const ALL: [Circle; 7] = [
        Circle::Club,
        Circle::Friends,
        Circle::Ring,
        Circle::LinkedRing,
        Circle::Parts,
        Circle::Spared,
        Circle::Mixture,
    ];

    /// One of them, most often one in which a role comes again.
    pub fn drawn(random: &mut Random) -> Circle {
        match random.below(13) {
            0..=3 => Circle::Club,
            4 => Circle::Friends,
            5 => Circle::Ring,
            6..=8 => Circle::LinkedRing,
            9 | 10 => Circle::Parts,
            11 => Circle::Spared,
            _ => Circle::Mixture,
        }
    }
}

/// The name of what a person's friends are in. The goal's role has the same one
/// in a club.
const FRIEND: Number = GOAL;

/// A wallet with such a circle, of at most so many credentials, 8 to 20; half of
/// the time with constraints.
pub fn made_up(random: &mut Random, circle: Circle, most: Number) -> Wallet {
    let size = random.between((most / 2).max(6), most);
    let mut wallet = match circle {
        Circle::Club => club(random, size),
        Circle::Friends => friends(random, size),
        Circle::Ring => ring(random, size),
        Circle::LinkedRing => linked_ring(random, size),
        Circle::Parts => parts(random, size),
        Circle::Spared => spared(random, size),
        Circle::Mixture => mixture(random, size),
    };
    if random.one_in(2) {
        constrain(random, &mut wallet.records);
    }
    marks::draw(random, &mut wallet.records);
    rename(random, &mut wallet);
    random.shuffle(&mut wallet.records.credentials);
    wallet.query.depth = match random.below(8) {
        0 => random.between(1, DEEPEST),
        1..=3 => random.between(2, 6),
        4 | 5 => random.between(5, 10),
        _ => DEEPEST,
    };
    wallet
}

/// Somebody's friends' friends are their friends.
fn friends_of_friends(owner: Number) -> CredentialRecord {
    [owner, FRIEND, 3, FRIEND, FRIEND, 0]
}

/// Somebody is in a role.
fn member(owner: Number, name: Number, person: Number) -> CredentialRecord {
    [owner, name, 1, person, 0, 0]
}

/// A wallet with these credentials, and a query for a person.
fn asking(person: Number, credentials: Vec<CredentialRecord>, cells: Vec<CellRecord>) -> Wallet {
    let mut wallet = from_records(credentials, cells);
    wallet.query.principal = person;
    wallet
}

/// Somebody who is likely to be far from where it begins.
fn far(random: &mut Random, first: Number, last: Number) -> Number {
    let [one, other] = [0; 2].map(|_| random.between(first, last));
    one.max(other)
}

/// Friendships up to so many credentials. From the first of these people on each
/// has the next as a friend; further ones are between any two.
fn befriend(
    random: &mut Random,
    people: Number,
    size: Number,
    credentials: &mut Vec<CredentialRecord>,
) {
    credentials.extend((OWNER..people).map(|person| member(person, FRIEND, person + 1)));
    while credentials.len() < size as usize {
        let [one, other] = [0; 2].map(|_| random.between(OWNER, people));
        credentials.push(member(one, FRIEND, other));
    }
}

/// A club and its friends' friends; seldom the credential is there twice.
fn club(random: &mut Random, size: Number) -> Wallet {
    let mut credentials = vec![friends_of_friends(OWNER)];
    if random.one_in(8) {
        credentials.push(friends_of_friends(OWNER));
    }
    let room = size - credentials.len() as Number;
    let most = *random.pick(&[room + 1, 6, 4]);
    let people = random.between(3, most.min(room + 1));
    befriend(random, people, size, &mut credentials);
    asking(far(random, 2, people), credentials, Vec::new())
}

/// A few people, most of whom say that of their friends.
fn friends(random: &mut Random, size: Number) -> Wallet {
    let people = random.between(3, 6.min(size / 2));
    let others = (OWNER + 1..=people).filter(|_| !random.one_in(4));
    let owners: Vec<Number> = [OWNER].into_iter().chain(others).collect();
    let mut credentials: Vec<CredentialRecord> =
        owners.into_iter().map(friends_of_friends).collect();
    befriend(random, people, size, &mut credentials);
    asking(far(random, 2, people), credentials, Vec::new())
}

/// Roles in a ring of kind 2, often with ways across, and half of the time a
/// role of the ring whose members' friends are in it.
fn ring(random: &mut Random, size: Number) -> Wallet {
    let roles = random.between(2, (size / 3).min(5));
    let people = random.between(2, 4);
    let mut credentials: Vec<CredentialRecord> = Vec::new();
    for role in 1..=roles {
        credentials.push([OWNER, role, 2, OWNER, role % roles + 1, 0]);
    }
    if random.one_in(2) {
        let [back, from] = [0; 2].map(|_| random.between(1, roles));
        credentials.push([OWNER, back, 3, from, FRIEND, 0]);
    }
    while credentials.len() < size as usize {
        let [role, other] = [0; 2].map(|_| random.between(1, roles));
        let [person, friend] = [0; 2].map(|_| 1 + random.between(1, people));
        credentials.push(match random.below(3) {
            0 => [OWNER, role, 2, OWNER, other, 0],
            1 => member(OWNER, role, person),
            _ => member(person, FRIEND, friend),
        });
    }
    asking(far(random, 2, people + 1), credentials, Vec::new())
}

/// Roles in a ring of kind 3: whoever is a friend of somebody in the next one.
fn linked_ring(random: &mut Random, size: Number) -> Wallet {
    const LINKED: Number = 9;
    let roles = random.between(1, (size / 3).min(4));
    let people = random.between(3, 6);
    let mut credentials: Vec<CredentialRecord> = Vec::new();
    for role in 1..=roles {
        credentials.push([OWNER, role, 3, role % roles + 1, LINKED, 0]);
    }
    credentials.push(member(OWNER, random.between(1, roles), 2));
    credentials.extend((2..=people).map(|person| member(person, LINKED, person + 1)));
    while credentials.len() < size as usize {
        let person = 1 + random.between(1, people);
        credentials.push(match random.below(3) {
            0 => member(OWNER, random.between(1, roles), person),
            _ => member(person, LINKED, 1 + random.between(1, people)),
        });
    }
    credentials.truncate(size as usize);
    asking(far(random, 2, people + 1), credentials, Vec::new())
}

/// A chain of two or three parts; the first part, and perhaps the others, are
/// for the friends of those who are in the role that the chain defines.
fn parts(random: &mut Random, size: Number) -> Wallet {
    const LINKED: Number = 9;
    let parts = random.between(2, 3);
    let people = random.between(3, 5);
    let nexts = (2..=parts).chain([0]);
    let cells = (1..)
        .zip(nexts)
        .map(|(part, next)| [OWNER, GOAL + part, next]);
    let mut credentials = vec![[OWNER, GOAL, 4, 1, 0, 0], member(OWNER, GOAL, 2)];
    for part in 1..=parts {
        let leads_back = part == 1 || random.one_in(2);
        credentials.push(match leads_back {
            true => [OWNER, GOAL + part, 3, GOAL, LINKED, 0],
            false => [OWNER, GOAL + part, 2, OWNER, GOAL + 1, 0],
        });
    }
    credentials.extend((2..people).map(|person| member(person, LINKED, person + 1)));
    while credentials.len() < size as usize {
        let [person, friend] = [0; 2].map(|_| random.between(2, people));
        credentials.push(match random.below(3) {
            0 => member(OWNER, GOAL + random.between(0, parts), person),
            _ => member(person, LINKED, friend),
        });
    }
    credentials.truncate(size as usize);
    asking(far(random, 2, people), credentials, cells.collect())
}

/// The goal is a chain of two roles, each of which is for the friends of whoever
/// is in a third, and this one for the friends of whoever is in the first. Under
/// the second part the third role may not end a word, so that its members have to
/// be there by way of the first role; under the first part they may, but if a
/// role may come again they need not. Some friendships are added.
fn spared(random: &mut Random, size: Number) -> Wallet {
    const LINKED: Number = 9;
    let [first, second, third] = [2, 3, 4];
    let [head, middle, last] = [2, 3, 4];
    let mut credentials = vec![
        [OWNER, GOAL, 4, 1, 0, 0],
        [OWNER, first, 3, third, LINKED, 0],
        [OWNER, second, 3, third, LINKED, 0],
        [OWNER, third, 3, first, LINKED, 0],
        member(OWNER, first, head),
        member(OWNER, third, middle),
        member(head, LINKED, middle),
        member(middle, LINKED, last),
    ];
    for _ in 0..random.between(0, size.saturating_sub(8)) {
        let [person, friend] = [0; 2].map(|_| random.between(head, last + 2));
        credentials.push(member(person, LINKED, friend));
    }
    let cells = vec![[OWNER, first, 2], [OWNER, second, 0]];
    let mut wallet = asking(last, credentials, cells);
    let others = [head, middle].map(constraints::owned);
    let lasts = [&others[..], &[constraints::one((OWNER, first))]].concat();
    let ways = [((OWNER, first), vec![EVERY]), ((OWNER, second), lasts)];
    let constraint = Constraint::last_by_second(EVERY, &ways);
    let number = constraints::add(random, &mut wallet.records, &constraint);
    wallet.records.credentials[0][5] = number.unwrap_or(0);
    wallet
}

/// Credentials of every kind over a few people and names, so that all roles lead
/// to each other.
fn mixture(random: &mut Random, size: Number) -> Wallet {
    let (people, names) = (random.between(2, 4), random.between(1, 3));
    let cells: Vec<CellRecord> = (1..=4)
        .map(|cell| {
            let next = if cell % 2 == 0 { 0 } else { cell + 1 };
            [random.between(1, people), random.between(1, names), next]
        })
        .collect();
    let mut credentials = vec![friends_of_friends(OWNER)];
    while credentials.len() < size as usize {
        let [owner, person] = [0; 2].map(|_| random.between(1, people));
        let [name, first, second] = [0; 3].map(|_| random.between(1, names));
        credentials.push(match random.below(8) {
            0 => [owner, name, 2, person, second, 0],
            1 | 2 => [owner, name, 3, first, second, 0],
            3 => [owner, name, 4, *random.pick(&[1, 3]), 0, 0],
            _ => member(owner, name, person),
        });
    }
    asking(random.between(1, people), credentials, cells)
}

/// Attaches one automaton or two to some of the credentials.
fn constrain(random: &mut Random, records: &mut Records) {
    let roles = constraints::defined(records);
    for _ in 0..random.between(1, 2) {
        let constraint = constraint(random, &roles);
        let number = constraints::add(random, records, &constraint);
        for _ in 0..random.between(1, 3) {
            random.pick_mut(&mut records.credentials)[5] = number.unwrap_or(0);
        }
    }
}

/// A constraint that matters where roles come again: how many roles a word has,
/// whom it may not go through, or any.
fn constraint(random: &mut Random, roles: &[constraints::Role]) -> Constraint {
    match random.below(10) {
        0 | 1 => Constraint::at_most(random.between(1, 8)),
        2 => Constraint::nowhere(*random.pick(roles)),
        3 => Constraint::even_or_odd(random),
        4..=6 => never_through(random.pick(roles).0, roles),
        _ => Constraint::any(random, roles),
    }
}

/// That a word has no role of an owner, said by naming all the other owners.
fn never_through(owner: Number, roles: &[constraints::Role]) -> Constraint {
    let mut owners: Vec<Number> = roles.iter().map(|role| role.0).collect();
    owners.sort();
    owners.dedup();
    owners.retain(|&other| other != owner);
    Constraint::owned_by(&owners)
}

/// A club at the head of a line of so many people, each the next one's friend.
/// So many of the first, the club included, say that their friends' friends are
/// their friends; 20 with the people at most. The last one is asked about.
pub fn line(people: Number, sayers: Number) -> Wallet {
    let said = (OWNER..OWNER + sayers).map(friends_of_friends);
    let friendships = (OWNER..OWNER + people).map(|person| member(person, FRIEND, person + 1));
    asking(
        OWNER + people,
        said.chain(friendships).collect(),
        Vec::new(),
    )
}

/// So many people, 2 to 4, each of whom has all the others as friends, and is
/// one of the club's.
pub fn clique(people: Number) -> Wallet {
    let others = |person: Number| {
        (1..=people)
            .map(|other| OWNER + other)
            .filter(move |&o| o != person)
    };
    let mut credentials = vec![friends_of_friends(OWNER)];
    for person in OWNER..=OWNER + people {
        credentials.extend(others(person).map(|other| member(person, FRIEND, other)));
    }
    asking(OWNER + people, credentials, Vec::new())
}

impl fmt::Display for Circle {
    fn fmt(&self, out: &mut fmt::Formatter<'_>) -> fmt::Result {
        out.pad(match self {
            Circle::Club => "club",
            Circle::Friends => "people with friends of friends",
            Circle::Ring => "ring of kind 2",
            Circle::LinkedRing => "ring of kind 3",
            Circle::Parts => "part that leads back",
            Circle::Spared => "membership that need not be",
            Circle::Mixture => "few roles that lead to each other",
        })
    }
}
