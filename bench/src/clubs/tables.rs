//! Clubs whose friends are the friends of their friends: one credential of kind 3
//! asks for the role that it defines. Who is asked about wants to pass a door that
//! is open to the club's friends.

use bwlchareg::layout::EVERY_WORD;
use reference::generate::shapes::from_records;
use reference::generate::wallets::Wallet;
use reference::query::{Query, DEEPEST};
use reference::random::Random;
use reference::records::{CredentialRecord, EdgeRecord, Head};
use reference::table::EVERY_STATE;
use reference::Number;

use crate::families::Named;
use crate::SEED;

/// Whose role is asked about.
const DOOR: Number = 1;
/// Who issues the one credential.
const CLUB: Number = 2;
/// A second club.
const OTHER: Number = 3;
/// The first of the people, the others come after.
const FIRST: Number = 10;
/// The role names: the door's, and that of everybody's friends.
const OPEN: Number = 1;
const FRIEND: Number = 2;
/// A third name, and a fourth.
const THIRD: Number = 3;
const FOURTH: Number = 4;

/// How many people there are.
const SIZES: &[Number] = &[6, 10, 14, 17];
/// How many there are where there must be room for rules of their own: which size is
/// hard is not easily foreseen.
const OWN_SIZES: &[Number] = &[6, 7, 8, 9, 10];
/// Somebody who is further down the line than this is not reached: the line's
/// first stands one level deeper than the line is long.
const REACHED: Number = DEEPEST - 1;

/// A constraint on the door's credential, which every derivation uses.
#[derive(Clone, Copy, Debug, PartialEq, Eq)]
pub enum Constraint {
    /// There is none.
    None,
    /// No word has more than five roles.
    AtMostFive,
    /// The role of the one in the middle, X, is in no word.
    NeverX,
    /// Every word has an even number of roles.
    Even,
}

impl Constraint {
    /// All there are.
    pub const ALL: [Constraint; 4] = [
        Constraint::None,
        Constraint::AtMostFive,
        Constraint::NeverX,
        Constraint::Even,
    ];

    /// What it says.
    pub fn words(self) -> &'static str {
        match self {
            Constraint::None => "no constraint",
            Constraint::AtMostFive => "at most 5 roles",
            Constraint::NeverX => "never through X",
            Constraint::Even => "even length",
        }
    }

    /// Its accepting set and its edges, in a club of so many. It starts in state 0.
    fn automaton(self, people: Number) -> Option<(Number, Vec<EdgeRecord>)> {
        let any = |from, to| [1, from, 2, 0, 0, to];
        let all_but = |owner| [1, 0, 3, owner, FRIEND, 0];
        match self {
            Constraint::None => None,
            Constraint::AtMostFive => Some((
                EVERY_STATE,
                (0..5).map(|state| any(state, state + 1)).collect(),
            )),
            Constraint::NeverX => Some((1, vec![all_but(person(people.div_ceil(2)))])),
            Constraint::Even => Some((1, vec![any(0, 1), any(1, 0)])),
        }
    }
}

/// A club of some shape.
#[derive(Clone)]
pub struct Club {
    /// What shape it has.
    pub shape: &'static str,
    /// How many people are in it.
    pub people: Number,
    /// The table without a constraint, and the query.
    wallet: Wallet,
}

impl Club {
    /// The table with a constraint.
    pub fn with(&self, constraint: Constraint) -> Wallet {
        let mut wallet = self.wallet.clone();
        if let Some((accepting, edges)) = constraint.automaton(self.people) {
            wallet.records.credentials[0][5] = 1;
            wallet.records.automata = vec![[1, accepting, EVERY_WORD]];
            wallet.records.edges = edges;
        }
        wallet
    }
}

/// The credentials of a club of so many, the door's first.
type Credentials = Vec<CredentialRecord>;

/// How clubs of one shape are made, and in which sizes.
struct Shape {
    name: &'static str,
    sizes: &'static [Number],
    made: fn(Number) -> Credentials,
    /// The number of the one who is asked about.
    asked: fn(Number) -> Number,
}

/// All clubs.
pub fn clubs() -> Vec<Club> {
    let shape = |name, sizes, made| Shape {
        name,
        sizes,
        made,
        asked: last,
    };
    let shapes = [
        shape("chain", SIZES, chain),
        shape("ring", SIZES, ring),
        Shape {
            asked: |people| people / 2,
            ..shape("ring, asked half way", SIZES, ring)
        },
        shape("dense", SIZES, dense),
        shape("chain, rules of their own", OWN_SIZES, |people| {
            own(chain(people), people)
        }),
        shape("ring, rules of their own", OWN_SIZES, |people| {
            own(ring(people), people)
        }),
        shape("dense, rules of their own", OWN_SIZES, dense_with_rules),
        shape("chain, the club's friends are theirs", &[6, 10], shared),
        shape("three roles in a ring", &[6, 10, 14], three_roles),
        shape("two clubs", &[6, 10], two_clubs),
        shape("ring of links", &[6], links),
        shape("clique of kind 2", SIZES, clique),
    ];
    shapes.iter().flat_map(Shape::clubs).collect()
}

/// The clubs of ten people, without constraints.
pub fn of_ten() -> Vec<Named> {
    let ten = clubs().into_iter().filter(|club| club.people == 10);
    let named = ten.map(|club| (format!("club: {}", club.shape), club.wallet));
    named.collect()
}

impl Shape {
    /// The clubs of this shape.
    fn clubs(&self) -> impl Iterator<Item = Club> + '_ {
        self.sizes.iter().map(|&people| {
            let mut wallet = from_records((self.made)(people), Vec::new());
            wallet.query = Query {
                principal: person((self.asked)(people)),
                owner: DOOR,
                name: OPEN,
                depth: DEEPEST,
            };
            Club {
                shape: self.name,
                people,
                wallet,
            }
        })
    }
}

/// One of the people, by a number from 1 on.
fn person(number: Number) -> Number {
    FIRST + number - 1
}

/// The number of the last one whom the depth limit lets in.
fn last(people: Number) -> Number {
    people.min(REACHED)
}

/// The number of the next in a ring.
fn next(number: Number, people: Number) -> Number {
    number % people + 1
}

/// Somebody's friends are those of another.
fn contained(one: Number, another: Number) -> CredentialRecord {
    [one, FRIEND, 2, another, FRIEND, 0]
}

/// Somebody names a friend.
fn names(one: Number, friend: Number) -> CredentialRecord {
    [one, FRIEND, 1, friend, 0, 0]
}

/// Somebody's friends are the friends of their friends.
fn recursive(one: Number) -> CredentialRecord {
    [one, FRIEND, 3, FRIEND, FRIEND, 0]
}

/// The door is open to somebody's friends.
fn door(one: Number) -> CredentialRecord {
    [DOOR, OPEN, 2, one, FRIEND, 0]
}

/// As many of some credentials as there is room for, after those that are there.
fn filled(mut all: Credentials, more: impl IntoIterator<Item = CredentialRecord>) -> Credentials {
    let room = Head::LIMITS.credentials as usize - all.len();
    all.extend(more.into_iter().take(room));
    all
}

/// The club names the first, and each but the last the next.
fn chain(people: Number) -> Credentials {
    let mut all = vec![door(CLUB), recursive(CLUB), names(CLUB, person(1))];
    all.extend((1..people).map(|number| names(person(number), person(number + 1))));
    all
}

/// A chain whose last names the first.
fn ring(people: Number) -> Credentials {
    filled(chain(people), [names(person(people), person(1))])
}

/// A chain, and friends at random while there is room.
fn dense(people: Number) -> Credentials {
    at_random(chain(people), people, names)
}

/// Credentials about two people each, at random and each once, while there is room
/// after those that are there.
fn at_random(
    all: Credentials,
    people: Number,
    made: fn(Number, Number) -> CredentialRecord,
) -> Credentials {
    let numbers = || (1..=people).map(person);
    let pairs = numbers().flat_map(|one| numbers().map(move |other| (one, other)));
    let pairs = pairs.filter(|(one, other)| one != other);
    let others = pairs.map(|(one, other)| made(one, other));
    let mut others: Credentials = others.filter(|other| !all.contains(other)).collect();
    Random::new(SEED).shuffle(&mut others);
    filled(all, others)
}

/// The people too have the friends of their friends as friends.
fn own(all: Credentials, people: Number) -> Credentials {
    filled(all, (1..=people).map(|number| recursive(person(number))))
}

/// The same in a dense club, where half of the friends that were drawn make room.
fn dense_with_rules(people: Number) -> Credentials {
    let mut all = dense(people);
    let drawn = all.len() - chain(people).len();
    all.truncate(all.len() - drawn / 2);
    own(all, people)
}

/// A chain in which everybody has the club's friends as friends.
fn shared(people: Number) -> Credentials {
    let theirs = (1..=people).map(|number| contained(person(number), CLUB));
    filled(chain(people), theirs)
}

/// The club has three roles. In each are the friends of those in the next, and the
/// first of a ring of people is in the one that the ring's last needs.
fn three_roles(people: Number) -> Credentials {
    let roles = [FRIEND, THIRD, FOURTH];
    let linked = |role: usize| [CLUB, roles[role], 3, roles[(role + 1) % 3], FRIEND, 0];
    let needed = roles[(last(people) - 1) as usize % 3];
    let mut all = vec![door(CLUB), [CLUB, needed, 1, person(1), 0, 0]];
    all.extend([0, 1, 2].map(linked));
    all.extend((1..=people).map(|number| names(person(number), person(next(number, people)))));
    all
}

/// Two clubs, each with a ring of half of the people, have each other's friends as
/// friends, and from the first ring one leads to the second.
fn two_clubs(people: Number) -> Credentials {
    let half = people / 2;
    let mut all = vec![door(CLUB)];
    for (club, other, before) in [(CLUB, OTHER, 0), (OTHER, CLUB, half)] {
        let member = |number: Number| person(before + number);
        all.extend([
            recursive(club),
            contained(club, other),
            names(club, member(1)),
        ]);
        all.extend((1..=half).map(|number| names(member(number), member(next(number, half)))));
    }
    all.push(names(person(half), person(half + 1)));
    all
}

/// There is no club. The people stand in a ring, each leads on to the next and to
/// the one after, and has their friends as friends.
fn links(people: Number) -> Credentials {
    let leads = |number: Number, to: Number| [person(number), THIRD, 1, person(to), 0, 0];
    let mut all = vec![door(person(1)), names(person(people), person(people))];
    for number in 1..=people {
        let to = next(number, people);
        all.push([person(number), FRIEND, 3, THIRD, FRIEND, 0]);
        all.extend([leads(number, to), leads(number, next(to, people))]);
    }
    all
}

/// There is no club. The people stand in a ring and have the friends of the next as
/// friends, and those of others at random while there is room.
fn clique(people: Number) -> Credentials {
    let friend = person(last(people));
    let mut all = vec![door(person(1)), names(friend, friend)];
    let around = 1..=people;
    all.extend(around.map(|number| contained(person(number), person(next(number, people)))));
    at_random(all, people, contained)
}

#[cfg(test)]
mod tests {
    use super::{clubs, Constraint};
    use crate::listing::library_query;
    use std::collections::BTreeSet;

    #[test]
    fn the_tables_are_valid_and_can_be_told_apart() {
        let mut told = BTreeSet::new();
        for club in clubs() {
            for constraint in Constraint::ALL {
                let wallet = club.with(constraint);
                let valid =
                    bwlchareg::check_query(&wallet.records.numbers(), library_query(wallet.query));
                assert_eq!(valid, Ok(()), "{}", club.shape);
                assert!(told.insert(wallet.records.numbers()) || club.shape.contains("asked"));
            }
            assert!(club.shape.len() <= 38);
        }
        let names: BTreeSet<_> = clubs()
            .iter()
            .map(|club| (club.shape, club.people))
            .collect();
        assert_eq!(names.len(), clubs().len());
    }

    #[test]
    fn every_size_has_several_shapes() {
        for people in [6, 10, 14, 17] {
            assert!(clubs().iter().filter(|club| club.people == people).count() >= 5);
        }
    }
}
