//! Wallets with automata of both marks, each of which some words meet and others
//! do not.
//!
//! The goal rests on several parts, one of them perhaps twice; each part goes by
//! several ways; and the ways end in a few roles. So a record has several words,
//! and it is a matter of choice which words these are. Some automata demand that
//! all words are of a sort, others that one is. A choice that is good for one of
//! them is often bad for another, and a word that is demanded can come from any
//! part. Often each of several ends demands a word through another one: whoever
//! uses one of them has to use them all, and no part can do that alone.

use crate::generate::constraints::{self, Constraint, Role};
use crate::generate::families::rename;
use crate::generate::shapes::{from_records, GOAL, MEMBER, OWNER};
use crate::generate::wallets::Wallet;
use crate::query::DEEPEST;
use crate::random::Random;
use crate::records::{CellRecord, CredentialRecord, Head, Records};
use crate::Number;

/// The names of the roles on which the goal rests, and of those in which the ways
/// end. All of them are the owner's, but for linked ones.
const PARTS: [Number; 3] = [2, 3, 4];
const ENDS: [Number; 4] = [5, 6, 7, 8];
/// The name of the role of those who are middles, and of their linked roles.
const LINKING: Number = 9;
const LINKED: Number = 10;
/// The principals who are middles.
const MIDDLES: [Number; 2] = [2, 3];
/// There are so many ways from the parts, at the least and at the most.
const WAYS: [Number; 2] = [2, 7];

/// A wallet of this kind. At least one automaton of each mark is attached to a
/// credential.
pub fn made_up(random: &mut Random) -> Wallet {
    let (mut wallet, demanded) = match random.below(8) {
        0 => round(random),
        1..=3 => plain(random),
        _ => with_ends(random),
    };
    attach(random, &mut wallet, demanded);
    rename(random, &mut wallet);
    if random.one_in(2) {
        random.shuffle(&mut wallet.records.credentials);
    }
    wallet.query.depth = *random.pick(&[2, 3, 3, 4, 4, 5, DEEPEST]);
    wallet
}

/// A constraint, and the index of the credential that is to have it.
type Demanded = (usize, Constraint);

/// Any ways from the parts.
fn plain(random: &mut Random) -> (Wallet, Vec<Demanded>) {
    let mut draft = Draft::default();
    draft.goal(random);
    for _ in 0..random.between(WAYS[0], WAYS[1]) {
        draft.way(random);
    }
    draft.ends(random);
    (draft.finish(), Vec::new())
}

/// The same, where some of the ends demand words through each other.
fn with_ends(random: &mut Random) -> (Wallet, Vec<Demanded>) {
    let (wallet, _) = plain(random);
    let demanded = around(random, &wallet.records);
    (wallet, demanded)
}

/// Who is in the goal's role is in the first part, so the way from there leads
/// back. The goal's other way demands a word through the second part, which only
/// the first way has; to go by both of them takes a middle. Some more ways are
/// added.
fn round(random: &mut Random) -> (Wallet, Vec<Demanded>) {
    let [back, demanded, other] = PARTS;
    let middle = MIDDLES[0];
    let mut draft = Draft::default();
    draft.one_of(GOAL, other);
    draft.in_every(GOAL, &PARTS);
    draft.one_of(back, GOAL);
    draft.credentials.push([OWNER, back, 3, back, LINKED, 0]);
    draft.member(middle, LINKED, MEMBER);
    draft.member(OWNER, other, middle);
    for part in [demanded, other] {
        draft.member(OWNER, part, MEMBER);
    }
    for _ in 0..random.between(0, 3) {
        draft.way(random);
    }
    draft.ends(random);
    let constraint = Constraint::somewhere((OWNER, demanded)).marked(1);
    (draft.finish(), vec![(0, constraint)])
}

/// A wallet in the making.
#[derive(Default)]
struct Draft {
    credentials: Vec<CredentialRecord>,
    cells: Vec<CellRecord>,
    /// The names of the roles on which something rests so far.
    asked: Vec<Number>,
}

impl Draft {
    /// The goal rests on two to four parts, and now and then on one by itself.
    fn goal(&mut self, random: &mut Random) {
        let parts: Vec<Number> = (0..random.between(2, 4))
            .map(|_| *random.pick(&PARTS))
            .collect();
        self.in_every(GOAL, &parts);
        if random.one_in(4) {
            let part = *random.pick(&PARTS);
            self.one_of(GOAL, part);
        }
    }

    /// A way from a part that has been asked for: to an end, to two of them, to
    /// another part, by a middle; or the member is there.
    fn way(&mut self, random: &mut Random) {
        let parts: Vec<Number> = self.asked_among(&PARTS);
        let part = *random.pick(&parts);
        let [end, other] = [0; 2].map(|_| *random.pick(&ENDS));
        match random.below(10) {
            0..=4 => self.one_of(part, end),
            5 => self.in_every(part, &[end, other]),
            6 => self.one_of(part, *random.pick(&PARTS)),
            7 | 8 => self.linked(random, part),
            _ => self.member(OWNER, part, MEMBER),
        }
    }

    /// Kind 3, by one or both middles.
    fn linked(&mut self, random: &mut Random, part: Number) {
        self.credentials.push([OWNER, part, 3, LINKING, LINKED, 0]);
        let one = *random.pick(&MIDDLES);
        for middle in MIDDLES {
            if middle == one || random.one_in(2) {
                self.member(OWNER, LINKING, middle);
                self.member(middle, LINKED, MEMBER);
            }
        }
    }

    /// The member is in every part from which there is no way, or there is one;
    /// and the member is in every end that has been asked for.
    fn ends(&mut self, random: &mut Random) {
        for part in self.asked_among(&PARTS) {
            let mut credentials = self.credentials.iter();
            if !credentials.any(|&[owner, name, ..]| (owner, name) == (OWNER, part)) {
                match random.below(2) {
                    0 => self.member(OWNER, part, MEMBER),
                    _ => self.one_of(part, *random.pick(&ENDS)),
                }
            }
        }
        for end in self.asked_among(&ENDS) {
            self.member(OWNER, end, MEMBER);
        }
    }

    /// The wallet, without automata.
    fn finish(mut self) -> Wallet {
        self.credentials.truncate(Head::LIMITS.credentials as usize);
        from_records(self.credentials, self.cells)
    }

    /// Those of some names that have been asked for.
    fn asked_among(&self, names: &[Number]) -> Vec<Number> {
        let names = names.iter().copied();
        names.filter(|name| self.asked.contains(name)).collect()
    }

    /// Kind 1.
    fn member(&mut self, owner: Number, name: Number, member: Number) {
        self.credentials.push([owner, name, 1, member, 0, 0]);
    }

    /// Kind 2.
    fn one_of(&mut self, name: Number, other: Number) {
        self.credentials.push([OWNER, name, 2, OWNER, other, 0]);
        self.asked.push(other);
    }

    /// Kind 4.
    fn in_every(&mut self, name: Number, parts: &[Number]) {
        let first = self.cells.len() as Number + 1;
        let last = self.cells.len() as Number + parts.len() as Number;
        self.credentials.push([OWNER, name, 4, first, 0, 0]);
        let nexts = (first + 1..=last).chain([0]);
        let cells = parts.iter().zip(nexts);
        self.cells
            .extend(cells.map(|(&part, next)| [OWNER, part, next]));
        self.asked.extend(parts);
    }
}

/// Attaches automata to credentials, a different one to each: these, and any to
/// others. Of the others, two to four, or seldom as many as there may be, the first
/// has mark 0 and the second 1, or the other way round.
fn attach(random: &mut Random, wallet: &mut Wallet, mut constraints: Vec<Demanded>) {
    let roles = constraints::defined(&wallet.records);
    let mut others: Vec<usize> = (0..wallet.records.credentials.len()).collect();
    random.shuffle(&mut others);
    others.retain(|other| {
        !constraints
            .iter()
            .any(|(credential, _)| credential == other)
    });
    let count = match random.below(8) {
        0 => Head::LIMITS.automata,
        _ => random.between(2, 4),
    };
    let first = random.between(0, 1);
    for (index, credential) in (0..count).zip(others) {
        let mark = match index {
            0 | 1 => (first + index) % 2,
            _ => random.between(0, 1),
        };
        constraints.push((credential, constraint(random, &roles).marked(mark)));
    }
    constraints.truncate(Head::LIMITS.automata as usize);
    random.shuffle(&mut constraints);
    for (credential, constraint) in constraints {
        let number = constraints::add(random, &mut wallet.records, &constraint);
        wallet.records.credentials[credential][5] = number.unwrap_or(0);
    }
}

/// For two or three of the ends, if there are so many, that each demands a word
/// through the next, and the last one through the first: the indices of their
/// credentials, with the constraints.
fn around(random: &mut Random, records: &Records) -> Vec<Demanded> {
    let numbered = records.credentials.iter().enumerate();
    let is_end = |name: Number| ENDS.contains(&name);
    let ends = numbered.filter(|(_, &[_, name, ..])| is_end(name));
    let mut ends: Vec<(usize, Role)> = ends
        .map(|(index, &[owner, name, ..])| (index, (owner, name)))
        .collect();
    random.shuffle(&mut ends);
    ends.truncate(random.between(2, 3) as usize);
    let next = ends.iter().cycle().skip(1);
    let pairs = ends.iter().zip(next);
    pairs
        .map(|(&(index, _), &(_, next))| (index, Constraint::somewhere(next).marked(1)))
        .collect()
}

/// A constraint that some words meet and others do not.
fn constraint(random: &mut Random, roles: &[Role]) -> Constraint {
    let [role, next] = [0; 2].map(|_| *random.pick(roles));
    match random.below(12) {
        0..=2 => Constraint::somewhere(role),
        3 | 4 => Constraint::last(role),
        5 => Constraint::nowhere(role),
        6 => Constraint::right_after(role, next),
        7 => Constraint::not_second(role),
        8 => Constraint::even_or_odd(random),
        9 => Constraint::at_most(random.between(1, 3)),
        _ => Constraint::any(random, roles),
    }
}
