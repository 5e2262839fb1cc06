//! Automata that accept some words and reject others, and the credentials
//! to which they are attached.

use crate::generate::{marks, valid};
use crate::random::Random;
use crate::records::{EdgeRecord, Head, Records};
use crate::table::{EVERY_STATE, LAST_STATE};
use crate::Number;

/// A role's owner and name, as written.
pub type Role = (Number, Number);

/// An automaton with its edges: from, label, owner, name, to. Its mark is 0 if
/// nothing else is said.
#[derive(Clone, Debug, PartialEq, Eq)]
pub struct Constraint {
    starting: Number,
    accepting: Number,
    mark: Number,
    edges: Vec<[Number; 5]>,
}

/// What an edge matches, as written: label, owner, name.
pub type Matched = [Number; 3];

/// Every role.
pub const EVERY: Matched = [2, 0, 0];

/// One role.
pub fn one((owner, name): Role) -> Matched {
    [1, owner, name]
}

/// Every role but one.
pub fn but((owner, name): Role) -> Matched {
    [3, owner, name]
}

/// Every role of an owner.
pub fn owned(owner: Number) -> Matched {
    [4, owner, 0]
}

/// An edge on what it matches.
fn on(from: Number, [label, owner, name]: Matched, to: Number) -> [Number; 5] {
    [from, label, owner, name, to]
}

/// An edge on every role, on one role, on every role but one, on any of an
/// owner.
fn every(from: Number, to: Number) -> [Number; 5] {
    on(from, EVERY, to)
}

fn exactly(from: Number, role: Role, to: Number) -> [Number; 5] {
    on(from, one(role), to)
}

fn all_but(from: Number, role: Role, to: Number) -> [Number; 5] {
    on(from, but(role), to)
}

fn any_of(from: Number, owner: Number, to: Number) -> [Number; 5] {
    on(from, owned(owner), to)
}

impl Constraint {
    /// An automaton that starts in state 0.
    fn new(accepting: Number, edges: Vec<[Number; 5]>) -> Constraint {
        Constraint {
            starting: 1,
            accepting,
            mark: 0,
            edges,
        }
    }

    /// The same with this mark.
    pub fn marked(self, mark: Number) -> Constraint {
        Constraint { mark, ..self }
    }

    /// Every word is accepted.
    pub fn everything() -> Constraint {
        Constraint::new(1, vec![every(0, 0)])
    }

    /// No word is accepted.
    pub fn nothing(random: &mut Random) -> Constraint {
        let mut constraint = Constraint::everything();
        match random.below(3) {
            0 => constraint.starting = 0,
            1 => constraint.accepting = 0,
            _ => constraint.edges.clear(),
        }
        constraint
    }

    /// The word begins with a role.
    pub fn first(role: Role) -> Constraint {
        Constraint::new(2, vec![exactly(0, role, 1), every(1, 1)])
    }

    /// The word ends with a role.
    pub fn last(role: Role) -> Constraint {
        Constraint::new(2, vec![every(0, 0), exactly(0, role, 1)])
    }

    /// A role is somewhere in the word.
    pub fn somewhere(role: Role) -> Constraint {
        Constraint::new(2, vec![every(0, 0), exactly(0, role, 1), every(1, 1)])
    }

    /// A role is nowhere in the word.
    pub fn nowhere(role: Role) -> Constraint {
        Constraint::new(1, vec![all_but(0, role, 0)])
    }

    /// The second role of the word, if there is one, is not this one.
    pub fn not_second(role: Role) -> Constraint {
        let edges = vec![every(0, 1), all_but(1, role, 2), every(2, 2)];
        Constraint::new(2 + 4, edges)
    }

    /// The second role of the word is one of these, at most 13, the last is as
    /// is given with it, and all roles between them are as is said first.
    pub fn last_by_second(between: Matched, ways: &[(Role, Vec<Matched>)]) -> Constraint {
        let mut edges = vec![every(0, 1)];
        for (state, (second, lasts)) in (2..).zip(ways) {
            edges.extend([exactly(1, *second, state), on(state, between, state)]);
            edges.extend(lasts.iter().map(|&last| on(state, last, LAST_STATE)));
        }
        Constraint::new(1 << LAST_STATE, edges)
    }

    /// Somewhere in the word a role comes right after another.
    pub fn right_after(role: Role, next: Role) -> Constraint {
        let found = [exactly(0, role, 1), exactly(1, next, 2)];
        let edges = [vec![every(0, 0), every(2, 2)], found.to_vec()].concat();
        Constraint::new(4, edges)
    }

    /// The word has roles of these owners alone.
    pub fn owned_by(owners: &[Number]) -> Constraint {
        let edges = owners.iter().map(|&owner| any_of(0, owner, 0));
        Constraint::new(1, edges.collect())
    }

    /// The word has roles of an owner, and from some place on those of another
    /// alone; there may be none of either.
    pub fn handed_over(owner: Number, next: Number) -> Constraint {
        let edges = [any_of(0, owner, 0), any_of(0, next, 1), any_of(1, next, 1)];
        Constraint::new(1 + 2, edges.to_vec())
    }

    /// The word begins with a role of an owner.
    pub fn first_of(owner: Number) -> Constraint {
        Constraint::new(2, vec![any_of(0, owner, 1), every(1, 1)])
    }

    /// The word ends with a role of an owner.
    pub fn last_of(owner: Number) -> Constraint {
        Constraint::new(2, vec![every(0, 0), any_of(0, owner, 1)])
    }

    /// The word has at most so many roles, 15 at the very most.
    pub fn at_most(roles: Number) -> Constraint {
        let edges = (0..roles).map(|state| every(state, state + 1));
        Constraint::new(EVERY_STATE, edges.collect())
    }

    /// The word has an even number of roles, or an odd one.
    pub fn even_or_odd(random: &mut Random) -> Constraint {
        Constraint::new(*random.pick(&[1, 2]), vec![every(0, 1), every(1, 0)])
    }

    /// A few states, and edges as they come.
    pub fn haphazard(random: &mut Random, roles: &[Role]) -> Constraint {
        let last = random.between(1, 3);
        let mut edges = Vec::new();
        for _ in 0..random.between(2, 10) {
            let (from, to) = (random.between(0, last), random.between(0, last));
            let role = *random.pick(roles);
            edges.push(match random.below(5) {
                0 => exactly(from, role, to),
                1 => all_but(from, role, to),
                2 => any_of(from, role.0, to),
                _ => every(from, to),
            });
        }
        Constraint {
            starting: random.between(1, 15),
            accepting: random.between(1, 15),
            mark: 0,
            edges,
        }
    }

    /// One of the above, about some of these roles; there is at least one.
    pub fn any(random: &mut Random, roles: &[Role]) -> Constraint {
        let constraint = match random.below(10) {
            0..=2 => Constraint::by_owner(random, roles),
            _ => Constraint::by_role(random, roles),
        };
        constraint.renamed(random)
    }

    /// One that goes by the owners of some of these roles, or now and then by
    /// somebody who perhaps owns none.
    fn by_owner(random: &mut Random, roles: &[Role]) -> Constraint {
        let [one, two, three] = [0; 3].map(|_| match random.below(8) {
            0 => valid::one_to_highest(random),
            _ => random.pick(roles).0,
        });
        match random.below(8) {
            0 | 1 => Constraint::owned_by(&[one]),
            2 | 3 => Constraint::owned_by(&[one, two]),
            4 => Constraint::owned_by(&[one, two, three]),
            5 => Constraint::handed_over(one, two),
            6 => Constraint::first_of(one),
            _ => Constraint::last_of(one),
        }
    }

    /// One that goes by some of these roles, or counts them; or edges as they
    /// come.
    fn by_role(random: &mut Random, roles: &[Role]) -> Constraint {
        let [role, next] = [*random.pick(roles), *random.pick(roles)];
        match random.below(16) {
            0 | 1 => Constraint::everything(),
            2 => Constraint::nothing(random),
            3 => Constraint::first(role),
            4 => Constraint::last(role),
            5 => Constraint::somewhere(role),
            6 | 7 => Constraint::nowhere(role),
            8 | 9 => Constraint::not_second(role),
            10 => Constraint::right_after(role, next),
            11 | 12 => Constraint::at_most(random.between(1, LAST_STATE)),
            13 => Constraint::even_or_odd(random),
            _ => Constraint::haphazard(random, roles),
        }
    }

    /// The same automaton with other states in the place of its own.
    fn renamed(&self, random: &mut Random) -> Constraint {
        let mut names: Vec<Number> = (0..=LAST_STATE).collect();
        random.shuffle(&mut names);
        let name = |state: Number| names[state as usize];
        let set = |states: Number| {
            let named = (0..=LAST_STATE).filter(|state| (states >> state) & 1 == 1);
            named.map(|state| 1 << name(state)).sum()
        };
        let edges = self.edges.iter();
        Constraint {
            starting: set(self.starting),
            accepting: set(self.accepting),
            mark: self.mark,
            edges: edges
                .map(|&[from, label, owner, role, to]| [name(from), label, owner, role, name(to)])
                .collect(),
        }
    }
}

/// Adds an automaton to a table and tells its number, if there is room. Its
/// edges come to stand among those of the others.
pub fn add(random: &mut Random, records: &mut Records, constraint: &Constraint) -> Option<Number> {
    let edges = records.edges.len() + constraint.edges.len();
    let limits = Head::LIMITS;
    if records.head().automata >= limits.automata || edges > limits.edges as usize {
        return None;
    }
    let automaton = [constraint.starting, constraint.accepting, constraint.mark];
    records.automata.push(automaton);
    let number = records.automata.len() as Number;
    for &[from, label, owner, name, to] in &constraint.edges {
        let edge: EdgeRecord = [number, from, label, owner, name, to];
        let place = random.below(records.edges.len() + 1);
        records.edges.insert(place, edge);
    }
    Some(number)
}

/// Gives a table automata, or none, and attaches them to some of its
/// credentials, of which there is at least one.
pub fn attach(random: &mut Random, records: &mut Records) {
    let roles = defined(records);
    let count = match random.below(8) {
        0 | 1 => 0,
        2..=5 => random.between(1, 3),
        6 => random.between(4, 7),
        _ => Head::LIMITS.automata,
    };
    for _ in 0..count {
        let constraint = Constraint::any(random, &roles);
        add(random, records, &constraint);
    }
    marks::draw(random, records);
    let head = records.head();
    if head.automata == 0 {
        return;
    }
    let seldom = *random.pick(&[1, 3, 6, 12]);
    for credential in &mut records.credentials {
        if random.one_in(seldom) {
            credential[5] = random.between(1, head.automata);
        }
    }
    if random.one_in(8) {
        let least = *random.pick(&[head.edges, Head::LIMITS.edges]);
        let edges = random.between(least, Head::LIMITS.edges);
        fill(random, records, &roles, edges);
    }
}

/// Adds edges between any two states until there are so many. Most of them
/// are never taken, but they give the others higher numbers.
fn fill(random: &mut Random, records: &mut Records, roles: &[Role], edges: Number) {
    let automata = records.head().automata;
    while records.head().edges < edges {
        let automaton = random.between(1, automata);
        let (owner, name) = *random.pick(roles);
        let label = *random.pick(&[1, 3]);
        let [from, to] = [0; 2].map(|_| random.between(0, LAST_STATE));
        let place = random.below(records.edges.len() + 1);
        let edge = [automaton, from, label, owner, name, to];
        records.edges.insert(place, edge);
    }
}

/// The roles that the credentials of a table define: words have no others.
pub fn defined(records: &Records) -> Vec<Role> {
    let credentials = records.credentials.iter();
    credentials
        .map(|&[owner, name, ..]| (owner, name))
        .collect()
}
