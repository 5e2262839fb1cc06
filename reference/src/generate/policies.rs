//! Tables in which many goals can be derived.
//!
//! A table is built from the bottom up, credential by credential. A new one
//! rests on roles in which somebody is known to be, so it puts somebody in
//! its own role. Roles come to be defined by several credentials, chains come
//! to share cells, and some credentials lead back to where they came from.

use crate::generate::{constraints, valid};
use crate::random::Random;
use crate::records::{CellRecord, CredentialRecord, Head, Records};
use crate::Number;

/// A table in which goals can be derived, often with automata.
pub fn records(random: &mut Random) -> Records {
    let mut records = unconstrained(random);
    constraints::attach(random, &mut records);
    records
}

/// A table in which goals can be derived, without automata.
pub fn unconstrained(random: &mut Random) -> Records {
    let mut draft = Draft::new(random);
    // The draft has one credential to begin with.
    let least = if random.one_in(2) { 4 } else { 16 };
    for _ in 1..random.between(least, Head::LIMITS.credentials) {
        draft.add(random);
    }
    draft.finish(random)
}

/// A role's owner and name, as written.
type Role = (Number, Number);

/// A table in the making.
struct Draft {
    /// The principals and names from which roles are made.
    principals: Vec<Number>,
    names: Vec<Number>,
    /// Whether each role mostly rests on the one made just before, so that
    /// derivations become deep.
    tall: bool,
    credentials: Vec<CredentialRecord>,
    /// The part cells, the last one first. While they are made, a cell is
    /// known by its number in this order, so that its next is already there.
    cells: Vec<CellRecord>,
    /// Who is known to be in which role.
    known: Vec<(Number, Role)>,
}

impl Draft {
    /// A draft with somebody in a role.
    fn new(random: &mut Random) -> Draft {
        let tall = random.one_in(3);
        let (principals, names) = if tall {
            (random.between(2, 3), Head::LIMITS.credentials)
        } else {
            (random.between(2, 5), random.between(2, 4))
        };
        let mut draft = Draft {
            principals: distinct(random, principals),
            names: distinct(random, names),
            tall,
            credentials: Vec::new(),
            cells: Vec::new(),
            known: Vec::new(),
        };
        draft.add_one(random);
        draft
    }

    /// Adds a credential of some kind. In a tall table there is seldom one
    /// that leads no further up.
    fn add(&mut self, random: &mut Random) {
        let upwards = self.tall && !random.one_in(8);
        match random.below(8) {
            0 | 1 if !upwards => self.add_one(random),
            2 if !upwards => self.add_way_back(random),
            0..=3 => self.add_all_of(random),
            4 | 5 => self.add_linked(random),
            _ => self.add_in_every(random),
        }
    }

    /// Kind 1: some principal. It is noted as if it had come first, so that
    /// a tall table goes on from where it was.
    fn add_one(&mut self, random: &mut Random) {
        let role = self.role(random);
        let member = *random.pick(&self.principals);
        self.credential(role, 1, member, 0);
        self.known.insert(0, (member, role));
    }

    /// Kind 2: whoever is in a role that has a member.
    fn add_all_of(&mut self, random: &mut Random) {
        let role = self.role(random);
        let (_, from) = self.premise(random);
        self.credential(role, 2, from.0, from.1);
        for member in self.members(from) {
            self.learn(member, role);
        }
    }

    /// Kind 3: by way of somebody who owns a role that has a member. If there
    /// is nobody like that, kind 2.
    fn add_linked(&mut self, random: &mut Random) {
        let (middle, linking) = self.premise(random);
        let owned = self.known.iter().filter(|(_, role)| role.0 == middle);
        let owned: Vec<(Number, Role)> = owned.copied().collect();
        if owned.is_empty() {
            return self.add_all_of(random);
        }
        let (_, linked) = *random.pick(&owned);
        let role = (linking.0, self.role(random).1);
        self.credential(role, 3, linking.1, linked.1);
        for middle in self.members(linking) {
            for member in self.members((middle, linked.1)) {
                self.learn(member, role);
            }
        }
    }

    /// Kind 4: two to four roles of one principal, often with the end of a
    /// chain that is there already. If there is no room for cells, kind 1.
    fn add_in_every(&mut self, random: &mut Random) {
        if self.cells.len() + 4 > Head::LIMITS.cells as usize {
            return self.add_one(random);
        }
        let (member, _) = self.premise(random);
        let tail = self.tail(random, member);
        let mut parts = self.chain(tail);
        let most = 4 - parts.len() as Number;
        let least = most.saturating_sub(2);
        let mut first = tail;
        for _ in 0..random.between(least, most) {
            let part = self.role_of(random, member);
            self.cells.push([part.0, part.1, first]);
            first = self.cells.len() as Number;
            parts.push(part);
        }
        let role = self.role(random);
        self.credential(role, 4, first, 0);
        for member in self.members(parts[0]) {
            if parts
                .iter()
                .all(|&part| self.known.contains(&(member, part)))
            {
                self.learn(member, role);
            }
        }
    }

    /// Kind 2 between roles that are defined already, the same one perhaps:
    /// often it leads back to where it came from.
    fn add_way_back(&mut self, random: &mut Random) {
        let [owner, name, ..] = *random.pick(&self.credentials);
        let [from_owner, from_name, ..] = *random.pick(&self.credentials);
        self.credential((owner, name), 2, from_owner, from_name);
    }

    /// Adds a credential without an automaton.
    fn credential(&mut self, role: Role, kind: Number, first: Number, second: Number) {
        let credential = [role.0, role.1, kind, first, second, 0];
        self.credentials.push(credential);
    }

    /// Notes that a principal is in a role.
    fn learn(&mut self, principal: Number, role: Role) {
        if !self.known.contains(&(principal, role)) {
            self.known.push((principal, role));
        }
    }

    /// Who is known to be in a role.
    fn members(&self, role: Role) -> Vec<Number> {
        let known = self.known.iter().filter(|&&(_, other)| other == role);
        known.map(|&(principal, _)| principal).collect()
    }

    /// A role for a new credential. In a tall table it is mostly a new one.
    fn role(&mut self, random: &mut Random) -> Role {
        let owner = *random.pick(&self.principals);
        let name = if self.tall && !random.one_in(4) {
            self.names[self.credentials.len()]
        } else {
            *random.pick(&self.names)
        };
        (owner, name)
    }

    /// Somebody in a role, on which a new credential is to rest. In a tall
    /// table it is mostly what was noted last.
    fn premise(&mut self, random: &mut Random) -> (Number, Role) {
        if self.tall && !random.one_in(8) {
            self.known[self.known.len() - 1]
        } else {
            *random.pick(&self.known)
        }
    }

    /// One of the roles of a principal, who has some.
    fn role_of(&mut self, random: &mut Random, principal: Number) -> Role {
        let known = self
            .known
            .iter()
            .filter(|&&(member, _)| member == principal);
        let roles: Vec<Role> = known.map(|&(_, role)| role).collect();
        if self.tall && random.one_in(2) {
            roles[roles.len() - 1]
        } else {
            *random.pick(&roles)
        }
    }

    /// The roles of the chain that begins at a cell; none at 0.
    fn chain(&self, cell: Number) -> Vec<Role> {
        let mut roles = Vec::new();
        let mut next = cell;
        while next != 0 {
            let [principal, name, following] = self.cells[next as usize - 1];
            roles.push((principal, name));
            next = following;
        }
        roles
    }

    /// A cell whose chain a new chain may end with, since the principal is in
    /// all its roles; 0 if there is none, and half of the time.
    fn tail(&self, random: &mut Random, member: Number) -> Number {
        let is_in = |part: Role| self.known.contains(&(member, part));
        let fits = |&cell: &Number| self.chain(cell).into_iter().all(is_in);
        let cells: Vec<Number> = (1..=self.cells.len() as Number).filter(fits).collect();
        if cells.is_empty() || random.one_in(2) {
            0
        } else {
            *random.pick(&cells)
        }
    }

    /// The table, with its cells in order, some unused ones among them, and
    /// its credentials in any order.
    fn finish(mut self, random: &mut Random) -> Records {
        self.add_unused_cells(random);
        let count = self.cells.len() as Number;
        // The last cell, which was the first one made, has the number `count`.
        let number = |made: Number| count + 1 - made;
        let in_order = self.cells.iter().rev();
        let cells = in_order.map(|&[principal, name, next]| match next {
            0 => [principal, name, 0],
            next => [principal, name, number(next)],
        });
        let mut credentials = self.credentials.clone();
        for [_, _, kind, first, _, _] in &mut credentials {
            if *kind == 4 {
                *first = number(*first);
            }
        }
        random.shuffle(&mut credentials);
        Records {
            credentials,
            cells: cells.collect(),
            automata: Vec::new(),
            edges: Vec::new(),
        }
    }

    /// Adds up to three cells that no chain has, if there is room.
    fn add_unused_cells(&mut self, random: &mut Random) {
        for _ in 0..random.below(4) {
            if self.cells.len() < Head::LIMITS.cells as usize {
                let [owner, name, ..] = *random.pick(&self.credentials);
                let next = random.between(0, self.cells.len() as Number);
                self.cells.push([owner, name, next]);
            }
        }
    }
}

/// So many principals or names, no two the same. The ends of the range and
/// small numbers come often, so that a principal and a name, or a number of
/// another sort, are easily the same number.
pub fn distinct(random: &mut Random, count: Number) -> Vec<Number> {
    let mut numbers = Vec::new();
    while numbers.len() < count as usize {
        let number = valid::one_to_highest(random);
        if !numbers.contains(&number) {
            numbers.push(number);
        }
    }
    numbers
}
