//! Nets: wallets with many roles, and eight automata with many edges.
//!
//! The roles are those of a few owners under a few names, so that many differ
//! only in the owner or only in the name. Each rests on some of those that come
//! next, and several credentials define some of them, so there are many words.
//! The edges are those of [`meshes`].

use crate::generate::constraints::Role;
use crate::generate::meshes;
use crate::generate::policies::distinct;
use crate::generate::wallets::Wallet;
use crate::query::{Query, DEEPEST};
use crate::random::Random;
use crate::records::{CellRecord, CredentialRecord, Head, Records};
use crate::Number;

/// A role rests on some of so many that come next.
const NEAR: usize = 4;

/// A net of at most so many credentials, 8 to 20.
pub fn made_up(random: &mut Random, most: Number) -> Wallet {
    let size = random.between(most / 2, most);
    let mut wallet = Draft::new(random, size).finish(random);
    meshes::attach(random, &mut wallet);
    random.shuffle(&mut wallet.records.credentials);
    wallet
}

/// A net in the making.
struct Draft {
    /// Who is asked about.
    member: Number,
    /// The roles, the goal's first.
    roles: Vec<Role>,
    /// How many credentials there are to be.
    size: usize,
    credentials: Vec<CredentialRecord>,
    cells: Vec<CellRecord>,
}

impl Draft {
    /// Every role with its credentials.
    fn new(random: &mut Random, size: Number) -> Draft {
        let roles = roles(random, size);
        let mut draft = Draft {
            member: distinct(random, 1)[0],
            roles,
            size: size as usize,
            credentials: Vec::new(),
            cells: Vec::new(),
        };
        for index in 0..draft.roles.len() {
            let left = draft.roles.len() - index;
            draft.define(random, index, left);
        }
        while draft.credentials.len() < draft.size {
            let [one, other] = [0; 2].map(|_| random.below(draft.roles.len()));
            draft.define(random, one.min(other), 1);
        }
        draft
    }

    /// Adds a credential for the role with this index, where so many are still
    /// needed, this one included. The last roles have members.
    fn define(&mut self, random: &mut Random, index: usize, needed: usize) {
        let role = self.roles[index];
        let next = &self.roles[index + 1..];
        let near = next[..next.len().min(NEAR)].to_vec();
        let seldom = if near.len() < NEAR { 2 } else { 8 };
        if near.is_empty() || random.one_in(seldom) {
            return self.credential(role, 1, self.member, 0);
        }
        let has_room = self.credentials.len() + needed < self.size;
        match random.below(4) {
            0 => self.in_every(random, role, &near),
            1 if has_room && self.linked(random, role, &near) => {}
            _ => {
                let (owner, name) = *random.pick(&near);
                self.credential(role, 2, owner, name);
            }
        }
    }

    /// Adds a credential without an automaton.
    fn credential(&mut self, role: Role, kind: Number, first: Number, second: Number) {
        let credential = [role.0, role.1, kind, first, second, 0];
        self.credentials.push(credential);
    }

    /// Kind 4: two or three of these roles. If there is no room for cells, kind
    /// 1.
    fn in_every(&mut self, random: &mut Random, role: Role, near: &[Role]) {
        let parts = random.between(2, 3);
        let first = self.cells.len() as Number + 1;
        if first + parts > Head::LIMITS.cells {
            return self.credential(role, 1, self.member, 0);
        }
        for next in (first + 1..first + parts).chain([0]) {
            let (owner, name) = *random.pick(near);
            self.cells.push([owner, name, next]);
        }
        self.credential(role, 4, first, 0);
    }

    /// Kind 3, with a middle who owns one of these roles and is in another that
    /// the role's owner owns. Tells whether there is such a role.
    fn linked(&mut self, random: &mut Random, role: Role, near: &[Role]) -> bool {
        let owned = near.iter().filter(|other| other.0 == role.0);
        let owned: Vec<Role> = owned.copied().collect();
        if owned.is_empty() {
            return false;
        }
        let linking = *random.pick(&owned);
        let (middle, name) = *random.pick(near);
        self.credential(role, 3, linking.1, name);
        self.credential(linking, 1, middle, 0);
        true
    }

    /// The wallet.
    fn finish(self, random: &mut Random) -> Wallet {
        let (owner, name) = self.roles[0];
        let query = Query {
            principal: self.member,
            owner,
            name,
            depth: match random.below(4) {
                0 => random.between(2, 8),
                _ => DEEPEST,
            },
        };
        let records = Records {
            credentials: self.credentials,
            cells: self.cells,
            automata: Vec::new(),
            edges: Vec::new(),
        };
        Wallet { records, query }
    }
}

/// So many different roles at most, in any order.
fn roles(random: &mut Random, most: Number) -> Vec<Role> {
    let [owners, names] = [0; 2].map(|_| {
        let count = *random.pick(&[2, 3, 4, 5, 5]);
        distinct(random, count)
    });
    let of = |owner: Number| names.iter().map(move |&name| (owner, name));
    let mut roles: Vec<Role> = owners.iter().flat_map(|&owner| of(owner)).collect();
    random.shuffle(&mut roles);
    let count = *random.pick(&[4, most / 2, most]);
    roles.truncate(random.between(count, most) as usize);
    roles
}
