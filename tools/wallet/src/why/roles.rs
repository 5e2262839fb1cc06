//! Roles that are asked for, from the query's role down, and that nobody can be
//! in, or not the query's principal.

use std::collections::{BTreeMap, BTreeSet, VecDeque};

use bwlchareg::{Number, Query};

use crate::limits::DEPTH;
use crate::table::{Body, Credential, Role, Table};
use crate::why::changed::names;
use crate::why::{Asker, Sort};

/// A role that is asked for, and that credentials do not give.
#[derive(Clone, Debug, PartialEq, Eq)]
pub struct Unmet {
    /// The role.
    pub role: Role,
    /// What asks for it.
    pub by: Vec<By>,
    /// Whom the credentials name that define it.
    pub others: Vec<Number>,
}

/// What asks for a role.
#[derive(Clone, Copy, Debug, PartialEq, Eq, PartialOrd, Ord)]
pub enum By {
    /// The query.
    Query,
    /// A credential, by its number.
    Credential(Number),
}

/// The roles that are asked for and that no credential defines; and those that the
/// query's principal is asked to be in, and that are defined for others alone. The
/// table has no constraint attached.
pub fn unmet(asker: &mut Asker, bare: &Table, query: Query) -> (Vec<Unmet>, Vec<Unmet>) {
    let principals = principals(bare, query);
    let (mut undefined, mut missing) = (Vec::new(), Vec::new());
    for Wanted { role, by, of_query } in wanted(asker, bare, query, &principals) {
        let others: Vec<Number> = definers(bare, role)
            .filter_map(|(_, own)| member(own))
            .collect();
        let is_plain = others.len() == definers(bare, role).count();
        // The library has the last word.
        let mut nobody = |among: &[Number]| {
            let mut among = among.iter();
            among.all(|principal| asker.has_set(bare, membership(*principal, role)) == Some(false))
        };
        let found = Unmet { role, by, others };
        if found.others.is_empty() && is_plain {
            undefined.extend(nobody(&principals).then_some(found));
        } else if of_query && is_plain {
            missing.extend(nobody(&[query.principal]).then_some(found));
        }
    }
    (undefined, missing)
}

/// A role that is asked for.
struct Wanted {
    role: Role,
    by: Vec<By>,
    /// Whether the query's principal is asked to be in it.
    of_query: bool,
}

/// The roles that are asked for, each once, in the order in which they are found.
fn wanted(asker: &mut Asker, bare: &Table, query: Query, principals: &[Number]) -> Vec<Wanted> {
    let mut order: Vec<(Role, bool)> = Vec::new();
    let mut by: BTreeMap<Role, BTreeSet<By>> = BTreeMap::new();
    let mut waiting = VecDeque::from([(Role::asked(query), true, By::Query)]);
    while let Some((role, of_query, asking)) = waiting.pop_front() {
        by.entry(role).or_default().insert(asking);
        match order.iter_mut().find(|(known, _)| *known == role) {
            Some((_, known)) if *known || !of_query => continue,
            // What is below it is asked of the query's principal too.
            Some((_, known)) => *known = true,
            None => order.push((role, of_query)),
        }
        for (number, credential) in definers(bare, role) {
            let premises = premises(asker, bare, credential, principals).into_iter();
            waiting.extend(premises.map(|(premise, same)| {
                let asking = By::Credential(number);
                (premise, of_query && same, asking)
            }));
        }
    }
    let wanted = order.into_iter().map(|(role, of_query)| Wanted {
        by: by.remove(&role).into_iter().flatten().collect(),
        role,
        of_query,
    });
    wanted.collect()
}

/// The roles for which a credential asks, and whether it asks of the same principal
/// as its own role. The middles of a link are those that the library finds.
fn premises(
    asker: &mut Asker,
    bare: &Table,
    credential: &Credential,
    principals: &[Number],
) -> Vec<(Role, bool)> {
    match credential.body {
        Body::Member(_) => Vec::new(),
        Body::Contained(role) => vec![(role, true)],
        Body::Parts(first) => {
            let parts = bare.parts(first).into_iter();
            parts.map(|part| (part, true)).collect()
        }
        Body::Linked { first, second } => {
            let link = Role {
                owner: credential.role.owner,
                name: first,
            };
            let mut roles = vec![(link, false)];
            for &owner in principals {
                if asker.has_set(bare, membership(owner, link)) == Some(true) {
                    let name = second;
                    roles.push((Role { owner, name }, true));
                }
            }
            roles
        }
    }
}

/// The credentials that define a role, with their numbers.
fn definers(table: &Table, role: Role) -> impl Iterator<Item = (Number, &Credential)> {
    let numbered = (1..).zip(&table.credentials);
    numbered.filter(move |(_, credential)| credential.role == role)
}

/// The principal that a credential of kind 1 names.
fn member(credential: &Credential) -> Option<Number> {
    match credential.body {
        Body::Member(principal) => Some(principal),
        _ => None,
    }
}

/// The query whether a principal is in a role, as deep as can be asked.
fn membership(principal: Number, role: Role) -> Query {
    Query {
        principal,
        owner: role.owner,
        name: role.name,
        depth: DEPTH,
    }
}

/// All principals of a table and a query, ascending.
fn principals(table: &Table, query: Query) -> Vec<Number> {
    let (mut table, mut query) = (table.clone(), query);
    let names = names(&mut table, &mut query).into_iter();
    let principals = names.filter(|name| name.sort == Sort::Principal);
    let principals: BTreeSet<Number> = principals.map(|name| *name.number).collect();
    principals.into_iter().collect()
}
