//! All proofs of a query, in the way of the 2015 paper (docs/SOURCES.md): its
//! algorithm CONSTRUCT-PROOFS, with the words, the depth limit and the rule
//! against cycles of docs/DEFINITION.md.
//!
//! A goal's proofs are constructed from the proofs of its premises, for every
//! credential that defines its role, and all combinations of those are made.
//! The roles from the top down are read by the automata on the way. Where an
//! automaton of a credential above can accept no more, there are no proofs;
//! what other automata reject is filtered out of the proofs of every goal. At
//! the end the used sets are looked through for the minimal ones. The paper's
//! algorithm reads the words of a middle's branch from that branch on; here they
//! are read from the top, as the definition has it.

use std::collections::HashMap;
use std::time::Duration;

use reference::query::Asked;
use reference::sorts::{Goal, Name, Principal, Role};
use reference::table::{Members, Table};
use reference::Number;

use super::automata::{Automata, States};
use super::deadline::Deadline;
use super::minimal::minimal;
use super::store::{Id, Proof, Store};

/// No more proofs than these are constructed: they would not fit into memory.
const MOST_PROOFS: u32 = 20_000_000;

/// Where a goal stands.
#[derive(Clone, Copy)]
struct Place<'a> {
    /// The goals above it, the top goal first.
    path: &'a [Goal],
    /// Where their roles have brought the automata.
    states: States,
    /// The automata of the credentials above.
    constraints: u8,
}

/// The minimal sets by all proofs, if they can be constructed in time.
pub fn minimal_sets(table: &Table, asked: Asked, limit: Duration) -> Option<Vec<u32>> {
    let (store, proofs) = proofs(table, asked, limit)?;
    let used = proofs.iter().map(|&proof| store.proof(proof).used);
    Some(minimal(used.collect()))
}

/// All proofs that comply, if they can be constructed in time, and where they
/// are kept.
fn proofs(table: &Table, asked: Asked, limit: Duration) -> Option<(Store, Vec<Id>)> {
    let automata = Automata::new(table);
    let top = Place {
        path: &[],
        states: automata.start(),
        constraints: 0,
    };
    let mut construction = Construction {
        table,
        nodes: nodes(table),
        automata,
        depth: asked.depth as usize,
        deadline: Deadline::within(limit),
        made: 0,
        store: Store::default(),
    };
    let proofs = construction.goal(asked.goal, top)?;
    Some((construction.store, proofs))
}

/// The numbers of the credentials that define each role.
fn nodes(table: &Table) -> HashMap<Role, Vec<Number>> {
    let mut nodes: HashMap<Role, Vec<Number>> = HashMap::new();
    for (number, credential) in (1..).zip(&table.credentials) {
        nodes.entry(credential.role).or_default().push(number);
    }
    nodes
}

/// A construction of proofs that is under way.
struct Construction<'a> {
    table: &'a Table,
    nodes: HashMap<Role, Vec<Number>>,
    automata: Automata<'a>,
    /// The highest level that a node may have.
    depth: usize,
    deadline: Deadline,
    /// How many proofs have been made, those that were filtered out among them.
    made: u32,
    store: Store,
}

impl Construction<'_> {
    /// The proofs of a goal in a place.
    fn goal(&mut self, goal: Goal, place: Place) -> Option<Vec<Id>> {
        self.deadline.step()?;
        let mut proofs = Vec::new();
        let states = self.automata.after(&place.states, goal.role);
        let ends = place.path.len() >= self.depth || place.path.contains(&goal);
        if ends || place.constraints & self.automata.hopeless(&states) != 0 {
            return Some(proofs);
        }
        let path = [place.path, &[goal]].concat();
        for number in self.nodes.get(&goal.role).cloned().unwrap_or_default() {
            let inside = Place {
                path: &path,
                states,
                constraints: place.constraints | self.constraint(number),
            };
            for middle in self.middles(number) {
                if let Some(premises) = self.table.premises(goal, number, middle) {
                    self.through((number, middle), &premises, inside, &mut proofs)?;
                }
            }
        }
        Some(proofs)
    }

    /// Adds the proofs through one credential by way of one middle: one for
    /// every combination of proofs of the premises.
    fn through(
        &mut self,
        node: (Number, Number),
        premises: &[Goal],
        inside: Place,
        proofs: &mut Vec<Id>,
    ) -> Option<()> {
        let mut parts = Vec::new();
        for &premise in premises {
            parts.push(self.goal(premise, inside)?);
            if parts.last().is_some_and(Vec::is_empty) {
                return Some(());
            }
        }
        let mut chosen = vec![0; parts.len()];
        let mut subproofs: Vec<Id> = parts.iter().map(|part| part[0]).collect();
        loop {
            let proof = self.proof(node, &subproofs, inside)?;
            if (inside.constraints | proof.constraints) & proof.rejecting == 0 {
                proofs.push(self.store.keep(proof, &subproofs));
            }
            if !next(&mut chosen, &parts, &mut subproofs) {
                return Some(());
            }
        }
    }

    /// The proof with this node and these proofs of its premises. A word ends
    /// where there are none.
    fn proof(
        &mut self,
        (credential, middle): (Number, Number),
        subproofs: &[Id],
        inside: Place,
    ) -> Option<Proof> {
        self.deadline.step()?;
        self.made += 1;
        let rejecting = match subproofs {
            [] => self.automata.rejecting(&inside.states),
            _ => 0,
        };
        let mut proof = Proof::new(credential, middle, self.constraint(credential), rejecting);
        for &subproof in subproofs {
            proof.join(self.store.proof(subproof));
        }
        (self.made <= MOST_PROOFS).then_some(proof)
    }

    /// The automaton of a credential, as a set of one or none.
    fn constraint(&self, number: Number) -> u8 {
        let credential = self.table.credential(number);
        let automaton = credential.and_then(|credential| credential.automaton);
        automaton.map_or(0, |automaton| 1 << (automaton - 1))
    }

    /// The middles that are tried for a credential: under kind 3 whoever owns
    /// a role with the second name that is defined. The others have none.
    fn middles(&self, number: Number) -> Vec<Number> {
        let credential = self.table.credential(number);
        match credential.map(|credential| &credential.members) {
            Some(&Members::Linked(_, second)) => self.owners(second),
            _ => vec![0],
        }
    }

    /// The owners of roles with this name that are defined, ascending.
    fn owners(&self, name: Name) -> Vec<Number> {
        let roles = self.nodes.keys().filter(|role| role.name == name);
        let mut owners: Vec<Principal> = roles.map(|role| role.owner).collect();
        owners.sort();
        owners.iter().map(|owner| owner.number()).collect()
    }
}

/// Goes on to the next combination, if there is one.
fn next(chosen: &mut [usize], parts: &[Vec<Id>], subproofs: &mut [Id]) -> bool {
    for ((index, part), subproof) in chosen.iter_mut().zip(parts).zip(subproofs) {
        *index += 1;
        let more = *index < part.len();
        *index = if more { *index } else { 0 };
        *subproof = part[*index];
        if more {
            return true;
        }
    }
    false
}

#[cfg(test)]
mod tests {
    use super::{minimal_sets, proofs};
    use crate::clubs::tables::{clubs, Constraint};
    use crate::families;
    use crate::listing::Listing;
    use crate::peers::samples;
    use reference::generate::shapes::{self, Place};
    use reference::{shop, Number};
    use std::time::Duration;

    const LONG: Duration = Duration::from_secs(60);

    /// The records of all proofs with their used sets, ascending.
    fn records(listing: &Listing) -> Vec<(Vec<Number>, u32)> {
        let (table, asked) = listing.read();
        let (store, proofs) = proofs(&table, asked, LONG).expect("time enough");
        let record = |&proof: &u32| {
            let mut record = Vec::new();
            store.write(proof, &mut record);
            (record, store.proof(proof).used)
        };
        let mut records: Vec<_> = proofs.iter().map(record).collect();
        records.sort();
        records
    }

    #[test]
    fn the_proofs_of_the_shop() {
        let with = |table: &[Number]| records(&Listing::of(&families::shop(table)));
        assert_eq!(with(&shop::T), [(shop::R.to_vec(), 7), (vec![4, 0], 8)]);
        assert_eq!(with(&shop::U), [(vec![4, 0], 8)]);
    }

    #[test]
    fn every_choice_is_a_proof() {
        let wallet = shapes::choices(&[2; 4], Place::First);
        let listing = Listing::of(&wallet);
        assert_eq!(records(&listing).len(), 16);
    }

    #[test]
    fn every_proof_is_accepted_and_no_two_are_the_same() {
        for listing in samples::listings(300) {
            let mut records = records(&listing);
            for (record, used) in &records {
                let verdict = reference::verify(&listing.table, listing.query, record);
                assert_eq!(verdict, Ok(*used));
            }
            let count = records.len();
            records.dedup();
            assert_eq!(records.len(), count);
        }
    }

    #[test]
    fn the_minimal_sets_are_the_library_s() {
        for listing in samples::listings(1_000) {
            let (table, asked) = listing.read();
            let list = minimal_sets(&table, asked, LONG);
            assert_eq!(list, listing.library_list().ok());
        }
    }

    #[test]
    fn the_minimal_sets_of_clubs_are_the_library_s() {
        let clubs = clubs().into_iter().filter(|club| club.people <= 10);
        for club in clubs {
            let listing = Listing::of(&club.with(Constraint::AtMostFive));
            let (table, asked) = listing.read();
            let list = minimal_sets(&table, asked, LONG);
            assert_eq!(list, listing.library_list().ok(), "{}", club.shape);
        }
    }

    #[test]
    fn too_many_proofs_are_given_up_in_time() {
        let listing = Listing::of(&families::sixteen_levels());
        let (table, asked) = listing.read();
        let limit = Duration::from_millis(20);
        assert_eq!(minimal_sets(&table, asked, limit), None);
    }
}
