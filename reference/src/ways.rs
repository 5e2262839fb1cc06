//! The ways of proving a goal: through which credential, by way of which middle.

use crate::sorts::{Goal, Principal};
use crate::table::{Members, Table};
use crate::Number;

/// A credential and a middle through which a goal can be proved.
#[derive(Clone, Debug, PartialEq, Eq)]
pub struct Way {
    /// The number of the credential.
    pub credential: Number,
    /// The middle.
    pub middle: Number,
    /// The goals on which it then rests, in their order; none under kind 1.
    pub premises: Vec<Goal>,
}

/// Every way of proving a goal by one of these middles, ascending by credential
/// and then by middle.
pub fn ways(table: &Table, middles: &[Principal], goal: Goal) -> Vec<Way> {
    let mut ways = Vec::new();
    for (credential, of_table) in (1..).zip(&table.credentials) {
        let middles = match of_table.members {
            Members::Linked(..) => middles.iter().map(|middle| middle.number()).collect(),
            _ => vec![0],
        };
        for middle in middles {
            if let Some(premises) = table.premises(goal, credential, middle) {
                ways.push(Way {
                    credential,
                    middle,
                    premises,
                });
            }
        }
    }
    ways
}

/// The principals of kind 1 credentials, each once, ascending.
///
/// No other principal is in any role, so no other can be a middle: some child
/// of a node that is not of kind 1 is about the node's own principal, hence
/// below every node there is a kind 1 node about its principal.
pub fn middles(table: &Table) -> Vec<Principal> {
    let credentials = table.credentials.iter();
    let members = credentials.filter_map(|credential| match credential.members {
        Members::One(member) => Some(member),
        _ => None,
    });
    let mut middles: Vec<Principal> = members.collect();
    middles.sort();
    middles.dedup();
    middles
}
