//! Wallets in which a set that does not comply can be mended by adding to it.
//!
//! The goal rests on several roles. The principal is in each of them by itself,
//! and whoever is in one of them is often in another. So the same credentials,
//! with a few more, have derivations with longer words: if the shortest words
//! are rejected, a larger set may do.

use crate::generate::constraints::{self, Constraint};
use crate::generate::wallets::Wallet;
use crate::generate::{marks, policies, valid};
use crate::query::{Query, DEEPEST};
use crate::random::Random;
use crate::records::{CredentialRecord, Head, Records};
use crate::Number;

/// A wallet of this kind, with one automaton or two.
pub fn made_up(random: &mut Random) -> Wallet {
    let [principal, owner] = [0; 2].map(|_| valid::one_to_highest(random));
    let parts = random.between(2, 4);
    let names = policies::distinct(random, parts + 1);
    let (name, parts) = names.split_first().expect("a name for the goal");
    let nexts = (2..=parts.len() as Number).chain([0]);
    let cells = parts.iter().zip(nexts);
    let mut records = Records {
        credentials: credentials(random, principal, owner, *name, parts),
        cells: cells.map(|(&part, next)| [owner, part, next]).collect(),
        automata: Vec::new(),
        edges: Vec::new(),
    };
    for _ in 0..random.between(1, 2) {
        constrain(random, &mut records);
    }
    marks::draw(random, &mut records);
    let depth = *random.pick(&[2, 3, 4, 5, DEEPEST]);
    let query = Query {
        principal,
        owner,
        name: *name,
        depth,
    };
    Wallet { records, query }
}

/// The goal's credential, a member for each part, and ways from part to part,
/// in any order.
fn credentials(
    random: &mut Random,
    principal: Number,
    owner: Number,
    name: Number,
    parts: &[Number],
) -> Vec<CredentialRecord> {
    let mut credentials = vec![[owner, name, 4, 1, 0, 0]];
    for &part in parts {
        credentials.push([owner, part, 1, principal, 0, 0]);
        for &other in parts {
            if other != part && !random.one_in(3) {
                credentials.push([owner, part, 2, owner, other, 0]);
            }
        }
    }
    credentials.truncate(Head::LIMITS.credentials as usize);
    random.shuffle(&mut credentials);
    credentials
}

/// Attaches an automaton to one of the credentials. Half of the time it counts
/// the roles of a word.
fn constrain(random: &mut Random, records: &mut Records) {
    let roles = constraints::defined(records);
    let constraint = match random.below(2) {
        0 => Constraint::even_or_odd(random),
        _ => Constraint::any(random, &roles),
    };
    let number = constraints::add(random, records, &constraint);
    let chosen = random.below(records.credentials.len());
    records.credentials[chosen][5] = number.unwrap_or(0);
}
