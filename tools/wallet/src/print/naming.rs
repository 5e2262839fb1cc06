//! The names with which a wallet is written: those that it has, where the text
//! can have them, and new ones for all other numbers that it uses.

use std::collections::{BTreeMap, BTreeSet};

use bwlchareg::Number;

use crate::limits::NAMES;
use crate::names::Names;
use crate::table::{Body, Label, Role, Table};
use crate::tokens::{alike, is_name};
use crate::Wallet;

/// Names for every principal, role name and constraint of a wallet, no word
/// twice; and its states' names as they are.
pub fn chosen(wallet: &Wallet) -> Names {
    let given = &wallet.names;
    let used = Used::by(wallet);
    let mut taken = BTreeSet::new();
    let mut principals = kept(&given.principals, 1..=NAMES, &mut taken);
    let mut roles = kept(&given.roles, 1..=NAMES, &mut taken);
    name_others(&mut principals, &used.principals, "P", &mut taken);
    name_others(&mut roles, &used.names, "r", &mut taken);

    let automata: BTreeSet<Number> = (1..).take(wallet.table.automata.len()).collect();
    let last = automata.len() as Number;
    let mut taken = BTreeSet::new();
    let mut constraints = kept(&given.constraints, 1..=last, &mut taken);
    name_others(&mut constraints, &automata, "constraint-", &mut taken);
    Names {
        principals,
        roles,
        constraints,
        states: given.states.clone(),
    }
}

/// The names that a text can have: words that are not taken, of numbers in a
/// range.
pub fn kept(
    given: &BTreeMap<Number, String>,
    range: std::ops::RangeInclusive<Number>,
    taken: &mut BTreeSet<String>,
) -> BTreeMap<Number, String> {
    let in_range = given.iter().filter(|(number, _)| range.contains(number));
    let mut names = BTreeMap::new();
    for (number, name) in in_range {
        let differs = !taken.iter().any(|other| alike(other, name));
        if is_name(name) && differs && taken.insert(name.clone()) {
            names.insert(*number, name.clone());
        }
    }
    names
}

/// Makes names for numbers without one, of a beginning and the number; and of
/// another number after it, if that name is taken.
fn name_others(
    names: &mut BTreeMap<Number, String>,
    numbers: &BTreeSet<Number>,
    before: &str,
    taken: &mut BTreeSet<String>,
) {
    for number in numbers {
        if names.contains_key(number) {
            continue;
        }
        let mut name = format!("{before}{number}");
        let mut other = 2;
        while !taken.insert(name.clone()) {
            name = format!("{before}{number}-{other}");
            other += 1;
        }
        names.insert(*number, name);
    }
}

/// The principals and role names that a wallet uses.
#[derive(Default)]
struct Used {
    principals: BTreeSet<Number>,
    names: BTreeSet<Number>,
}

impl Used {
    fn by(wallet: &Wallet) -> Used {
        let mut used = Used::default();
        used.add_table(&wallet.table);
        if let Some(query) = wallet.query {
            used.principals.insert(query.principal);
            used.add(Role::asked(query));
        }
        used
    }

    fn add_table(&mut self, table: &Table) {
        for credential in &table.credentials {
            self.add(credential.role);
            match credential.body {
                Body::Member(principal) => {
                    self.principals.insert(principal);
                }
                Body::Contained(role) => self.add(role),
                Body::Linked { first, second } => self.names.extend([first, second]),
                Body::Parts(_) => {}
            }
        }
        table.cells.iter().for_each(|cell| self.add(cell.role));
        for edge in &table.edges {
            match edge.label {
                Label::Only(role) | Label::Not(role) => self.add(role),
                Label::Of(owner) => {
                    self.principals.insert(owner);
                }
                Label::Any => {}
            }
        }
    }

    fn add(&mut self, role: Role) {
        self.principals.insert(role.owner);
        self.names.insert(role.name);
    }
}
