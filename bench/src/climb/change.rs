//! Small changes of wallets that keep them valid.

use reference::generate::constraints::{self, Constraint};
use reference::generate::wallets::Wallet;
use reference::query::DEEPEST;
use reference::random::Random;
use reference::records::{CredentialRecord, Head};
use reference::sorts::HIGHEST;
use reference::table::LAST_STATE;
use reference::Number;

use crate::listing::library_query;

/// At most so many small changes are made at once.
const AT_ONCE: Number = 3;
/// One in so many numbers is any, and the others are in the wallet already.
const ANY: usize = 8;

/// Whether wallets have automata.
#[derive(Clone, Copy, Debug, PartialEq, Eq)]
pub enum Automata {
    /// They have none.
    Without,
    /// They may have some.
    With,
}

/// Another wallet, a few small changes away, that the library accepts.
pub fn changed(random: &mut Random, wallet: &Wallet, automata: Automata) -> Wallet {
    loop {
        let mut changed = wallet.clone();
        for _ in 0..random.between(1, AT_ONCE) {
            change(random, &mut changed, automata);
        }
        if changed != *wallet && is_valid(&changed) {
            return changed;
        }
    }
}

/// Whether the library accepts a wallet's table and its query.
pub fn is_valid(wallet: &Wallet) -> bool {
    let query = library_query(wallet.query);
    bwlchareg::check_query(&wallet.records.numbers(), query).is_ok()
}

/// Makes a small change, after which the wallet may not be valid.
fn change(random: &mut Random, wallet: &mut Wallet, automata: Automata) {
    match random.below(16) {
        0..=5 => change_credential(random, wallet),
        6 => add_credential(random, wallet),
        7 => remove_credential(random, wallet),
        8 => swap_credentials(random, wallet),
        9 => change_cell(random, wallet),
        10 => add_chain(random, wallet),
        11 => change_query(random, wallet),
        _ if automata == Automata::With => change_automata(random, wallet),
        _ => change_credential(random, wallet),
    }
}

/// The principals or the names of a wallet, from which new ones are mostly
/// drawn: so that credentials go on having to do with each other.
struct Numbers(Vec<Number>);

impl Numbers {
    fn principals(wallet: &Wallet) -> Numbers {
        let mut numbers = vec![wallet.query.principal, wallet.query.owner];
        for &[owner, _, kind, first, ..] in &wallet.records.credentials {
            numbers.push(owner);
            numbers.extend((kind <= 2).then_some(first));
        }
        Numbers(numbers)
    }

    fn names(wallet: &Wallet) -> Numbers {
        let mut numbers = vec![wallet.query.name];
        for &[_, name, kind, first, second, _] in &wallet.records.credentials {
            numbers.push(name);
            numbers.extend((kind == 3).then_some(first));
            numbers.extend((kind == 2 || kind == 3).then_some(second));
        }
        numbers.extend(wallet.records.cells.iter().map(|cell| cell[1]));
        Numbers(numbers)
    }

    fn one(&self, random: &mut Random) -> Number {
        match random.one_in(ANY) {
            true => random.between(1, HIGHEST),
            false => *random.pick(&self.0),
        }
    }
}

/// Changes a credential: its role, or who is in it, by the same kind or by
/// another.
fn change_credential(random: &mut Random, wallet: &mut Wallet) {
    let principal = Numbers::principals(wallet).one(random);
    let name = Numbers::names(wallet).one(random);
    let kind = random.between(1, 4);
    let members = members(random, wallet, kind);
    let credential = random.pick_mut(&mut wallet.records.credentials);
    match random.below(6) {
        0 => credential[0] = principal,
        1 => credential[1] = name,
        2 => credential[2..5].copy_from_slice(&members),
        3 if credential[2] == 3 => credential[3] = name,
        3 if credential[2] == 4 => credential[3] = members[1],
        3 => credential[3] = principal,
        4 if credential[2] == 2 || credential[2] == 3 => credential[4] = name,
        _ => [credential[0], credential[1]] = [principal, name],
    }
}

/// A kind, and who is in a role by it.
fn members(random: &mut Random, wallet: &Wallet, kind: Number) -> [Number; 3] {
    let principals = Numbers::principals(wallet);
    let names = Numbers::names(wallet);
    match kind {
        1 => [1, principals.one(random), 0],
        2 => [2, principals.one(random), names.one(random)],
        3 => [3, names.one(random), names.one(random)],
        _ => [4, random.between(1, wallet.records.head().cells.max(1)), 0],
    }
}

/// Adds a credential that defines a role of the wallet, anywhere.
fn add_credential(random: &mut Random, wallet: &mut Wallet) {
    if wallet.records.head().credentials == Head::LIMITS.credentials {
        return change_credential(random, wallet);
    }
    let [owner, name, ..] = *random.pick(&wallet.records.credentials);
    let kind = random.between(1, 4);
    let [kind, first, second] = members(random, wallet, kind);
    let credential: CredentialRecord = [owner, name, kind, first, second, 0];
    let place = random.below(wallet.records.credentials.len() + 1);
    wallet.records.credentials.insert(place, credential);
}

/// Removes a credential, unless it is the only one.
fn remove_credential(random: &mut Random, wallet: &mut Wallet) {
    let credentials = &mut wallet.records.credentials;
    if credentials.len() > 1 {
        credentials.remove(random.below(credentials.len()));
    }
}

/// Exchanges the numbers of two credentials.
fn swap_credentials(random: &mut Random, wallet: &mut Wallet) {
    let credentials = &mut wallet.records.credentials;
    let [one, other] = [0; 2].map(|_| random.below(credentials.len()));
    credentials.swap(one, other);
}

/// Changes a part's role, or where its chain goes on.
fn change_cell(random: &mut Random, wallet: &mut Wallet) {
    if wallet.records.cells.is_empty() {
        return add_chain(random, wallet);
    }
    let principal = Numbers::principals(wallet).one(random);
    let name = Numbers::names(wallet).one(random);
    let next = random.between(0, wallet.records.head().cells);
    let cell = random.pick_mut(&mut wallet.records.cells);
    match random.below(4) {
        0 => cell[0] = principal,
        1 | 2 => cell[1] = name,
        _ => cell[2] = next,
    }
}

/// Gives a credential a chain of 2 to 4 new parts.
fn add_chain(random: &mut Random, wallet: &mut Wallet) {
    let parts = random.between(2, 4);
    let first = wallet.records.head().cells + 1;
    let last = first + parts - 1;
    if last > Head::LIMITS.cells {
        return;
    }
    let principals = Numbers::principals(wallet);
    let names = Numbers::names(wallet);
    for cell in first..=last {
        let next = if cell == last { 0 } else { cell + 1 };
        let part = [principals.one(random), names.one(random), next];
        wallet.records.cells.push(part);
    }
    let credential = random.pick_mut(&mut wallet.records.credentials);
    credential[2..5].copy_from_slice(&[4, first, 0]);
}

/// Changes the query.
fn change_query(random: &mut Random, wallet: &mut Wallet) {
    let [owner, name, ..] = *random.pick(&wallet.records.credentials);
    match random.below(4) {
        0 => wallet.query.principal = Numbers::principals(wallet).one(random),
        1 => [wallet.query.owner, wallet.query.name] = [owner, name],
        2 => wallet.query.depth = random.between(1, DEEPEST),
        _ => wallet.query.depth = DEEPEST,
    }
}

/// Changes an automaton, an edge, or what is attached to a credential.
fn change_automata(random: &mut Random, wallet: &mut Wallet) {
    let automata = wallet.records.head().automata;
    match random.below(6) {
        _ if automata == 0 => add_automaton(random, wallet),
        0 => add_automaton(random, wallet),
        1 | 2 => {
            let number = random.between(0, automata);
            random.pick_mut(&mut wallet.records.credentials)[5] = number;
        }
        3 => {
            let state = 1 << random.between(0, LAST_STATE);
            let [starting, accepting, _] = random.pick_mut(&mut wallet.records.automata);
            **random.pick_mut(&mut [starting, accepting]) ^= state;
        }
        4 => add_edge(random, wallet, automata),
        _ => change_edge(random, wallet),
    }
}

/// Adds an automaton if there is room, and attaches it to a credential.
fn add_automaton(random: &mut Random, wallet: &mut Wallet) {
    let roles = constraints::defined(&wallet.records);
    let constraint = Constraint::any(random, &roles);
    if let Some(number) = constraints::add(random, &mut wallet.records, &constraint) {
        random.pick_mut(&mut wallet.records.credentials)[5] = number;
    }
}

/// Adds an edge on every role to one of so many automata.
fn add_edge(random: &mut Random, wallet: &mut Wallet, automata: Number) {
    if wallet.records.head().edges < Head::LIMITS.edges {
        let automaton = random.between(1, automata);
        let [from, to] = [0; 2].map(|_| random.between(0, LAST_STATE));
        wallet.records.edges.push([automaton, from, 2, 0, 0, to]);
    }
}

/// Changes a state of an edge or its label, or removes it.
fn change_edge(random: &mut Random, wallet: &mut Wallet) {
    let edges = &mut wallet.records.edges;
    if edges.is_empty() {
        return;
    }
    let index = random.below(edges.len());
    let state = random.between(0, LAST_STATE);
    let [owner, name, ..] = *random.pick(&wallet.records.credentials);
    match random.below(6) {
        0 => edges[index][1] = state,
        1 => edges[index][5] = state,
        2 => edges[index][2..5].copy_from_slice(&[2, 0, 0]),
        3 => {
            let label = *random.pick(&[1, 3]);
            edges[index][2..5].copy_from_slice(&[label, owner, name]);
        }
        4 => edges[index][2..5].copy_from_slice(&[4, owner, 0]),
        _ => {
            edges.remove(index);
        }
    }
}

#[cfg(test)]
mod tests {
    use super::{changed, is_valid, Automata};
    use crate::families;
    use reference::generate::wallets::Wallet;
    use reference::random::Random;
    use reference::{shop, Number};
    use std::collections::BTreeSet;

    /// The wallets that come one after the other, change by change.
    fn several(seed: u64, count: usize, automata: Automata) -> Vec<Wallet> {
        let mut random = Random::new(seed);
        let mut wallets = vec![families::sixteen_levels()];
        for _ in 0..count {
            let last = &wallets[wallets.len() - 1];
            let next = changed(&mut random, last, automata);
            assert_ne!(next, *last);
            wallets.push(next);
        }
        wallets
    }

    #[test]
    fn changed_wallets_are_valid() {
        for automata in [Automata::Without, Automata::With] {
            assert!(several(1, 1_000, automata).iter().all(is_valid));
        }
    }

    #[test]
    fn the_same_seed_makes_the_same_changes() {
        let two = [3, 3].map(|seed| several(seed, 200, Automata::With));
        assert_eq!(two[0], two[1]);
        assert_ne!(two[0], several(4, 200, Automata::With));
    }

    #[test]
    fn automata_come_only_where_they_may() {
        let some = |wallet: &Wallet| wallet.records.head().automata > 0;
        assert!(!several(1, 500, Automata::Without).iter().any(some));
        assert!(several(1, 500, Automata::With).iter().any(some));
    }

    #[test]
    fn edges_get_every_label() {
        let wallets = several(1, 1_000, Automata::With);
        let edges = wallets.iter().flat_map(|wallet| &wallet.records.edges);
        let labels: BTreeSet<Number> = edges.map(|edge| edge[2]).collect();
        assert!(labels.into_iter().eq(1..=4));
    }

    #[test]
    fn every_part_of_a_wallet_changes() {
        let wallets = several(1, 1_000, Automata::With);
        let differ =
            |part: fn(&Wallet) -> Vec<Number>| wallets.iter().any(|w| part(w) != part(&wallets[0]));
        assert!(differ(|wallet| wallet.query.numbers().to_vec()));
        assert!(differ(|wallet| wallet.records.cells.concat()));
        assert!(differ(|wallet| wallet.records.edges.concat()));
        let sizes = wallets
            .iter()
            .map(|wallet| wallet.records.head().credentials);
        let (fewest, most) = (sizes.clone().min(), sizes.max());
        assert!(fewest < Some(16) && most > Some(16), "{fewest:?} {most:?}");
        assert!(is_valid(&families::shop(&shop::T)));
    }
}
