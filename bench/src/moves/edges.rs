//! Automata for any table, with none, some and all edges for which there is room.
//! Each accepts every word of the query: so what is derived is the same with them.

use bwlchareg::layout::EVERY_WORD;
use reference::generate::constraints::{defined, Role};
use reference::generate::wallets::Wallet;
use reference::random::Random;
use reference::records::{EdgeRecord, Records};
use reference::sorts::HIGHEST;
use reference::table::{EVERY_STATE, LAST_STATE};
use reference::Number;

use crate::SEED;

/// Which automata a table gets.
#[derive(Clone, Copy, Debug, PartialEq, Eq)]
pub enum Edges {
    /// None.
    None,
    /// Two that go by roles, with 8 and 7 edges.
    Some,
    /// Eight that go by roles, with 15 edges each.
    Many,
    /// Eight with 16 edges each, and every edge matches every role. There are arcs
    /// as many as edges, since no two edges of an automaton leave or enter the same
    /// state.
    Matching,
}

impl Edges {
    /// All there are.
    pub const ALL: [Edges; 4] = [Edges::None, Edges::Some, Edges::Many, Edges::Matching];

    /// How many automata and edges, in words.
    pub fn words(self) -> &'static str {
        match self {
            Edges::None => "0, 0",
            Edges::Some => "2, 15",
            Edges::Many => "8, 120",
            Edges::Matching => "8, 128 (all match)",
        }
    }

    /// Gives these automata to a table, in the place of its own, and attaches them to
    /// the credentials of a set, one to each while there are some.
    pub fn put(self, wallet: &mut Wallet, set: u32) {
        let (automaton, mut edges) = match self {
            Edges::None => ([0, 0, EVERY_WORD], Vec::new()),
            Edges::Some => ([1, 2, EVERY_WORD], all_going_by_roles(wallet, &[8, 7])),
            Edges::Many => ([1, 2, EVERY_WORD], all_going_by_roles(wallet, &[15; 8])),
            Edges::Matching => (
                [EVERY_STATE, EVERY_STATE, EVERY_WORD],
                all_matching(stranger(&wallet.records)),
            ),
        };
        Random::new(SEED).shuffle(&mut edges);
        let automata = edges.iter().map(|edge| edge[0]).max().unwrap_or(0);
        let records = &mut wallet.records;
        records.automata = vec![automaton; automata as usize];
        records.edges = edges;
        let mut automata = 1..=automata;
        for (index, credential) in records.credentials.iter_mut().enumerate() {
            let is_used = (set >> index) & 1 == 1;
            let automaton = if is_used { automata.next() } else { None };
            credential[5] = automaton.unwrap_or(0);
        }
    }
}

/// The edges of automata that have so many each.
fn all_going_by_roles(wallet: &Wallet, sizes: &[Number]) -> Vec<EdgeRecord> {
    let sized = (1..).zip(sizes);
    let edges = sized.flat_map(|(number, &size)| going_by_roles(wallet, number, size));
    edges.collect()
}

/// The edges of an automaton that has so many, 3 or more. It starts in state 0 and
/// accepts the words that begin with the goal's role, in state 1. Nearly all of its
/// edges go by one role, every other of them by one of the table's, and lead to
/// other states.
fn going_by_roles(wallet: &Wallet, number: Number, size: Number) -> Vec<EdgeRecord> {
    let goal = (wallet.query.owner, wallet.query.name);
    let roles = defined(&wallet.records);
    let exactly = |from, (owner, name): Role, to| [number, from, 1, owner, name, to];
    let [label, owner, name] = any(number, stranger(&wallet.records));
    let stays = [number, 1, label, owner, name, 1];
    let owned = [number, 0, 4, goal.0, 0, 2];
    let others = (3..size).map(|edge| {
        let from = 1 + edge / 2 % 3;
        let to = 2 + (number + 3 * edge) % (LAST_STATE - 1);
        match edge % 2 {
            0 => exactly(from, (HIGHEST - number, edge), to),
            _ => exactly(from, roles[(number + edge) as usize % roles.len()], to),
        }
    });
    let first = [exactly(0, goal, 1), owned, stays];
    first.into_iter().chain(others).collect()
}

/// The edges of eight automata that are always in all of their states: each edge
/// leads to the next state.
fn all_matching(stranger: Role) -> Vec<EdgeRecord> {
    let states = 0..=LAST_STATE;
    let edge = |number: Number, state: Number| {
        let [label, owner, name] = any(state, stranger);
        let next = (state + 1) % (LAST_STATE + 1);
        [number, state, label, owner, name, next]
    };
    let edges = (1..=8).flat_map(|number| states.clone().map(move |state| edge(number, state)));
    edges.collect()
}

/// A label with its role that matches every role of a table: by turns every role,
/// and every role but one that the table does not define.
fn any(turn: Number, stranger: Role) -> [Number; 3] {
    match turn % 2 {
        0 => [2, 0, 0],
        _ => [3, stranger.0, stranger.1],
    }
}

/// A role that a table does not define: no word has it.
fn stranger(records: &Records) -> Role {
    let defined = defined(records);
    let mut roles = (1..=HIGHEST).map(|name| (HIGHEST, name));
    let free = roles.find(|role| !defined.contains(role));
    free.expect("there are more names than credentials")
}

#[cfg(test)]
mod tests {
    use super::Edges;
    use crate::families;
    use crate::listing::Listing;
    use reference::{shop, Number};

    #[test]
    fn there_are_as_many_as_it_says() {
        for edges in Edges::ALL {
            let mut wallet = families::shop(&shop::U);
            edges.put(&mut wallet, 7);
            let head = wallet.records.head();
            let words = format!("{}, {}", head.automata, head.edges);
            assert!(edges.words().starts_with(&words), "{words}");
            let attached = wallet.records.credentials.iter().map(|record| record[5]);
            let expected: Vec<Number> = match edges {
                Edges::None => vec![0; 4],
                Edges::Some => vec![1, 2, 0, 0],
                _ => vec![1, 2, 3, 0],
            };
            assert_eq!(attached.collect::<Vec<Number>>(), expected);
        }
    }

    #[test]
    fn most_go_by_one_role_or_all_by_every_one() {
        let mut wallet = families::shop(&shop::T);
        let mut labels = |edges: Edges| {
            edges.put(&mut wallet, 0);
            let edges = &wallet.records.edges;
            [1, 2, 3, 4].map(|label| edges.iter().filter(|edge| edge[2] == label).count())
        };
        assert_eq!(labels(Edges::Some), [11, 1, 1, 2]);
        assert_eq!(labels(Edges::Many), [104, 4, 4, 8]);
        assert_eq!(labels(Edges::Matching), [0, 64, 64, 0]);
    }

    #[test]
    fn what_is_listed_stays_the_same() {
        for (what, bare) in families::growing().into_iter().take(8) {
            let sets = Listing::of(&bare).library_list().expect("a list");
            for edges in Edges::ALL {
                let mut wallet = bare.clone();
                edges.put(&mut wallet, sets[0]);
                assert_eq!(
                    Listing::of(&wallet).library_list(),
                    Ok(sets.clone()),
                    "{what}"
                );
            }
        }
    }
}
