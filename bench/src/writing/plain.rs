//! Tables with one derivation each, of 1, about 10, about 1,000 and about
//! 100,000 nodes: each role has one definer, and each link one middle.

use reference::generate::shapes::{self, from_records as wallet, Way, GOAL, MEMBER};
use reference::generate::wallets::Wallet;
use reference::records::Head;
use reference::Number;

use super::parts::{add_busy, add_tree, Tree};
use crate::families::Named;

/// The tables, the shortest records first.
pub fn tables() -> Vec<Named> {
    let few = [line(1), line(10), chains(3, 3), ladder(3)];
    let thousand = [
        chains(2, 10),
        chains(3, 7),
        chains(4, 6),
        twice(6),
        ladder(9),
    ];
    let many = [
        chains(2, 16),
        chains(3, 11),
        chains(4, 9),
        twice(9),
        ladder(15),
    ];
    [&few[..], &thousand, &many].concat()
}

/// So many credentials, each but the last of which contains the next one's
/// role. A line of one is a membership.
fn line(credentials: Number) -> Named {
    let what = format!("line of {credentials}");
    (what, shapes::ways(&[credentials], Way::Line))
}

/// A ladder on which there is nobody else to be tried as a middle than the one
/// who leads on.
fn ladder(rungs: Number) -> Named {
    let what = format!("ladder of {rungs} of kind 3, people 1");
    (what, shapes::rungs(rungs, 1))
}

/// A role on each of so many levels, of which each but the last is a chain of so
/// many times the next.
fn chains(times: usize, levels: Number) -> Named {
    let what = format!("chains of one role {times} times, levels {levels}");
    let tree = Tree {
        levels,
        roles: 1,
        times,
    };
    (what, only(tree))
}

/// The goal, and two roles on each level below it; all but the last level's are
/// chains of the next level's two roles, each named twice.
fn twice(levels: Number) -> Named {
    let what = format!("chains of two roles twice, levels {levels}");
    let tree = Tree {
        levels,
        roles: 2,
        times: 2,
    };
    (what, only(tree))
}

/// The table of one tree, with the goal on top.
fn only(tree: Tree) -> Wallet {
    let mut wallet = wallet(Vec::new(), Vec::new());
    add_tree(&mut wallet.records, GOAL, tree, &[MEMBER]);
    wallet
}

/// The same table with all automata and edges for which there is room, on its
/// first credentials.
pub fn constrained(mut wallet: Wallet) -> Wallet {
    let automata = 1..=Head::LIMITS.automata;
    for _ in automata.clone() {
        add_busy(&mut wallet.records);
    }
    for (credential, automaton) in wallet.records.credentials.iter_mut().zip(automata) {
        credential[5] = automaton;
    }
    wallet
}
