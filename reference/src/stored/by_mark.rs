//! The stored cases under automata of both marks.

use super::{list, verify, wallet, Case, ASKED};
use crate::query::Query;
use crate::records::{EdgeRecord, Records};
use crate::shop::{Q, R, U};
use crate::Number;

/// The place of U's mark.
const MARK_OF_U: usize = 30;

/// Lists under automata of mark 1: of the shop, where the mark makes no difference;
/// of chains that have to go by different credentials; of the wallet, which has
/// both sets if automaton 2 demands no more than one word.
pub fn lists() -> Vec<Case> {
    let query = Query::from_numbers([1, 1, 1, 3]);
    vec![
        list(&marked_shop(), Q, 3),
        list(&twice().numbers(), query, 2),
        list(&shared().numbers(), ASKED, 2),
        list(&marked([0, 1]).numbers(), ASKED, 2),
        list(&marked([1, 0]).numbers(), ASKED, 2),
    ]
}

/// Marks that there are not, at the second automaton, at the first, and at both;
/// then with an edge that comes first, and with a query that comes later.
pub fn refused_tables() -> Vec<Case> {
    let mut edge = marked([2, 0]);
    edge.edges[2][2] = 5;
    let no_levels = Query { depth: 0, ..ASKED };
    vec![
        list(&marked([1, 2]).numbers(), ASKED, 2),
        list(&marked([65535, 1]).numbers(), ASKED, 2),
        verify(&marked([2, 2]).numbers(), ASKED, &[]),
        list(&edge.numbers(), ASKED, 2),
        list(&marked([2, 0]).numbers(), no_levels, 2),
    ]
}

/// Records under automata of both marks: one word is enough; automaton 2 is not met
/// under mark 1, while automaton 1 is under mark 0; the other way round; neither is
/// met; automaton 2 of mark 1 is not asked; and the shop's, which no word meets.
pub fn verdicts() -> Vec<Case> {
    let [by_7, by_6] = [
        &[1, 0, 2, 0, 3, 0, 7, 0][..],
        &[1, 0, 2, 0, 3, 0, 4, 3, 5, 0, 6, 0],
    ];
    vec![
        verify(&marked([0, 1]).numbers(), ASKED, by_6),
        verify(&marked_and_shut([0, 1], &[2]), ASKED, by_6),
        verify(&marked([1, 0]).numbers(), ASKED, by_6),
        verify(&marked_and_shut([1, 0], &[1]), ASKED, by_6),
        verify(&marked_and_shut([0, 1], &[2]), ASKED, by_7),
        verify(&marked_shop(), Q, &R),
    ]
}

/// Table U with mark 1. Its automaton rejects every word that begins with
/// Shop.discount, so no word of the record R meets it.
fn marked_shop() -> Vec<Number> {
    let mut table = U.to_vec();
    table[MARK_OF_U] = 1;
    table
}

/// A chain that names a role twice. The goal's credential demands a word through
/// 1.3, and that of 1.3 one through 1.4, so the two children have to go by different
/// credentials.
fn twice() -> Records {
    Records {
        credentials: vec![
            [1, 1, 4, 1, 0, 1], // 1: whoever is in 1.2, twice, is in 1.1, under automaton 1
            [1, 2, 2, 1, 3, 0], // 2: whoever is in 1.3 is in 1.2
            [1, 2, 2, 1, 4, 0], // 3: whoever is in 1.4 is in 1.2
            [1, 3, 1, 1, 0, 2], // 4: principal 1 is in 1.3, under automaton 2
            [1, 4, 1, 1, 0, 0], // 5: principal 1 is in 1.4
        ],
        cells: vec![[1, 2, 2], [1, 2, 0]],
        automata: vec![[1, 2, 1], [1, 2, 1]],
        edges: [through(1, 3), through(2, 4)].concat(),
    }
}

/// The edges of an automaton that accepts the words through a role of principal 1:
/// it starts in state 0 and accepts in state 1.
fn through(automaton: Number, name: Number) -> Vec<EdgeRecord> {
    vec![
        [automaton, 0, 2, 0, 0, 0],
        [automaton, 0, 1, 1, name, 1],
        [automaton, 1, 2, 0, 0, 1],
    ]
}

/// A chain that names a role three times, by membership or through 1.3. Some word
/// has to end in 1.2, as automaton 1 demands, and some to pass through 1.3, as
/// automaton 2 demands. The first record has the word through 1.3 in its last
/// child. To ask the demanded words of the children in a fixed order, the first
/// child first or the last child first, gives a later record.
fn shared() -> Records {
    let ends = [[1, 0, 2, 0, 0, 0], [1, 0, 1, 1, 2, 1]];
    Records {
        credentials: vec![
            [1, 1, 4, 1, 0, 2], // 1: whoever is in 1.2, thrice, is in 1.1, under automaton 2
            [1, 4, 1, 9, 0, 0], // 2: principal 9 is in 1.4, which nothing asks for
            [1, 2, 1, 9, 0, 0], // 3: principal 9 is in 1.2
            [1, 2, 2, 1, 3, 0], // 4: whoever is in 1.3 is in 1.2
            [1, 3, 1, 9, 0, 1], // 5: principal 9 is in 1.3, under automaton 1
        ],
        cells: vec![[1, 2, 2], [1, 2, 3], [1, 2, 0]],
        automata: vec![[1, 2, 1], [1, 2, 1]],
        edges: [&ends[..], &through(2, 3)].concat(),
    }
}

/// The wallet with these marks. By credentials 1 to 6 it has words with 1.4, which
/// automaton 2 rejects, and others.
fn marked(marks: [Number; 2]) -> Records {
    let mut wallet = wallet();
    for (automaton, mark) in wallet.automata.iter_mut().zip(marks) {
        automaton[2] = mark;
    }
    wallet
}

/// The same, where these automata accept no word: they are only for words that
/// begin with another role than 1.1.
fn marked_and_shut(marks: [Number; 2], shut: &[Number]) -> Vec<Number> {
    let mut wallet = marked(marks);
    if shut.contains(&1) {
        wallet.edges[0] = [1, 0, 3, 1, 1, 1];
    }
    if shut.contains(&2) {
        wallet.edges[2] = [2, 0, 3, 1, 1, 0];
    }
    wallet.numbers()
}
