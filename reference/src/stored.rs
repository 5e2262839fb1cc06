//! The cases that the test program `crates/rows` runs.
//!
//! They are for what neither a theorem nor the comparison shows: that the
//! programs which the kit's two compilers make of the proved code give the right
//! answers. So they are few and small: all rows of the shop example, then every
//! refusal, kind, label and size of buffer, a club, whose role comes again on a
//! branch, automata that share edges, and automata of both marks. Each list is
//! made with little room for cuts too, which no call of the bindings does, and
//! after it records are written for the first sets of the list and for others.
//!
//! To add a case, add a line to [`cases`], at the end of its part, and make the
//! program's two files anew, which the module [`blocks`](crate::blocks) lays
//! out:
//!
//! ```sh
//! blocks="cargo run --release --offline --quiet --package reference --bin blocks --"
//! $blocks input > crates/rows/stdin
//! $blocks output > crates/rows/stdout
//! ```
//!
//! The answers are this implementation's. `rt ci rows` then compares them with
//! those of the proved program, as each of the kit's two compilers makes it.

mod by_mark;

use crate::generate::{full, wide};
use crate::query::Query;
use crate::records::{EdgeRecord, Records};
use crate::shop::{Q, R, T, U};
use crate::Number;

/// A case: what a call is given.
#[derive(Clone, Debug, PartialEq, Eq)]
pub struct Case {
    /// The table's numbers.
    pub table: Vec<Number>,
    /// The query.
    pub query: Query,
    /// What else, by the call.
    pub given: Given,
}

/// What a call is given beside the table and the query.
#[derive(Clone, Debug, PartialEq, Eq)]
pub enum Given {
    /// The listing call: a buffer of so many cells.
    Cells(usize),
    /// The verifying call: a record.
    Record(Vec<Number>),
}

/// All cases, in their order.
pub fn cases() -> Vec<Case> {
    [
        shop(),
        lists(),
        refused_tables(),
        verdicts(),
        by_mark::lists(),
        by_mark::refused_tables(),
        by_mark::verdicts(),
    ]
    .concat()
}

fn list(table: &[Number], query: Query, cells: usize) -> Case {
    let (table, given) = (table.to_vec(), Given::Cells(cells));
    Case {
        table,
        query,
        given,
    }
}

fn verify(table: &[Number], query: Query, record: &[Number]) -> Case {
    let (table, given) = (table.to_vec(), Given::Record(record.to_vec()));
    Case {
        table,
        query,
        given,
    }
}

/// The rows of the shop example, in its order.
fn shop() -> Vec<Case> {
    let depth = |depth| Query { depth, ..Q };
    vec![
        list(&T, Q, 3),
        list(&T, depth(1), 3),
        list(&U, Q, 3),
        list(&U, Query::from_numbers([4, 2, 2, 1]), 3),
        list(&T, Q, 1),
        list(&[0, 0, 0, 0], Q, 3),
        verify(&T, Q, &R),
        verify(&U, Q, &R),
        verify(&T, depth(1), &R),
        verify(&T, Q, &[1, 2, 2, 0]),
        verify(&T, Q, &[1, 4, 2, 0, 3, 0]),
        list(&T, depth(0), 3),
        list(&T, depth(17), 3),
        verify(&T, depth(0), &R),
        verify(&T, depth(17), &R),
    ]
}

/// A wallet with every kind, and every label but 4. Principal 9 is in 1.1 by
/// credentials 1, 2, 3 and 7; by 1 to 6 too, but for automaton 2, which rejects
/// every word with 1.4. Automaton 1 accepts the words that begin with 1.1.
fn wallet() -> Records {
    Records {
        credentials: vec![
            [1, 1, 4, 1, 0, 0], // 1: whoever is in 1.2 and in 1.3 is in 1.1
            [1, 2, 2, 2, 1, 0], // 2: whoever is in 2.1 is in 1.2
            [2, 1, 1, 9, 0, 1], // 3: principal 9 is in 2.1, under automaton 1
            [1, 3, 3, 4, 5, 0], // 4: whoever is in M.5, for some M in 1.4, is in 1.3
            [1, 4, 1, 3, 0, 0], // 5: principal 3 is in 1.4
            [3, 5, 1, 9, 0, 2], // 6: principal 9 is in 3.5, under automaton 2
            [1, 3, 1, 9, 0, 0], // 7: principal 9 is in 1.3
            [1, 2, 2, 1, 1, 0], // 8: whoever is in 1.1 is in 1.2
        ],
        cells: vec![[1, 2, 2], [1, 3, 0]],
        automata: vec![[1, 2, 0], [1, 1, 0]],
        edges: vec![
            [1, 0, 1, 1, 1, 1], // of automaton 1: from 0 by 1.1 to 1
            [1, 1, 2, 0, 0, 1], // of automaton 1: from 1 by every role to 1
            [2, 0, 3, 1, 4, 0], // of automaton 2: from 0 by all but 1.4 to 0
        ],
    }
}

/// Principal 9 in 1.1, within three levels.
const ASKED: Query = Query {
    principal: 9,
    owner: 1,
    name: 1,
    depth: 3,
};

/// Principal 9 in 3.5, which is credential 6 alone.
const OWNED_BY_3: Query = Query {
    owner: 3,
    name: 5,
    ..ASKED
};

/// The wallet with a change, as numbers.
fn changed(change: impl FnOnce(&mut Records)) -> Vec<Number> {
    let mut wallet = wallet();
    change(&mut wallet);
    wallet.numbers()
}

/// The wallet with label 4: its second automaton accepts the words that have
/// roles of these owners alone. Credential 6, to which it is attached, is for a
/// role of 3.
fn owned_by(owners: &[Number]) -> Records {
    let mut wallet = wallet();
    wallet.edges.truncate(2);
    let edges = owners.iter().map(|&owner| [2, 0, 4, owner, 0, 0]);
    wallet.edges.extend(edges);
    wallet
}

/// A club whose friends' friends are its friends. Principal 6 is one of them by
/// way of 5, who is a friend of the club's, and by way of 4 too.
fn club() -> Records {
    Records {
        credentials: vec![
            [1, 2, 3, 2, 2, 0], // 1: whoever is in M.2, for some M in 1.2, is in 1.2
            [1, 2, 1, 4, 0, 0], // 2: principal 4 is in 1.2
            [4, 2, 1, 5, 0, 0], // 3: principal 5 is in 4.2
            [1, 2, 1, 5, 0, 0], // 4: principal 5 is in 1.2
            [5, 2, 1, 6, 0, 0], // 5: principal 6 is in 5.2
        ],
        cells: vec![],
        automata: vec![],
        edges: vec![],
    }
}

/// The club with a constraint on friends of friends: words of two roles at most.
fn limited_club() -> Records {
    let mut club = club();
    club.credentials[0][5] = 1;
    club.automata.push([1, 1 + 2 + 4, 0]);
    club.edges.extend([[1, 0, 2, 0, 0, 1], [1, 1, 2, 0, 0, 2]]);
    club
}

/// Principal 6 in 1.2, within three levels.
const FRIEND: Query = Query {
    principal: 6,
    owner: 1,
    name: 2,
    depth: 3,
};

/// As many edges as a block has room for beside eight credentials, eight automata
/// and a record of four nodes.
const EDGES: Number = 70;

/// Two ways by which principal 7 is in 1.1, and two automata with these edges,
/// which start in state 0 and accept in state 2. The first is for the first way,
/// and one of them for the second.
fn fork(second: Number, edges: &[EdgeRecord]) -> Records {
    Records {
        credentials: vec![
            [1, 1, 2, 1, 2, 0],      // 1: whoever is in 1.2 is in 1.1
            [1, 1, 2, 1, 3, 0],      // 2: whoever is in 1.3 is in 1.1
            [1, 2, 2, 1, 4, 1],      // 3: whoever is in 1.4 is in 1.2, under automaton 1
            [1, 3, 2, 1, 4, second], // 4: whoever is in 1.4 is in 1.3, under this one
            [1, 4, 1, 7, 0, 0],      // 5: principal 7 is in 1.4
        ],
        cells: vec![],
        automata: vec![[1, 4, 0]; 2],
        edges: edges.to_vec(),
    }
}

/// The fork under automaton 1 alone: from 9 and from 4, which are for one way
/// each, by 1.4 to 2.
fn one_for_both() -> Records {
    let begin = [[1, 0, 1, 1, 1, 1], [1, 1, 1, 1, 2, 9], [1, 1, 1, 1, 3, 4]];
    let end = [[1, 9, 1, 1, 4, 2], [1, 4, 1, 1, 4, 2]];
    fork(1, &[&begin[..], &end].concat())
}

/// The fork under an automaton for each way. Both come to 3, but only the second
/// has an edge from there: by 1.4 to 2.
fn one_for_each() -> Records {
    let first = [[1, 0, 1, 1, 1, 1], [1, 1, 1, 1, 2, 3]];
    let second = [[2, 0, 1, 1, 1, 1], [2, 1, 1, 1, 3, 3], [2, 3, 1, 1, 4, 2]];
    fork(2, &[&first[..], &second].concat())
}

/// Lists of the wallet, of the wallet without its second constraint, which has
/// two sets, and of a chain of four roles that two credentials define each; then
/// lists with label 4: of one set, of both, and of none, since the automaton is
/// dead at the goal; then lists of the club, of two sets and of one; then lists
/// under automata that share edges: of both ways, the second of which goes by the
/// last edge, of both ways of the fork, and of the second alone.
fn lists() -> Vec<Case> {
    let wallet = wallet().numbers();
    let free = changed(|wallet| wallet.credentials[5][5] = 0);
    let twice = |name| [[1, name, 1, 9, 0, 0]; 2];
    let chain = Records {
        credentials: [vec![[1, 1, 4, 1, 0, 0]], (2..=5).flat_map(twice).collect()].concat(),
        cells: vec![[1, 2, 2], [1, 3, 3], [1, 4, 4], [1, 5, 0]],
        automata: vec![],
        edges: vec![],
    };
    let nobody = Query {
        principal: 3,
        ..ASKED
    };
    vec![
        list(&wallet, ASKED, 1),
        list(&wallet, nobody, 0),
        list(&free, ASKED, 2),
        list(&free, ASKED, 4),
        list(&free, ASKED, 0),
        list(&free, ASKED, 1),
        list(&chain.numbers(), ASKED, 16),
        list(&chain.numbers(), ASKED, 15),
        list(&owned_by(&[1, 2]).numbers(), ASKED, 2),
        list(&owned_by(&[1, 2, 3]).numbers(), ASKED, 2),
        list(&owned_by(&[1, 2]).numbers(), OWNED_BY_3, 1),
        list(&club().numbers(), FRIEND, 2),
        list(&limited_club().numbers(), FRIEND, 2),
        list(&full::records(EDGES).numbers(), full::ASKED, 2),
        list(&one_for_both().numbers(), full::ASKED, 2),
        list(&one_for_each().numbers(), full::ASKED, 2),
    ]
}

/// The refusals of a table but 17 (see `by_mark`), each by one damage to the
/// wallet; label 4 with a name, with owner 0 and with owner 65, and a label that
/// does not exist.
fn refused_tables() -> Vec<Case> {
    let wallet = wallet().numbers();
    vec![
        list(&wallet[..3], ASKED, 0),
        list(&[21, 0, 0, 0], ASKED, 1),
        list(&wallet[..wallet.len() - 1], ASKED, 2),
        list(&changed(|wallet| wallet.credentials[6][3] = 65), ASKED, 2),
        list(&changed(|wallet| wallet.cells[1][2] = 2), ASKED, 2),
        list(&changed(|wallet| wallet.cells[0][2] = 0), ASKED, 2),
        list(&changed(|wallet| wallet.edges[2][2] = 4), ASKED, 2),
        verify(&changed(|wallet| wallet.edges[1][4] = 1), ASKED, &[]),
        list(&changed(|wallet| wallet.edges[1][2] = 4), ASKED, 2),
        verify(&owned_by(&[1, 65]).numbers(), ASKED, &[]),
        verify(&changed(|wallet| wallet.edges[2][2] = 5), ASKED, &[]),
    ]
}

/// Records for the wallet, and one of 85 nodes.
fn verdicts() -> Vec<Case> {
    let wallet = wallet().numbers();
    let mut cases = vec![
        verify(&wallet, ASKED, &[1, 0, 2, 0, 3, 0, 7, 0]),
        verify(&wallet, ASKED, &[1, 0, 2, 0, 3, 0, 7, 0, 1]),
        verify(&wallet, ASKED, &[1, 0, 2, 0, 3, 0, 4, 65, 5, 0, 6, 0]),
        verify(&wallet, ASKED, &[1, 0, 8, 0, 1, 0]),
        verify(&wallet, ASKED, &[1, 0, 2, 0, 3, 0, 4, 3, 5, 0, 6, 0]),
        verify(
            &wide::records(4).numbers(),
            wide::query(4),
            &wide::record(4),
        ),
    ];
    cases.extend(verdicts_by_owner());
    cases.extend(verdicts_of_the_club());
    cases.extend(verdicts_by_edge());
    cases
}

/// Records for the wallet with label 4: its automaton rejects, accepts, and is
/// dead where it is not used; then it is dead from the goal on and is used, but
/// 11, 12 and 13 come first.
fn verdicts_by_owner() -> Vec<Case> {
    let [by_7, by_6] = [
        &[1, 0, 2, 0, 3, 0, 7, 0][..],
        &[1, 0, 2, 0, 3, 0, 4, 3, 5, 0, 6, 0],
    ];
    let mut dead = owned_by(&[3]);
    dead.credentials[1][5] = 2;
    let dead = dead.numbers();
    let two_levels = Query { depth: 2, ..ASKED };
    vec![
        verify(&owned_by(&[1, 2]).numbers(), ASKED, by_6),
        verify(&owned_by(&[1, 2, 3]).numbers(), ASKED, by_6),
        verify(&owned_by(&[1]).numbers(), ASKED, by_7),
        verify(&dead, ASKED, by_7),
        verify(&dead, ASKED, &by_7[..6]),
        verify(&dead, ASKED, &[1, 0, 2, 0, 3, 0, 9, 0]),
        verify(&dead, two_levels, by_7),
    ]
}

/// Records for the club: one with its role three times on a branch, which is
/// accepted, rejected by the constraint, and too deep; then the pair of the query
/// two levels below itself, and right below.
fn verdicts_of_the_club() -> Vec<Case> {
    let club = club().numbers();
    let by_4 = [1, 5, 1, 4, 2, 0, 3, 0, 5, 0];
    let two_levels = Query { depth: 2, ..FRIEND };
    vec![
        verify(&club, FRIEND, &by_4),
        verify(&limited_club().numbers(), FRIEND, &by_4),
        verify(&club, two_levels, &by_4),
        verify(&club, FRIEND, &[1, 5, 1, 6, 1, 5, 4, 0]),
        verify(&club, FRIEND, &[1, 6, 1, 5, 4, 0]),
    ]
}

/// Records under automata that share edges: one that goes by the last edge, and
/// that of the fork's first way, to whose automaton another's edge is of no help.
fn verdicts_by_edge() -> Vec<Case> {
    vec![
        verify(&full::records(EDGES).numbers(), full::ASKED, &full::WAYS[1]),
        verify(&one_for_each().numbers(), full::ASKED, &[1, 0, 3, 0, 5, 0]),
    ]
}
