//! Tables of eight automata and of up to as many edges as a table may have, in
//! which the last edge makes the list what it is.

use crate::generate::constraints::{but, one, owned, Role, EVERY};
use crate::query::Query;
use crate::records::{AutomatonRecord, CredentialRecord, EdgeRecord, Head, Records};
use crate::table::LAST_STATE;
use crate::Number;

/// How many roles a word has, and so how many edges a path.
const ROLES: Number = 4;
/// How many automata there are.
const AUTOMATA: Number = Head::LIMITS.automata;
/// How many edges all automata need for a path each.
pub const FEWEST: Number = ROLES * AUTOMATA;

/// Principal 7 in 1.1, within four levels.
pub const ASKED: Query = Query {
    principal: 7,
    owner: 1,
    name: 1,
    depth: ROLES,
};

/// The records of the two ways to it.
pub const WAYS: [[Number; 8]; 2] = [[1, 0, 3, 0, 5, 0, 7, 0], [2, 0, 4, 0, 6, 0, 8, 0]];

/// The table with so many edges, 32 to 128. Principal 7 is in 1.1 by two ways: by
/// 1.2, 1.3 and 1.4, and by 2.2, 2.3 and 2.4. Each credential has an automaton of
/// its own with a path along the word of its way. Before these paths stand those
/// of the next three automata, which have equal edges, as many as there is room
/// for. The last edge is the end of the last automaton's path, without which the
/// second way is shut.
pub fn records(edges: Number) -> Records {
    let others = (1..=3).flat_map(|ahead| (1..=AUTOMATA).flat_map(move |of| path(of, of + ahead)));
    let own = (1..=AUTOMATA).flat_map(|of| path(of, of));
    let room = (edges - FEWEST) as usize;
    Records {
        credentials: (1..=AUTOMATA).map(credential).collect(),
        cells: Vec::new(),
        automata: (1..=AUTOMATA).map(automaton).collect(),
        edges: others.take(room).chain(own).collect(),
    }
}

/// The roles of the way on which the credential with this number lies, and its
/// automaton.
fn way(number: Number) -> [Role; ROLES as usize] {
    let owner = 2 - number % 2;
    [(1, 1), (owner, 2), (owner, 3), (owner, 4)]
}

/// The credential with this number, which has the automaton with this number.
fn credential(number: Number) -> CredentialRecord {
    let way = way(number);
    let step = (number - 1) as usize / 2;
    let (owner, name) = way[step];
    match way.get(step + 1) {
        Some(next) => [owner, name, 2, next.0, next.1, number],
        None => [owner, name, 1, ASKED.principal, 0, number],
    }
}

/// Where the path of an automaton is after so many roles: often lower than
/// before.
fn state(number: Number, roles: Number) -> Number {
    (3 * number + 5 * roles) % (LAST_STATE + 1)
}

/// The automaton with this number, which accepts at the end of its path. A record
/// has one word, so the mark makes no difference.
fn automaton(number: Number) -> AutomatonRecord {
    let [starting, accepting] = [0, ROLES].map(|roles| 1 << state(number, roles));
    [starting, accepting, 0]
}

/// The path of an automaton, counted on from the first if there is none with this
/// number, as edges of another or its own. It has every label.
fn path(of: Number, number: Number) -> impl Iterator<Item = EdgeRecord> {
    let number = (number - 1) % AUTOMATA + 1;
    let other_end = way(number + 1)[ROLES as usize - 1];
    (0..).zip(way(number)).map(move |(roles, role)| {
        let [label, owner, name] = match (number + roles) % 4 {
            0 => one(role),
            1 => EVERY,
            2 => but(other_end),
            _ => owned(role.0),
        };
        let [from, to] = [roles, roles + 1].map(|roles| state(number, roles));
        [of, from, label, owner, name, to]
    })
}
