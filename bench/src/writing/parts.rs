//! What the tables of this part of the benchmark are made of.

use bwlchareg::layout::EVERY_WORD;
use reference::generate::shapes::OWNER;
use reference::records::{CellRecord, Records};
use reference::table::{EVERY_STATE, LAST_STATE};
use reference::Number;

/// How many roles each level of a tree has below the first, and how many times
/// a chain names each of the next level's.
#[derive(Clone, Copy)]
pub struct Tree {
    /// The number of levels.
    pub levels: Number,
    /// The roles of a level.
    pub roles: Number,
    /// How many times each is named.
    pub times: usize,
}

/// Adds a tree below the owner's role with this name: all roles but those of the
/// last level are chains of the next level's roles, and these principals are in
/// those of the last. The chains of one level share their cells.
pub fn add_tree(records: &mut Records, top: Number, tree: Tree, principals: &[Number]) {
    let mut roles = vec![top];
    for level in 1..tree.levels {
        let first = records.cells.len() as Number + 1;
        let definers = roles.iter().map(|&role| [OWNER, role, 4, first, 0, 0]);
        records.credentials.extend(definers);
        let name = top + tree.roles * level;
        roles = (name..name + tree.roles).collect();
        let named = roles.iter().flat_map(|&role| vec![role; tree.times]);
        let named: Vec<Number> = named.collect();
        records.cells.extend(chain(first, &named));
    }
    for &principal in principals {
        let members = roles.iter().map(|&role| [OWNER, role, 1, principal, 0, 0]);
        records.credentials.extend(members);
    }
}

/// The cells of a chain of the owner's roles with these names, one after the
/// other from this cell on.
pub fn chain(cell: Number, names: &[Number]) -> Vec<CellRecord> {
    let last = cell + names.len() as Number - 1;
    let next = |cell: Number| if cell == last { 0 } else { cell + 1 };
    let cells = names.iter().zip(cell..);
    cells
        .map(|(&name, cell)| [OWNER, name, next(cell)])
        .collect()
}

/// Adds an automaton of as many edges as it has states. It is always in all of
/// its states and accepts every word: so derivations are the same with it, and at
/// every node every edge is taken.
pub fn add_busy(records: &mut Records) {
    records
        .automata
        .push([EVERY_STATE, EVERY_STATE, EVERY_WORD]);
    let (automaton, states) = (records.head().automata, LAST_STATE + 1);
    let around = |state: Number| [automaton, state, 2, 0, 0, (state + 1) % states];
    records.edges.extend((0..states).map(around));
}
