//! Which automata are dead, that is, in no state at all, where a record is read.
//!
//! A dead automaton stays dead, so whatever is dead at a node is so on every word
//! that goes on from there.

use reference::derivation::{Derivation, NODE};
use reference::query::Asked;
use reference::table::Table;
use reference::words::Standing;
use reference::Number;

/// The automata that are dead on some word of a derivation: automaton i counts
/// 2^(i-1).
pub fn on_words(table: &Table, derivation: &Derivation) -> u32 {
    match table.automata.is_empty() {
        true => 0,
        false => below(table, derivation, &Standing::start(table)),
    }
}

/// The same for a part of a derivation, above which the automata stand so.
fn below(table: &Table, derivation: &Derivation, above: &Standing) -> u32 {
    let standing = above.after(table, derivation.goal.role);
    let premises = derivation.premises.iter();
    premises.fold(standing.dead(), |dead, premise| {
        dead | below(table, premise, &standing)
    })
}

/// What the first nodes of a record have come to.
#[derive(Clone, Copy, Debug, Default, PartialEq, Eq)]
pub struct Begun {
    /// The credentials that they use: credential i counts 2^(i-1).
    pub used_set: u32,
    /// The automata that are dead at one of them: automaton i counts 2^(i-1).
    pub dead: u32,
}

impl Begun {
    /// So many nodes at the front of a record, all of which are right.
    pub fn of(table: &Table, asked: Asked, record: &[Number], nodes: usize) -> Begun {
        let mut begun = Begun::default();
        let mut open = vec![(asked.goal, Standing::start(table))];
        for node in record.chunks_exact(NODE).take(nodes) {
            let (goal, above) = open.pop().expect("a goal for every node");
            let premises = table.premises(goal, node[0], node[1]);
            let standing = above.after(table, goal.role);
            begun.used_set |= 1 << (node[0] - 1);
            begun.dead |= standing.dead();
            let premises = premises.expect("a node that is right").into_iter();
            open.extend(premises.rev().map(|premise| (premise, standing.clone())));
        }
        begun
    }
}

#[cfg(test)]
mod tests {
    use reference::derivation::Derivation;
    use reference::records::Records;
    use reference::shop::{Q, R, T};
    use reference::table::Table;
    use reference::Number;

    use super::{on_words, Begun};

    /// The shop's table T with two automata: 1 wants nothing but Shop's roles,
    /// 2 nothing but School's.
    fn owners() -> Table {
        let mut records = Records::read(&T).expect("T is accepted");
        records.automata.extend([[1, 1, 0]; 2]);
        records
            .edges
            .extend([[1, 0, 4, 1, 0, 0], [2, 0, 4, 2, 0, 0]]);
        Table::read(&records.numbers()).expect("an accepted table")
    }

    #[test]
    fn automata_are_dead_from_a_role_on_that_they_do_not_match() {
        let (table, asked) = (owners(), Q.read().expect("Q is valid"));
        let dead = |record: &[Number]| {
            let derivation = Derivation::read(&table, asked, record);
            on_words(&table, &derivation.expect("a right record"))
        };
        // Shop.discount; the same, then School.student on the second branch.
        assert_eq!(dead(&[4, 0]), 2);
        assert_eq!(dead(&R), 1 + 2);
    }

    #[test]
    fn first_nodes_have_what_is_read_so_far() {
        let (table, asked) = (owners(), Q.read().expect("Q is valid"));
        let begun = [0, 1, 2, 3].map(|nodes| Begun::of(&table, asked, &R, nodes));
        let expected = [(0, 0), (1, 2), (3, 2), (7, 1 + 2)];
        let expected = expected.map(|(used_set, dead)| Begun { used_set, dead });
        assert_eq!(begun, expected);
    }
}
