//! What comes again on the branches of a record.

use reference::derivation::{Derivation, NODE};
use reference::query::Asked;
use reference::sorts::Goal;
use reference::table::Table;
use reference::Number;

/// A role that comes so often on a branch comes often.
pub const OFTEN: usize = 6;

/// How often something comes on one branch at the most.
#[derive(Clone, Copy, Debug, Default, PartialEq, Eq)]
pub struct Again {
    /// A role.
    pub role: usize,
    /// A principal.
    pub principal: usize,
}

impl Again {
    /// On the branches of a derivation.
    pub fn of(derivation: &Derivation) -> Again {
        let mut again = Again::default();
        again.look(derivation, &mut Vec::new());
        again
    }

    /// On those that go on from these goals.
    fn look(&mut self, derivation: &Derivation, branch: &mut Vec<Goal>) {
        let Goal { principal, role } = derivation.goal;
        branch.push(derivation.goal);
        let roles = branch.iter().filter(|goal| goal.role == role).count();
        let principals = branch.iter().filter(|goal| goal.principal == principal);
        self.role = self.role.max(roles);
        self.principal = self.principal.max(principals.count());
        for premise in &derivation.premises {
            self.look(premise, branch);
        }
        branch.pop();
    }
}

/// The branch of a node of a record, from 1, both ends included. All nodes
/// before it are right.
pub fn branch(table: &Table, asked: Asked, record: &[Number], node: usize) -> Vec<Goal> {
    let mut open = vec![vec![asked.goal]];
    for numbers in record.chunks_exact(NODE).take(node - 1) {
        let branch = open.pop().expect("a goal for every node");
        let goal = branch[branch.len() - 1];
        let premises = table.premises(goal, numbers[0], numbers[1]);
        let premises = premises.expect("a node that is right").into_iter();
        let below = |premise: Goal| [&branch[..], &[premise]].concat();
        open.extend(premises.rev().map(below));
    }
    open.pop().expect("a goal for the node")
}

#[cfg(test)]
mod tests {
    use reference::derivation::Derivation;
    use reference::query::Query;
    use reference::records::Records;
    use reference::table::Table;
    use reference::Number;

    use super::{branch, Again};

    /// A club: 4 is its friend, 5 the friend of 4, and 6 that of 5.
    fn club() -> Table {
        let friendships = [[1, 4], [4, 5], [5, 6]].map(|[one, other]| [one, 2, 1, other, 0, 0]);
        let records = Records {
            credentials: [&[[1, 2, 3, 2, 2, 0]], &friendships[..]].concat(),
            cells: vec![],
            automata: vec![],
            edges: vec![],
        };
        Table::read(&records.numbers()).expect("an accepted table")
    }

    #[test]
    fn a_club_s_role_comes_again() {
        let asked = Query::from_numbers([6, 1, 2, 3]).read().expect("valid");
        let record = [1, 5, 1, 4, 2, 0, 3, 0, 4, 0];
        let derivation = Derivation::read(&club(), asked, &record).expect("a right record");
        let (role, principal) = (3, 2);
        assert_eq!(Again::of(&derivation), Again { role, principal });
        let branches = [1, 2, 3, 4, 5].map(|node| branch(&club(), asked, &record, node));
        let people = branches.map(|goals| {
            let people = goals.iter().map(|goal| goal.principal.number());
            people.collect::<Vec<Number>>()
        });
        let expected: [Vec<Number>; 5] = [
            vec![6],
            vec![6, 5],
            vec![6, 5, 4],
            vec![6, 5, 5],
            vec![6, 6],
        ];
        assert_eq!(people, expected);
    }
}
