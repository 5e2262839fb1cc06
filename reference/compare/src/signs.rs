//! What refused records are like, as far as automata and branches go.

use std::fmt;

use reference::derivation::Derivation;
use reference::generate::claims::Claim;
use reference::query::Asked;
use reference::sorts::Goal;
use reference::table::Table;
use reference::words::comply;
use reference::Refusal;

use crate::branches::branch;
use crate::dead::{self, Begun};
use crate::features::Uses;
use crate::owners::{by_owner, matching_every};
use crate::slips::{has_many_edges, Slip, LEAST, MANY};

/// A record of more numbers is not looked at.
const LONGEST: usize = 10_000;

/// Something that a refused record can have.
#[derive(Clone, Copy, Debug, PartialEq, Eq, PartialOrd, Ord)]
pub enum Sign {
    /// It is refused with 14, for an automaton that has label 4.
    ByOwner,
    /// So it is, and would not be if label 4 matched every role.
    OtherOwner,
    /// It is refused with 14, for an automaton that is dead on a word.
    Dead,
    /// It is refused with 14, for an automaton that is dead on no word.
    Alive,
    /// It is refused with 14, and the table has many edges.
    ManyEdges,
    /// So it is, and by such a slip there would be another verdict.
    Slip(Slip),
    /// It is refused with this number, 11 to 13, at a node, and before that node
    /// there is one where an automaton is dead that is used by then.
    DeadBefore(u32),
    /// It is refused with 13 for its level, and the pair is not on the branch.
    Level,
    /// It is refused with 13 for its level and for its pair.
    LevelAndPair,
    /// It is refused with 13 for its pair, which is that of the node above.
    PairRightAbove,
    /// It is refused with 13 for its pair, which is only farther above.
    PairFarAbove,
    /// So it is, and the pair is not that of the query.
    PairWithin,
    /// It is refused with 13 for its pair, and a role comes again before that.
    RoleBefore,
}

impl Sign {
    /// Every sign that there is.
    pub fn all() -> Vec<Sign> {
        let mut signs = vec![Sign::ByOwner, Sign::OtherOwner, Sign::Dead, Sign::Alive];
        signs.push(Sign::ManyEdges);
        signs.extend(Slip::MORE.map(Sign::Slip));
        signs.extend([11, 12, 13].map(Sign::DeadBefore));
        signs.extend([Sign::Level, Sign::LevelAndPair, Sign::PairRightAbove]);
        signs.extend([Sign::PairFarAbove, Sign::PairWithin, Sign::RoleBefore]);
        signs
    }

    /// How many refused records must have it at the least.
    pub fn least(self) -> u64 {
        match self {
            Sign::ManyEdges | Sign::Slip(_) => LEAST,
            _ => 1,
        }
    }

    /// The signs of a claim that is refused.
    pub fn of(claim: &Claim, refusal: Refusal) -> Vec<Sign> {
        if !(11..=14).contains(&refusal.number) || claim.record.len() > LONGEST {
            return Vec::new();
        }
        let table = Table::read(&claim.table).expect("an accepted table");
        let asked = claim.query.read().expect("a valid query");
        if refusal.number == 14 {
            return rejected(&table, asked, claim, refusal);
        }
        let mut signs = match is_dead_before(&table, asked, claim, refusal) {
            true => vec![Sign::DeadBefore(refusal.number)],
            false => vec![],
        };
        if refusal.number == 13 {
            let node = refusal.position as usize;
            let branch = branch(&table, asked, &claim.record, node);
            signs.extend(on_branch(&branch, asked.depth as usize));
        }
        signs
    }
}

/// The signs of a node that is refused with 13, by its branch.
fn on_branch(branch: &[Goal], depth: usize) -> Vec<Sign> {
    let (goal, above) = branch.split_last().expect("the node itself");
    let times = above.iter().filter(|other| *other == goal).count();
    if branch.len() > depth {
        return match times {
            0 => vec![Sign::Level],
            _ => vec![Sign::LevelAndPair],
        };
    }
    let mut signs = match above.last() == Some(goal) {
        true => vec![Sign::PairRightAbove],
        false => vec![Sign::PairFarAbove],
    };
    if above.first() != Some(goal) {
        signs.push(Sign::PairWithin);
    }
    let comes_again = |index: usize| above[..index].iter().any(|g| g.role == above[index].role);
    if (0..above.len()).any(comes_again) {
        signs.push(Sign::RoleBefore);
    }
    signs
}

/// The signs of a claim of which an automaton rejects a word.
fn rejected(table: &Table, asked: Asked, claim: &Claim, refusal: Refusal) -> Vec<Sign> {
    let derivation = Derivation::read(table, asked, &claim.record);
    let derivation = derivation.expect("a record that derives its query");
    let is_told = |automata: u32| (automata >> (refusal.position - 1)) & 1 == 1;
    let mut signs = match is_told(dead::on_words(table, &derivation)) {
        true => vec![Sign::Dead],
        false => vec![Sign::Alive],
    };
    if is_told(by_owner(table)) {
        signs.push(Sign::ByOwner);
        if comply(&matching_every(table.clone()), &derivation) != Err(refusal) {
            signs.push(Sign::OtherOwner);
        }
    }
    if has_many_edges(table) {
        let other = |slip: &Slip| comply(&slip.table(table), &derivation) != Err(refusal);
        signs.push(Sign::ManyEdges);
        signs.extend(Slip::MORE.into_iter().filter(other).map(Sign::Slip));
    }
    signs
}

/// Whether a used automaton is dead before the node at which a claim is refused.
fn is_dead_before(table: &Table, asked: Asked, claim: &Claim, refusal: Refusal) -> bool {
    if table.automata.is_empty() {
        return false;
    }
    let nodes = refusal.position as usize - 1;
    let begun = Begun::of(table, asked, &claim.record, nodes);
    Uses::of(table, begun.used_set).any_of(begun.dead)
}

impl fmt::Display for Sign {
    fn fmt(&self, out: &mut fmt::Formatter<'_>) -> fmt::Result {
        let words = match self {
            Sign::ByOwner => "refused 14 by label 4".into(),
            Sign::OtherOwner => "refused 14 for another owner's role".into(),
            Sign::Dead => "refused 14 by a dead automaton".into(),
            Sign::Alive => "refused 14 by one that is not dead".into(),
            Sign::ManyEdges => format!("refused 14, {MANY} edges or more"),
            Sign::Slip(slip) => format!("so, other {slip}"),
            Sign::DeadBefore(number) => format!("refused {number} after a dead automaton"),
            Sign::Level => "refused 13 by the level".into(),
            Sign::LevelAndPair => "refused 13 by the level and the pair".into(),
            Sign::PairRightAbove => "refused 13 by the pair right above".into(),
            Sign::PairFarAbove => "refused 13 by a pair farther above".into(),
            Sign::PairWithin => "refused 13 by a pair below the query's".into(),
            Sign::RoleBefore => "refused 13 by the pair, a role twice before".into(),
        };
        out.pad(&words)
    }
}

#[cfg(test)]
mod tests {
    use reference::generate::claims::Claim;
    use reference::generate::{clubs, full};
    use reference::records::{EdgeRecord, Records};
    use reference::shop::{Q, R, T};
    use reference::{verify, Number, Query};

    use super::Sign;
    use crate::slips::Slip;

    /// An edge of the automaton from state 0 to state 0 on the roles of an owner:
    /// Shop's or School's.
    const SHOP_S: EdgeRecord = [1, 0, 4, 1, 0, 0];
    const SCHOOL_S: EdgeRecord = [1, 0, 4, 2, 0, 0];

    /// The signs of a record for the shop's table T with an automaton of these
    /// edges, attached to credential 1, which starts and accepts in state 0.
    fn signs(edges: &[EdgeRecord], record: &[Number]) -> Vec<Sign> {
        let mut records = Records::read(&T).expect("T is accepted");
        records.credentials[0][5] = 1;
        records.automata.push([1, 1, 0]);
        records.edges.extend(edges);
        let claim = Claim {
            table: records.numbers(),
            query: Q,
            record: record.to_vec(),
        };
        let verdict = verify(&claim.table, claim.query, &claim.record);
        Sign::of(&claim, verdict.expect_err("a refusal"))
    }

    #[test]
    fn a_rejected_record_tells_by_what() {
        let by_owner = [Sign::Dead, Sign::ByOwner, Sign::OtherOwner];
        assert_eq!(signs(&[SHOP_S], &R), by_owner);
        // To state 1, which does not accept, whoever owns the role.
        let away = [1, 0, 4, 1, 0, 1];
        assert_eq!(signs(&[away], &R), [Sign::Dead, Sign::ByOwner]);
        let stay = [1, 1, 2, 0, 0, 1];
        assert_eq!(signs(&[away, stay], &R), [Sign::Alive, Sign::ByOwner]);
        assert_eq!(signs(&[stay], &R), [Sign::Dead]);
    }

    #[test]
    fn a_record_rejected_among_many_edges_tells_by_which_slips_it_would_not_be() {
        // The second way goes by the last edge, which is another automaton's now.
        let signs = |edges: Number| {
            let mut records = full::records(edges);
            records.edges[edges as usize - 1][0] = 7;
            let claim = Claim {
                table: records.numbers(),
                query: full::ASKED,
                record: full::WAYS[1].to_vec(),
            };
            let verdict = verify(&claim.table, claim.query, &claim.record);
            Sign::of(&claim, verdict.expect_err("a refusal"))
        };
        let many = [Sign::ManyEdges, Sign::Slip(Slip::Pooled)];
        let few = [Sign::Dead, Sign::ByOwner];
        assert_eq!(signs(99), few);
        assert_eq!(signs(100), [few, many].concat());
    }

    #[test]
    fn a_node_may_be_refused_after_a_dead_automaton() {
        assert_eq!(signs(&[SCHOOL_S], &R[..4]), [Sign::DeadBefore(11)]);
        assert_eq!(signs(&[SCHOOL_S], &[1, 2, 9, 0]), [Sign::DeadBefore(12)]);
        assert_eq!(signs(&[SCHOOL_S], &[9, 0]), []);
        // Before the last node there are only Shop's roles.
        assert_eq!(signs(&[SHOP_S], &R[..4]), []);
        let longer = [&R[..], &[0]].concat();
        assert_eq!(signs(&[SHOP_S], &longer), [Sign::DeadBefore(11)]);
    }

    /// The signs of a record for a club with the line 2, 3, 4 of friends, of whom
    /// the last is asked about, and within so many levels.
    fn signs_in_club(depth: Number, record: &[Number]) -> Vec<Sign> {
        let club = clubs::line(3, 1);
        let claim = Claim {
            table: club.records.numbers(),
            query: Query {
                depth,
                ..club.query
            },
            record: record.to_vec(),
        };
        let verdict = verify(&claim.table, claim.query, &claim.record);
        Sign::of(&claim, verdict.expect_err("a refusal"))
    }

    #[test]
    fn refusal_13_tells_by_what() {
        // 4 by way of 3, and 3 by way of 2.
        assert_eq!(signs_in_club(2, &[1, 3, 1, 2, 2, 0]), [Sign::Level]);
        assert_eq!(signs_in_club(16, &[1, 4, 1, 3]), [Sign::PairRightAbove]);
        // 4, 3, 4: the role comes again before the pair does.
        let back = [1, 3, 1, 4, 1, 3];
        assert_eq!(signs_in_club(2, &back), [Sign::LevelAndPair]);
        let far = [Sign::PairFarAbove, Sign::RoleBefore];
        assert_eq!(signs_in_club(3, &back), far);
        // 4, 3, 3 and 4, 3, 2, 3.
        let within = [Sign::PairRightAbove, Sign::PairWithin, Sign::RoleBefore];
        assert_eq!(signs_in_club(16, &[1, 3, 1, 3, 1, 2]), within);
        let within = [Sign::PairFarAbove, Sign::PairWithin, Sign::RoleBefore];
        assert_eq!(signs_in_club(16, &[1, 3, 1, 2, 1, 3, 1, 2]), within);
    }
}
