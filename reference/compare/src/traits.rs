//! What written records are like.

use std::fmt;
use std::rc::Rc;

use reference::ascending::Ascending;
use reference::derivation::{Derivation, NODE};
use reference::generate::listings::Listing;
use reference::pairs::{is_in, Witness};
use reference::patience::Patience;
use reference::query::{Asked, DEEPEST};
use reference::sorts::Goal;
use reference::table::{Members, Table};
use reference::ways::middles;
use reference::writing::First;
use reference::Number;

use crate::branches::{Again, OFTEN};
use crate::dead;
use crate::features::Uses;
use crate::owners::by_owner;
use crate::slips::{has_many_edges, rejecting, Slip, LEAST, MANY};

/// A record of so many levels and more is a deep one.
const DEEP: usize = 4;
/// So many steps are made to know whether somebody is in a role.
const STEPS: u64 = 10_000;

/// Something that a written record can be or have.
#[derive(Clone, Copy, Debug, PartialEq, Eq, PartialOrd, Ord)]
pub enum Trait {
    /// A credential of this kind is used.
    Kind(Number),
    /// A used credential has an automaton.
    Automaton,
    /// It has one with label 4.
    ByOwner,
    /// An automaton that is not used is dead on a word.
    DeadAutomaton,
    /// There are four levels or more.
    Deep,
    /// There are sixteen levels.
    SixteenLevels,
    /// There are more than 65,535 numbers.
    Long,
    /// A node has the same derivation below it twice.
    Repeated,
    /// A role stands twice on a branch.
    RoleTwice,
    /// So it does, and a used credential has an automaton.
    RoleTwiceAndAutomaton,
    /// A role stands on a branch so often.
    RoleOften,
    /// A node's middle is not the least who is in the linking role by the set.
    LesserMiddle,
    /// A node's credential is not the least of the set that defines its role.
    LesserCredential,
    /// Other records derive the goal from the set and come before it. The first
    /// of them has another middle where they part.
    OtherMiddle,
    /// It has another credential where they part.
    OtherCredential,
    /// Other records come before it so, under an automaton with label 4.
    OtherByOwner,
    /// A used credential has an automaton, and the table has many edges.
    ManyEdges,
    /// So it is, and by such a slip the record would be rejected.
    Slip(Slip),
}

impl Trait {
    /// Every trait that there is.
    pub fn all() -> Vec<Trait> {
        let mut traits: Vec<Trait> = [1, 2, 3, 4].map(Trait::Kind).to_vec();
        traits.extend([Trait::Automaton, Trait::ByOwner, Trait::DeadAutomaton]);
        traits.extend([Trait::Deep, Trait::SixteenLevels]);
        traits.extend([Trait::Long, Trait::Repeated]);
        traits.extend([
            Trait::RoleTwice,
            Trait::RoleTwiceAndAutomaton,
            Trait::RoleOften,
        ]);
        traits.extend([Trait::LesserMiddle, Trait::LesserCredential]);
        traits.extend([Trait::OtherMiddle, Trait::OtherCredential]);
        traits.extend([Trait::OtherByOwner, Trait::ManyEdges]);
        traits.extend(Slip::MISSING.map(Trait::Slip));
        traits
    }

    /// How many written records must have it at the least.
    pub fn least(self) -> u64 {
        match self {
            Trait::ManyEdges | Trait::Slip(_) => LEAST,
            _ => 1,
        }
    }

    /// The traits of the first record of a set.
    pub fn of(listing: &Listing, set: u32, first: &First) -> Vec<Trait> {
        let table = Table::read(&listing.table).expect("an accepted table");
        let asked = listing.query.read().expect("a valid query");
        let record = first.witness.record();
        let derivation = Derivation::read(&table, asked, &record);
        let derivation = derivation.expect("an accepted record");
        let uses = Uses::of(&table, set);
        let again = Again::of(&derivation);
        let view = View {
            table: &table,
            asked,
            set,
        };
        let parting = view.parting(&record, first);
        let uses_owner = uses.any_of(by_owner(&table));
        let slips = rejecting(&table, &derivation);
        let has = |quality: Trait| match quality {
            Trait::Kind(kind) => uses.kinds.contains(&kind),
            Trait::Automaton => !uses.automata.is_empty(),
            Trait::ByOwner => uses_owner,
            Trait::DeadAutomaton => uses.leaves_any_of(dead::on_words(&table, &derivation)),
            Trait::Deep => levels(&derivation) >= DEEP,
            Trait::SixteenLevels => levels(&derivation) == DEEPEST as usize,
            Trait::Long => record.len() > usize::from(u16::MAX),
            Trait::Repeated => any_node(&derivation, &is_repeating),
            Trait::RoleTwice => again.role > 1,
            Trait::RoleTwiceAndAutomaton => again.role > 1 && !uses.automata.is_empty(),
            Trait::RoleOften => again.role >= OFTEN,
            Trait::LesserMiddle => any_node(&derivation, &|node| view.has_lesser_middle(node)),
            Trait::LesserCredential => {
                any_node(&derivation, &|node| view.has_lesser_credential(node))
            }
            Trait::OtherMiddle => parting.is_some_and(|index| index % NODE == 1),
            Trait::OtherCredential => parting.is_some_and(|index| index % NODE == 0),
            Trait::OtherByOwner => parting.is_some() && uses_owner,
            Trait::ManyEdges => !uses.automata.is_empty() && has_many_edges(&table),
            Trait::Slip(slip) => slips.contains(&slip),
        };
        let all = Trait::all().into_iter();
        all.filter(|&quality| has(quality)).collect()
    }
}

/// What a record was written for.
struct View<'a> {
    table: &'a Table,
    asked: Asked,
    set: u32,
}

impl View<'_> {
    /// The index of the first number in which the first record differs from
    /// the least that derives the goal from the set, if it is another.
    fn parting(&self, record: &[Number], first: &First) -> Option<usize> {
        if first.passed == 0 {
            return None;
        }
        let least = self.least(self.asked)?.record();
        let mut both = record.iter().zip(&least);
        both.position(|(one, other)| one != other)
    }

    /// The least derivation from the set, accepted or not, if there is one.
    fn least(&self, asked: Asked) -> Option<Rc<Witness>> {
        let patience = Patience::new(STEPS);
        Ascending::new(self.table, asked, self.set, patience).derivation(0)?
    }

    /// Whether a lesser principal than a node's middle is in the linking role.
    fn has_lesser_middle(&self, node: &Derivation) -> bool {
        let credential = self.table.credential(node.credential);
        let linked = credential.map(|credential| &credential.members);
        let (Some(Members::Linked(..)), [member, _]) = (linked, &node.premises[..]) else {
            return false;
        };
        let Goal { principal, role } = member.goal;
        let middles = middles(self.table).into_iter();
        let mut lesser = middles.filter(|&other| other < principal);
        lesser.any(|principal| {
            let goal = Goal { principal, role };
            let depth = self.asked.depth;
            self.least(Asked { goal, depth }).is_some()
        })
    }

    /// Whether a lesser credential of the set defines the role of a node.
    fn has_lesser_credential(&self, node: &Derivation) -> bool {
        let numbered = (1..node.credential).zip(&self.table.credentials);
        let mut lesser = numbered.filter(|(number, _)| is_in(*number, self.set));
        lesser.any(|(_, credential)| credential.role == node.goal.role)
    }
}

/// Whether something holds of a node of a derivation.
fn any_node(derivation: &Derivation, holds: &impl Fn(&Derivation) -> bool) -> bool {
    let mut premises = derivation.premises.iter();
    holds(derivation) || premises.any(|premise| any_node(premise, holds))
}

/// Whether two premises of a node have the same derivation.
fn is_repeating(node: &Derivation) -> bool {
    let premises = &node.premises;
    (1..premises.len()).any(|index| premises[..index].contains(&premises[index]))
}

/// How many levels a derivation has.
fn levels(derivation: &Derivation) -> usize {
    let premises = derivation.premises.iter().map(levels);
    1 + premises.max().unwrap_or(0)
}

impl fmt::Display for Trait {
    fn fmt(&self, out: &mut fmt::Formatter<'_>) -> fmt::Result {
        let words = match self {
            Trait::Kind(3) => "has a middle".into(),
            Trait::Kind(kind) => format!("uses a credential of kind {kind}"),
            Trait::Automaton => "under a constraint".into(),
            Trait::ByOwner => "under a constraint with label 4".into(),
            Trait::DeadAutomaton => "an unused automaton is dead".into(),
            Trait::Deep => format!("{DEEP} levels or more"),
            Trait::SixteenLevels => "sixteen levels".into(),
            Trait::Long => "more than 65,535 numbers".into(),
            Trait::Repeated => "a sub-record twice".into(),
            Trait::RoleTwice => "a role twice on a branch".into(),
            Trait::RoleTwiceAndAutomaton => "so, and under a constraint".into(),
            Trait::RoleOften => format!("a role {OFTEN} times on a branch"),
            Trait::LesserMiddle => "a lesser middle will not do".into(),
            Trait::LesserCredential => "a lesser credential will not do".into(),
            Trait::OtherMiddle => "a lesser middle derives, but breaks".into(),
            Trait::OtherCredential => "a lesser credential derives, but breaks".into(),
            Trait::OtherByOwner => "so it is under label 4".into(),
            Trait::ManyEdges => format!("under a constraint, {MANY} edges or more"),
            Trait::Slip(slip) => format!("so, rejected {slip}"),
        };
        out.pad(&words)
    }
}

#[cfg(test)]
mod tests {
    use reference::generate::listings::{Listing, Source};
    use reference::patience::Patience;
    use reference::query::Query;
    use reference::records::Records;
    use reference::table::Table;
    use reference::writing::first_within;
    use reference::{shop, Number};

    use super::Trait;

    /// The traits of a minimal set's first record.
    fn traits(table: &[Number], query: Query, set: u32) -> Vec<Trait> {
        let listing = Listing {
            table: table.to_vec(),
            query,
            source: Source::Fixed,
        };
        let table = Table::read(table).expect("an accepted table");
        let asked = query.read().expect("a valid query");
        let first = first_within(Patience::new(1_000), &table, asked, set);
        Trait::of(&listing, set, &first.expect("few steps"))
    }

    #[test]
    fn the_shop_s_records_are_plain() {
        let linked = [Trait::Kind(1), Trait::Kind(3)];
        assert_eq!(traits(&shop::T, shop::Q, 7), linked);
        assert_eq!(traits(&shop::T, shop::Q, 8), [Trait::Kind(1)]);
    }

    /// The goal 1.1 rests on 1.2 twice and on 1.3, and both rest on 1.4, whose
    /// middles are in 1.5. Words with 1.2 may not end with the role of the
    /// lesser middle, 7, words with 1.3 not with that of the greater, 64.
    fn forked() -> Records {
        Records {
            credentials: vec![
                [1, 1, 4, 1, 0, 1],
                [1, 2, 2, 1, 4, 0],
                [1, 3, 2, 1, 4, 0],
                [1, 4, 3, 5, 6, 0],
                [1, 5, 1, 7, 0, 0],
                [1, 5, 1, 64, 0, 0],
                [7, 6, 1, 9, 0, 0],
                [64, 6, 1, 9, 0, 0],
            ],
            cells: vec![[1, 2, 2], [1, 2, 3], [1, 3, 0]],
            automata: vec![[1, 2 + 4, 0]],
            edges: vec![
                [1, 0, 2, 0, 0, 0],
                [1, 0, 1, 1, 2, 1],
                [1, 1, 3, 7, 6, 1],
                [1, 0, 1, 1, 3, 2],
                [1, 2, 3, 64, 6, 2],
            ],
        }
    }

    #[test]
    fn a_forked_record_has_what_makes_it_so() {
        let query = Query::from_numbers([9, 1, 1, 4]);
        let mut expected = [1, 2, 3, 4].map(Trait::Kind).to_vec();
        expected.extend([Trait::Automaton, Trait::Deep, Trait::Repeated]);
        // The greater middle's credential stands behind the lesser's.
        expected.extend([Trait::LesserMiddle, Trait::LesserCredential]);
        expected.push(Trait::OtherMiddle);
        assert_eq!(traits(&forked().numbers(), query, 255), expected);
    }

    #[test]
    fn a_record_may_be_another_for_its_credential() {
        // 1.4 goes by 1.5 and 1.6 in the place of the two middles.
        let mut records = forked();
        records.credentials[3] = [1, 4, 2, 1, 5, 0];
        records.credentials[4] = [1, 4, 2, 1, 6, 0];
        records.credentials[5] = [1, 5, 1, 9, 0, 0];
        records.credentials[6] = [1, 6, 1, 9, 0, 0];
        records.credentials.pop();
        for (edge, role) in [(2, [1, 5]), (4, [1, 6])] {
            records.edges[edge][3..5].copy_from_slice(&role);
        }
        let query = Query::from_numbers([9, 1, 1, 4]);
        let traits = traits(&records.numbers(), query, 127);
        assert!(traits.contains(&Trait::OtherCredential), "{traits:?}");
        assert!(!traits.contains(&Trait::LesserMiddle), "{traits:?}");
        assert!(!traits.contains(&Trait::OtherMiddle), "{traits:?}");
    }
}
