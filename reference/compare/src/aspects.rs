//! What listings are like whose table and query are valid.

use std::collections::BTreeSet;
use std::fmt;

use reference::generate::listings::Listing;
use reference::listing::{minimal_sets_within, Minimal};
use reference::pairs::is_part;
use reference::query::DEEPEST;
use reference::records::Head;
use reference::table::Table;
use reference::words::Standing;
use reference::Number;

use crate::features::Uses;
use crate::lists::patience;
use crate::owners::{by_owner, matching_every};
use crate::slips::{has_many_edges, Slip, LEAST, MANY};

/// A table that defines so many roles has many.
const ROLES: usize = 16;

/// Something that a listing can be or have.
#[derive(Clone, Copy, Debug, PartialEq, Eq, PartialOrd, Ord)]
pub enum Aspect {
    /// A listed set has a credential of this kind.
    Kind(Number),
    /// A listed set has a credential with an automaton.
    Automaton,
    /// A listed set has credentials with several automata.
    Automata,
    /// There is an automaton on a credential of no listed set.
    UnusedAutomaton,
    /// A listed set has a credential with an automaton that has label 4.
    ByOwner,
    /// If label 4 matched every role there would be other sets.
    OtherOwner,
    /// There is a set, and an automaton that is dead at the goal already.
    DeadAtTheGoal,
    /// Two listed sets have different numbers of credentials.
    Sizes,
    /// A credential is in no listed set.
    Needless,
    /// Credential 20 is in a listed set.
    Twenty,
    /// Without automata there would be other sets.
    Constrained,
    /// There is no set, but without automata there would be one.
    NoneForConstraints,
    /// Without automata a proper part of a listed set would do.
    Larger,
    /// With a depth limit one lower there would be other sets.
    Deep,
    /// So it is with the highest depth limit.
    Deepest,
    /// There is no set, but there would be one if the limit were one higher.
    NoneForDepth,
    /// The table has many edges.
    ManyEdges,
    /// So it has, and many roles are defined.
    ManyRoles,
    /// The table has many edges, and by such a slip there would be other sets.
    Slip(Slip),
    /// So it is without the last edge, of which there are as many as there may
    /// be.
    EdgeLimit,
}

impl Aspect {
    /// Every aspect that there is.
    pub fn all() -> Vec<Aspect> {
        let mut aspects: Vec<Aspect> = [1, 2, 3, 4].map(Aspect::Kind).to_vec();
        aspects.extend([Aspect::Automaton, Aspect::Automata, Aspect::UnusedAutomaton]);
        aspects.extend([Aspect::ByOwner, Aspect::OtherOwner, Aspect::DeadAtTheGoal]);
        aspects.extend([Aspect::Sizes, Aspect::Needless, Aspect::Twenty]);
        aspects.extend([
            Aspect::Constrained,
            Aspect::NoneForConstraints,
            Aspect::Larger,
        ]);
        aspects.extend([Aspect::Deep, Aspect::Deepest, Aspect::NoneForDepth]);
        aspects.extend([Aspect::ManyEdges, Aspect::ManyRoles]);
        aspects.extend(Slip::all().map(Aspect::Slip));
        aspects.push(Aspect::EdgeLimit);
        aspects
    }

    /// How many listings must have it at the least.
    pub fn least(self) -> u64 {
        match self {
            Aspect::ManyEdges | Aspect::ManyRoles | Aspect::Slip(_) | Aspect::EdgeLimit => LEAST,
            _ => 1,
        }
    }

    /// The aspects of a listing with these minimal sets.
    pub fn of(listing: &Listing, sets: &[Minimal]) -> Vec<Aspect> {
        let table = Table::read(&listing.table).expect("an accepted table");
        let sets: Vec<u32> = sets.iter().map(|minimal| minimal.set).collect();
        let uses: Vec<Uses> = sets.iter().map(|&set| Uses::of(&table, set)).collect();
        let others = Others::of(listing, &table, &sets);
        let any = |holds: &dyn Fn(&Uses) -> bool| uses.iter().any(holds);
        let used = sets.iter().fold(0, |one, other| one | other);
        let sizes: BTreeSet<u32> = sets.iter().map(|set| set.count_ones()).collect();
        let has = |aspect: Aspect| match aspect {
            Aspect::Kind(kind) => any(&|uses| uses.kinds.contains(&kind)),
            Aspect::Automaton => any(&|uses| !uses.automata.is_empty()),
            Aspect::Automata => any(&|uses| uses.automata.len() > 1),
            Aspect::UnusedAutomaton => !Uses::of(&table, used).other_automata.is_empty(),
            Aspect::ByOwner => any(&|uses| uses.any_of(by_owner(&table))),
            Aspect::OtherOwner => others.any_owner != sets,
            Aspect::DeadAtTheGoal => !sets.is_empty() && is_dead_at_the_goal(listing, &table),
            Aspect::Sizes => sizes.len() > 1,
            Aspect::Needless => {
                !sets.is_empty() && used.count_ones() < table.credentials.len() as u32
            }
            Aspect::Twenty => (used >> 19) & 1 == 1,
            Aspect::Constrained => others.free != sets,
            Aspect::NoneForConstraints => sets.is_empty() && !others.free.is_empty(),
            Aspect::Larger => others.have_part_of(&sets),
            Aspect::Deep => others.shallower != sets,
            Aspect::Deepest => others.shallower != sets && listing.query.depth == DEEPEST,
            Aspect::NoneForDepth => sets.is_empty() && !others.deeper.is_empty(),
            Aspect::ManyEdges => has_many_edges(&table),
            Aspect::ManyRoles => has_many_edges(&table) && roles(&table) >= ROLES,
            Aspect::Slip(slip) => others.slips.contains(&slip),
            Aspect::EdgeLimit => others.slips.contains(&Slip::Last) && is_at_the_limit(&table),
        };
        let all = Aspect::all().into_iter();
        all.filter(|&aspect| has(aspect)).collect()
    }
}

/// How many roles a table defines.
fn roles(table: &Table) -> usize {
    let roles = table.credentials.iter().map(|credential| credential.role);
    roles.collect::<BTreeSet<_>>().len()
}

/// Whether a table has as many edges as it may have.
fn is_at_the_limit(table: &Table) -> bool {
    table.edges.len() == Head::LIMITS.edges as usize
}

/// Whether an automaton is dead once it has read the goal's role.
fn is_dead_at_the_goal(listing: &Listing, table: &Table) -> bool {
    let asked = listing.query.read().expect("a valid query");
    let standing = Standing::start(table).after(table, asked.goal.role);
    standing.dead() != 0
}

/// The minimal sets that there would be otherwise; none where it takes too
/// long to know.
struct Others {
    /// Without automata.
    free: Vec<u32>,
    /// With label 4 matching every role.
    any_owner: Vec<u32>,
    /// With a depth limit one lower; at 1 there is none.
    shallower: Vec<u32>,
    /// With a depth limit one higher; at 16 there is none.
    deeper: Vec<u32>,
    /// The slips by which there would be others, if there are many edges.
    slips: Vec<Slip>,
}

impl Others {
    /// What there would be in the place of these sets.
    fn of(listing: &Listing, table: &Table, own: &[u32]) -> Others {
        let mut free = table.clone();
        for credential in &mut free.credentials {
            credential.automaton = None;
        }
        let depth = listing.query.depth;
        // Where nothing is changed the sets are the same.
        let sets_with = |changed: Table| match changed == *table {
            true => own.to_vec(),
            false => sets(listing, &changed, depth),
        };
        Others {
            free: sets_with(free),
            any_owner: sets_with(matching_every(table.clone())),
            shallower: sets(listing, table, depth - 1),
            deeper: sets(listing, table, depth + 1),
            slips: slips(listing, table, own),
        }
    }

    /// Whether a proper part of one of these sets would do without automata.
    fn have_part_of(&self, sets: &[u32]) -> bool {
        let part_of = |set: u32| {
            self.free
                .iter()
                .any(|&free| free != set && is_part(free, set))
        };
        sets.iter().any(|&set| part_of(set))
    }
}

/// The minimal sets of another table, with another depth limit.
fn sets(listing: &Listing, table: &Table, depth: Number) -> Vec<u32> {
    known_sets(listing, table, depth).unwrap_or_default()
}

/// The same, unless there is none by the limit, or it takes too long.
fn known_sets(listing: &Listing, table: &Table, depth: Number) -> Option<Vec<u32>> {
    let mut query = listing.query;
    query.depth = depth;
    let sets = minimal_sets_within(patience(), table, query.read().ok()?)?;
    Some(sets.iter().map(|minimal| minimal.set).collect())
}

/// The slips by which there would be others than these sets; none if the table
/// does not have many edges.
fn slips(listing: &Listing, table: &Table, own: &[u32]) -> Vec<Slip> {
    let others = |slip: &Slip| {
        let sets = known_sets(listing, &slip.table(table), listing.query.depth);
        sets.is_some_and(|sets| sets != own)
    };
    match has_many_edges(table) {
        true => Slip::all().filter(others).collect(),
        false => Vec::new(),
    }
}

impl fmt::Display for Aspect {
    fn fmt(&self, out: &mut fmt::Formatter<'_>) -> fmt::Result {
        let words = match self {
            Aspect::Kind(kind) => format!("a credential of kind {kind}"),
            Aspect::Automaton => "an automaton in a set".into(),
            Aspect::Automata => "several automata in a set".into(),
            Aspect::UnusedAutomaton => "an automaton in no set".into(),
            Aspect::ByOwner => "an automaton with label 4 in a set".into(),
            Aspect::OtherOwner => "other sets if label 4 matched all".into(),
            Aspect::DeadAtTheGoal => "a set, an automaton dead at the goal".into(),
            Aspect::Sizes => "sets of different sizes".into(),
            Aspect::Needless => "a credential in no set".into(),
            Aspect::Twenty => "credential 20 in a set".into(),
            Aspect::Constrained => "other sets without automata".into(),
            Aspect::NoneForConstraints => "none, but some without automata".into(),
            Aspect::Larger => "a set larger than without automata".into(),
            Aspect::Deep => "other sets one level higher up".into(),
            Aspect::Deepest => "so with sixteen levels".into(),
            Aspect::NoneForDepth => "none, but some one level further down".into(),
            Aspect::ManyEdges => format!("{MANY} edges or more"),
            Aspect::ManyRoles => format!("so, and {ROLES} roles or more"),
            Aspect::Slip(slip) => format!("so, other sets {slip}"),
            Aspect::EdgeLimit => format!("other sets without edge {}", Head::LIMITS.edges),
        };
        out.pad(&words)
    }
}

#[cfg(test)]
mod tests {
    use reference::generate::full;
    use reference::generate::listings::{Listing, Source};
    use reference::listing::minimal_sets;
    use reference::table::Table;
    use reference::Number;

    use super::Aspect;
    use crate::slips::Slip;

    /// The aspects of a full table with so many edges that have to do with that.
    fn aspects(edges: Number) -> Vec<Aspect> {
        let listing = Listing {
            table: full::records(edges).numbers(),
            query: full::ASKED,
            source: Source::Fixed,
        };
        let table = Table::read(&listing.table).expect("an accepted table");
        let sets = minimal_sets(&table, full::ASKED.read().expect("a valid query"));
        let mut aspects = Aspect::of(&listing, &sets);
        aspects.retain(|&aspect| aspect >= Aspect::ManyEdges);
        aspects
    }

    #[test]
    fn a_list_tells_by_which_slips_it_would_be_another() {
        let slips = [Slip::Last, Slip::Merged, Slip::Down, Slip::Up];
        let many = [&[Aspect::ManyEdges][..], &slips.map(Aspect::Slip)].concat();
        assert_eq!(aspects(99), []);
        assert_eq!(aspects(100), many);
        assert_eq!(aspects(128), [&many[..], &[Aspect::EdgeLimit]].concat());
    }
}
