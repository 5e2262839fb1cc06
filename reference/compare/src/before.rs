//! The list under the rule that there was before: no role twice on a branch,
//! whoever is in it. Now it is the pair of principal and role that may not come
//! twice. This is the old rule's only place; the reference knows nothing of it.
//!
//! A record without a role twice on a branch has no pair twice either. So each
//! set that was minimal before includes one that is minimal now.

use std::collections::HashMap;
use std::ops::Add;
use std::rc::Rc;

use reference::enumeration::node;
use reference::generate::listings::{Listing, Source};
use reference::listing::{is_accepted, Minimal};
use reference::pairs::{is_part, Pair};
use reference::patience::Patience;
use reference::query::Asked;
use reference::sorts::{Goal, Principal, Role};
use reference::table::Table;
use reference::ways::{middles, ways, Way};
use reference::words::Standing;

use crate::lists::patience;
use crate::report::{listed, PRINTED};

/// So many lists must be others than before at the least.
const OTHERS: u64 = 30_000;

/// How lists of wallets in which roles lead back compare with those before.
#[derive(Default)]
pub struct Before {
    /// Lists that are the same.
    same: u64,
    /// Lists that are others.
    others: u64,
    /// There was none, and now there is one.
    none: u64,
    /// All sets are there that there were, and more.
    more: u64,
    /// A set is no longer minimal: a proper part of it will do.
    smaller: u64,
    /// Lists that took too long under the old rule.
    unknown: u64,
    /// Sets that include no set of the new list.
    pub failed: u64,
}

impl Before {
    /// Compares the minimal sets of a listing with those that it had.
    pub fn ask(&mut self, listing: &Listing, sets: &[Minimal]) {
        if !matches!(listing.source, Source::Circle(_) | Source::Fixed) {
            return;
        }
        let table = Table::read(&listing.table).expect("an accepted table");
        let asked = listing.query.read().expect("a valid query");
        let Some(old) = minimal_sets(&table, asked) else {
            self.unknown += 1;
            return;
        };
        let new: Vec<u32> = sets.iter().map(|minimal| minimal.set).collect();
        let includes_one = |set: u32| new.iter().any(|&part| is_part(part, set));
        for &set in old.iter().filter(|&&set| !includes_one(set)) {
            self.fail(listing, set);
        }
        if old == new {
            self.same += 1;
            return;
        }
        self.others += 1;
        self.none += u64::from(old.is_empty());
        let stays = |set: &u32| new.contains(set);
        self.more += u64::from(!old.is_empty() && old.iter().all(stays));
        self.smaller += u64::from(!old.iter().all(stays));
    }

    /// Counts a set that includes none of the new list, and prints it.
    fn fail(&mut self, listing: &Listing, set: u32) {
        self.failed += 1;
        if self.failed <= PRINTED {
            println!("a set that was minimal, and includes none that is: {set}");
            println!("  table of {}", listed(&listing.table));
            println!("  query: {:?}", listing.query);
        }
    }

    /// How many lists include what was minimal before.
    pub fn passed(&self) -> u64 {
        self.same + self.others
    }

    /// The counts, what they are of, and how great they must be.
    pub fn lines(&self) -> Vec<(String, Option<u64>, u64)> {
        let lines = [
            ("list as without a role twice", self.same, 1),
            ("list other than without a role twice", self.others, OTHERS),
            ("list where there was none", self.none, 1),
            ("list of all there were and more", self.more, 1),
            ("list in which a smaller set will do", self.smaller, 1),
        ];
        let lines = lines.map(|(what, count, least)| (what.into(), Some(count), least));
        lines.into()
    }

    /// How many lists took too long under the old rule.
    pub fn unknown(&self) -> u64 {
        self.unknown
    }
}

impl Add for Before {
    type Output = Before;

    fn add(self, other: Before) -> Before {
        Before {
            same: self.same + other.same,
            others: self.others + other.others,
            none: self.none + other.none,
            more: self.more + other.more,
            smaller: self.smaller + other.smaller,
            unknown: self.unknown + other.unknown,
            failed: self.failed + other.failed,
        }
    }
}

/// The minimal sets without a role twice on a branch, ascending, unless it takes
/// too long.
pub fn minimal_sets(table: &Table, asked: Asked) -> Option<Vec<u32>> {
    let mut search = Search {
        table,
        depth: asked.depth as usize,
        middles: middles(table),
        done: HashMap::new(),
        patience: patience(),
    };
    let pairs = search.goal(asked.goal, &[], &Standing::start(table))?;
    let accepted = pairs.iter().filter(|pair| is_accepted(table, **pair));
    let mut used: Vec<u32> = accepted.map(|pair| pair.used).collect();
    used.sort();
    used.dedup();
    let is_minimal = |set: &u32| !used.iter().any(|part| part != set && is_part(*part, *set));
    Some(used.iter().copied().filter(is_minimal).collect())
}

/// What the derivations of a goal depend on: the roles above it, in any order,
/// and where these have brought the automata.
type Place = (Goal, Vec<Role>, Standing);

/// A search through all derivations without a role twice on a branch.
struct Search<'a> {
    table: &'a Table,
    depth: usize,
    middles: Vec<Principal>,
    done: HashMap<Place, Rc<Vec<Pair>>>,
    patience: Patience,
}

impl Search<'_> {
    /// What the derivations of a goal below these roles amount to.
    fn goal(&mut self, goal: Goal, above: &[Role], before: &Standing) -> Option<Rc<Vec<Pair>>> {
        if above.len() >= self.depth || above.contains(&goal.role) {
            return Some(Rc::default());
        }
        let mut place = (goal, above.to_vec(), before.clone());
        place.1.sort();
        if let Some(pairs) = self.done.get(&place) {
            return Some(Rc::clone(pairs));
        }
        self.patience.spend(1)?;
        let branch = [above, &[goal.role]].concat();
        let standing = before.after(self.table, goal.role);
        let mut pairs = Vec::new();
        for way in ways(self.table, &self.middles, goal) {
            self.through(&way, &branch, &standing, &mut pairs)?;
        }
        let pairs = Rc::new(pairs);
        self.done.insert(place, Rc::clone(&pairs));
        Some(pairs)
    }

    /// Adds what a goal amounts to by one way.
    fn through(
        &mut self,
        way: &Way,
        branch: &[Role],
        standing: &Standing,
        all: &mut Vec<Pair>,
    ) -> Option<()> {
        let mut pairs = vec![node(self.table, way, standing)];
        for &premise in way.premises.iter().rev() {
            let below = self.goal(premise, branch, standing)?;
            let mut joined = Vec::new();
            for pair in &pairs {
                for other in below.iter() {
                    self.add(&mut joined, pair.with(*other))?;
                }
            }
            pairs = joined;
            if pairs.is_empty() {
                break;
            }
        }
        pairs.into_iter().try_for_each(|pair| self.add(all, pair))
    }

    /// Adds a pair unless another dominates it; a step for every comparison.
    fn add(&mut self, pairs: &mut Vec<Pair>, pair: Pair) -> Option<()> {
        self.patience.spend(pairs.len() + 1)?;
        if !pairs.iter().any(|held| held.dominates(pair)) {
            pairs.retain(|held| !pair.dominates(*held));
            pairs.push(pair);
        }
        Some(())
    }
}

#[cfg(test)]
mod tests {
    use reference::query::Query;
    use reference::records::Records;
    use reference::table::Table;
    use reference::{shop, Number};

    use super::minimal_sets;

    /// The old list.
    fn old(table: &[Number], query: [Number; 4]) -> Vec<u32> {
        let table = Table::read(table).expect("an accepted table");
        let asked = Query::from_numbers(query).read().expect("a valid query");
        minimal_sets(&table, asked).expect("few steps")
    }

    #[test]
    fn the_shop_has_its_list() {
        assert_eq!(old(&shop::T, [4, 1, 1, 2]), [7, 8]);
        assert_eq!(old(&shop::U, [4, 1, 1, 2]), [8]);
    }

    #[test]
    fn a_club_had_only_its_own_friends() {
        let club = Records {
            credentials: vec![[1, 2, 3, 2, 2, 0], [1, 2, 1, 4, 0, 0], [4, 2, 1, 5, 0, 0]],
            cells: vec![],
            automata: vec![],
            edges: vec![],
        };
        assert_eq!(old(&club.numbers(), [4, 1, 2, 16]), [2]);
        assert_eq!(old(&club.numbers(), [5, 1, 2, 16]), []);
    }
}
