//! What a derivation amounts to, and the best of what several amount to.
//!
//! All that matters of a derivation for the list is a pair: its used set, and
//! how its words are judged. That is, which of the automata that demand every
//! word reject one, and which of those that demand some word accept one. Whether
//! the record is accepted can be told from the pair alone, and the pair of a
//! derivation is made from those of its premises. The other pair of which the
//! definition speaks, a principal and a role, is a
//! [`Goal`](crate::sorts::Goal) here.

use std::rc::Rc;

use crate::patience::Patience;
use crate::Number;

/// The pair of a derivation, or of a part of one.
#[derive(Clone, Copy, Debug, PartialEq, Eq, PartialOrd, Ord)]
pub struct Pair {
    /// The used set: credential i counts 2^(i-1).
    pub used: u32,
    /// The automata that demand every word and reject one: automaton i counts
    /// 2^(i-1).
    pub rejecting: u32,
    /// The automata that demand some word and accept one: automaton i counts
    /// 2^(i-1).
    pub accepting: u32,
}

/// A derivation, or a part of one. Parts that occur more than once are shared,
/// so it takes little room however many nodes it has.
#[derive(Debug)]
pub struct Witness {
    credential: Number,
    middle: Number,
    premises: Vec<Rc<Witness>>,
    nodes: u64,
    used: u32,
}

/// The number of a goal together with where the automata stand.
pub type Spot = usize;

/// A derivation that has been found, or a node that still lacks premises.
#[derive(Debug)]
pub struct Found {
    /// What it amounts to.
    pub pair: Pair,
    /// The derivation.
    pub witness: Rc<Witness>,
    spot: Spot,
    premises: Vec<Rc<Found>>,
    /// The spots of all nodes below the first one, ascending.
    below: Vec<Spot>,
}

/// Derivations of which none dominates another.
#[derive(Debug, Default)]
pub struct Pairs {
    best: Vec<Rc<Found>>,
}

impl Pair {
    /// Whether the other pair can be left aside because of this one: its used
    /// set and its rejecting set are parts of the other's, and its accepting set
    /// has the other's as a part.
    ///
    /// Take an accepted record with a sub-derivation of the other pair, and put
    /// a sub-derivation of this pair, of the same goal in the same place, in its
    /// stead. The record uses no credential that it did not before, no automaton
    /// rejects a word that rejected none, and none that accepted a word accepts
    /// none any more. So it is accepted too, and its used set is the same or a
    /// part of what it was. No minimal set is lost.
    pub fn dominates(self, other: Pair) -> bool {
        is_part(self.used, other.used)
            && is_part(self.rejecting, other.rejecting)
            && is_part(other.accepting, self.accepting)
    }

    /// The pair of a derivation that consists of two parts.
    pub fn with(self, other: Pair) -> Pair {
        Pair {
            used: self.used | other.used,
            rejecting: self.rejecting | other.rejecting,
            accepting: self.accepting | other.accepting,
        }
    }
}

/// Whether everything in a set is in another.
pub fn is_part(part: u32, whole: u32) -> bool {
    part & whole == part
}

/// Whether the credential or automaton with this number is in a set.
pub fn is_in(number: Number, set: u32) -> bool {
    (set >> (number - 1)) & 1 == 1
}

impl Witness {
    /// A node without its premises.
    pub fn node(credential: Number, middle: Number) -> Witness {
        Witness::over(credential, middle, Vec::new())
    }

    /// A node over these premises. The number of nodes is at most that of four
    /// premises at each of sixteen levels.
    pub fn over(credential: Number, middle: Number, premises: Vec<Rc<Witness>>) -> Witness {
        let nodes = premises.iter().map(|premise| premise.nodes).sum::<u64>();
        let used = premises.iter().map(|premise| premise.used);
        Witness {
            credential,
            middle,
            nodes: 1 + nodes,
            used: used.fold(1 << (credential - 1), |one, other| one | other),
            premises,
        }
    }

    /// The same node with one premise more.
    fn with(&self, premise: &Rc<Witness>) -> Witness {
        let mut premises = self.premises.clone();
        premises.push(Rc::clone(premise));
        Witness::over(self.credential, self.middle, premises)
    }

    /// How many nodes it has.
    pub fn nodes(&self) -> u64 {
        self.nodes
    }

    /// Its used set: credential i counts 2^(i-1).
    pub fn used_set(&self) -> u32 {
        self.used
    }

    /// The proof record of the derivation: its nodes in preorder.
    pub fn record(&self) -> Vec<Number> {
        let mut record = Vec::new();
        self.write(&mut record);
        record
    }

    fn write(&self, record: &mut Vec<Number>) {
        record.extend([self.credential, self.middle]);
        for premise in &self.premises {
            premise.write(record);
        }
    }
}

impl Found {
    /// A node without its premises.
    pub fn node(pair: Pair, spot: Spot, credential: Number, middle: Number) -> Found {
        Found {
            pair,
            witness: Rc::new(Witness::node(credential, middle)),
            spot,
            premises: Vec::new(),
            below: Vec::new(),
        }
    }

    /// The spots of all nodes below the first one, ascending.
    pub fn below(&self) -> &[Spot] {
        &self.below
    }

    /// The same node with one premise more.
    fn with(&self, premise: &Rc<Found>) -> Found {
        let mut premises = self.premises.clone();
        premises.push(Rc::clone(premise));
        let mut below = [&self.below[..], &premise.below, &[premise.spot]].concat();
        below.sort();
        below.dedup();
        Found {
            pair: self.pair.with(premise.pair),
            witness: Rc::new(self.witness.with(&premise.witness)),
            spot: self.spot,
            premises,
            below,
        }
    }

    /// The derivation below which the spot of its first node does not come
    /// again: this one, or the part of it to which it returns. That part uses
    /// no more, and its words are judged as some of those of the whole. So it
    /// rejects no more, but it may accept less.
    pub fn without_return(self: &Rc<Found>) -> Rc<Found> {
        let mut found = self;
        while found.below.binary_search(&self.spot).is_ok() {
            let mut premises = found.premises.iter();
            let leads_there = |premise: &&Rc<Found>| premise.is_at_or_above(self.spot);
            found = premises.find(leads_there).expect("a way to what is below");
        }
        Rc::clone(found)
    }

    /// Whether one of the nodes is at a spot.
    fn is_at_or_above(&self, spot: Spot) -> bool {
        self.spot == spot || self.below.binary_search(&spot).is_ok()
    }
}

impl Pairs {
    /// One derivation.
    pub fn one(found: Found) -> Pairs {
        Pairs {
            best: vec![Rc::new(found)],
        }
    }

    /// The derivations.
    pub fn iter(&self) -> impl Iterator<Item = &Rc<Found>> {
        self.best.iter()
    }

    /// Adds a derivation unless another dominates it, and leaves aside those
    /// that it dominates, if there is patience for it.
    pub fn add(&mut self, found: Rc<Found>, patience: &mut Patience) -> Option<()> {
        let (pair, nodes) = (found.pair, found.witness.nodes);
        self.add_unless_dominated(pair, nodes, || found, patience)
    }

    /// The same for a derivation of so many nodes that is made only if it is
    /// wanted. Of two derivations of one pair the one with fewer nodes is kept,
    /// so that records stay short. A step is made for every comparison.
    fn add_unless_dominated(
        &mut self,
        pair: Pair,
        nodes: u64,
        make: impl FnOnce() -> Rc<Found>,
        patience: &mut Patience,
    ) -> Option<()> {
        patience.spend(self.best.len() + 1)?;
        let longer = |held: &Found| held.pair == pair && held.witness.nodes > nodes;
        let mut best = self.best.iter();
        if !best.any(|held| held.pair.dominates(pair) && !longer(held)) {
            self.best.retain(|held| !pair.dominates(held.pair));
            self.best.push(make());
        }
        Some(())
    }

    /// What these derivations, which lack a premise, amount to with each
    /// derivation of that premise, if there is patience for it.
    pub fn with_premise(&self, premise: &Pairs, patience: &mut Patience) -> Option<Pairs> {
        let mut joined = Pairs::default();
        for found in self.iter() {
            for below in premise.iter() {
                let pair = found.pair.with(below.pair);
                let nodes = found.witness.nodes + below.witness.nodes;
                let make = || Rc::new(found.with(below));
                joined.add_unless_dominated(pair, nodes, make, patience)?;
            }
        }
        Some(joined)
    }
}

#[cfg(test)]
mod tests {
    use std::rc::Rc;

    use super::{Found, Pair, Pairs, Patience};
    use crate::Number;

    fn pair(used: u32, rejecting: u32) -> Pair {
        judged(used, rejecting, 0)
    }

    fn judged(used: u32, rejecting: u32, accepting: u32) -> Pair {
        Pair {
            used,
            rejecting,
            accepting,
        }
    }

    fn leaf(used: u32, rejecting: u32, credential: Number) -> Pairs {
        Pairs::one(Found::node(pair(used, rejecting), 0, credential, 0))
    }

    /// What stays of some pairs that are added one after the other.
    fn added(all: &[&Pairs]) -> Pairs {
        let mut best = Pairs::default();
        for found in all.iter().flat_map(|pairs| pairs.iter()) {
            let added = best.add(Rc::clone(found), &mut Patience::new(1_000));
            added.expect("few steps");
        }
        best
    }

    fn joined(pairs: &Pairs, premise: &Pairs) -> Pairs {
        let joined = pairs.with_premise(premise, &mut Patience::new(1_000));
        joined.expect("few steps")
    }

    fn sorted(pairs: &Pairs) -> Vec<Pair> {
        let mut pairs: Vec<Pair> = pairs.iter().map(|found| found.pair).collect();
        pairs.sort();
        pairs
    }

    /// The pairs that stay when these two are added.
    fn kept(one: (u32, u32), other: (u32, u32)) -> Vec<Pair> {
        let [one, other] = [one, other].map(|(used, rejecting)| leaf(used, rejecting, 1));
        sorted(&added(&[&one, &other]))
    }

    #[test]
    fn a_pair_is_left_aside_only_for_one_that_is_a_part_of_it_in_both() {
        assert_eq!(kept((3, 0), (1, 0)), [pair(1, 0)]);
        assert_eq!(kept((1, 0), (3, 0)), [pair(1, 0)]);
        assert_eq!(kept((1, 2), (1, 0)), [pair(1, 0)]);
        assert_eq!(kept((1, 1), (3, 0)), [pair(1, 1), pair(3, 0)]);
        assert_eq!(kept((1, 1), (3, 2)), [pair(1, 1), pair(3, 2)]);
        assert_eq!(kept((6, 0), (3, 0)), [pair(3, 0), pair(6, 0)]);
    }

    #[test]
    fn a_pair_that_accepts_more_is_not_left_aside() {
        let kept = |one: Pair, other: Pair| {
            let [one, other] = [one, other].map(|pair| Pairs::one(Found::node(pair, 0, 1, 0)));
            sorted(&added(&[&one, &other]))
        };
        let (more, less) = (judged(1, 0, 3), judged(1, 0, 1));
        assert_eq!(kept(more, less), [more]);
        assert_eq!(kept(less, more), [more]);
        let (larger, rejected) = (judged(3, 0, 3), judged(1, 4, 3));
        assert_eq!(kept(less, larger), [less, larger]);
        assert_eq!(kept(less, rejected), [less, rejected]);
        assert_eq!(kept(more, larger), [more]);
        assert_eq!(more.with(judged(2, 4, 8)), judged(3, 4, 11));
    }

    #[test]
    fn every_derivation_of_a_premise_is_joined() {
        let premise = added(&[&leaf(2, 4, 2), &leaf(4, 0, 3)]);
        let whole = joined(&joined(&leaf(1, 0, 1), &premise), &premise);
        // 1, 2 and 3 together are dominated by 1 and 3, and by 1 and 2.
        assert_eq!(sorted(&whole), [pair(3, 4), pair(5, 0)]);
    }

    #[test]
    fn the_record_with_the_fewest_nodes_is_kept() {
        let short = leaf(1, 0, 1);
        let long = joined(&joined(&short, &short), &short);
        for both in [[&short, &long], [&long, &short]] {
            let best = added(&both);
            let records: Vec<Vec<Number>> = best.iter().map(|held| held.witness.record()).collect();
            assert_eq!(records, [[1, 0]]);
        }
    }

    #[test]
    fn patience_ends() {
        let one = leaf(1, 0, 1);
        assert!(one.with_premise(&one, &mut Patience::new(0)).is_none());
        assert!(one.with_premise(&one, &mut Patience::new(1)).is_some());
    }
}
