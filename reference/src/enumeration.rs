//! All derivations of a goal, as far as the list can tell them apart.
//!
//! The pairs of a goal are made from the bottom up: those of its premises are
//! joined, for every credential and middle through which the goal can be
//! proved. Which pairs are of accepted records is asked when they are all there.
//!
//! No goal may occur twice on a branch, so the derivations of a goal depend on
//! the goals above it. There are very many ways to come to a goal, and most of
//! them make no difference. So it is asked first what a goal amounts to whatever
//! stands above it. Only if a best derivation comes back to a goal above is it
//! asked again, without that goal: if none does, there are no better ones with
//! less to choose from. Nor is it asked again where the derivation comes back
//! with every automaton standing where it stood, if what lies between the two can
//! be left out. The words that remain are judged as before, and nothing is used
//! that was not; but a word that an automaton demands may be among those that are
//! left out, and then it is asked again.

use std::collections::HashMap;
use std::rc::Rc;

use crate::pairs::{Found, Pair, Pairs, Spot};
use crate::patience::Patience;
use crate::query::Asked;
use crate::sorts::{Goal, Principal};
use crate::table::Table;
use crate::ways::{middles, ways, Way};
use crate::words::Standing;

/// What is asked of a goal: its derivations within some levels.
#[derive(Clone, PartialEq, Eq, Hash)]
struct Place {
    /// The goal, and where the automata stand.
    spot: Spot,
    /// How many levels there are, the goal's own included.
    levels: usize,
    /// Goals that may not occur, ascending.
    without: Vec<Goal>,
}

/// What is done about derivations of a goal's premises that come back to the goal
/// with every automaton standing where it stood.
#[derive(Clone, Copy, PartialEq, Eq)]
enum Return {
    /// They are let through. What lies between the two is left out later.
    Open,
    /// There may be none.
    Shut,
}

/// An enumeration that is under way.
struct Enumeration<'a> {
    table: &'a Table,
    /// The middles that are tried.
    middles: Vec<Principal>,
    /// The ways of proving the goals that have been come to.
    ways: HashMap<Goal, Rc<Vec<Way>>>,
    /// What each spot is: a goal, and where the automata stand once they have
    /// read its role.
    spots: Vec<(Goal, Standing)>,
    /// The numbers of the spots.
    numbers: HashMap<(Goal, Standing), Spot>,
    /// The spots of goals right below other spots.
    next: HashMap<(Spot, Goal), Spot>,
    /// The places that are done.
    done: HashMap<Place, Rc<Pairs>>,
    /// How long it may go on.
    patience: Patience,
}

/// The pairs of all derivations of what is asked but for dominated ones, if
/// there is patience for it.
pub fn pairs(table: &Table, asked: Asked, patience: Patience) -> Option<Rc<Pairs>> {
    let mut enumeration = Enumeration {
        table,
        middles: middles(table),
        ways: HashMap::new(),
        spots: Vec::new(),
        numbers: HashMap::new(),
        next: HashMap::new(),
        done: HashMap::new(),
        patience,
    };
    let top = Place {
        spot: enumeration.spot(asked.goal, &Standing::start(table)),
        levels: asked.depth as usize,
        without: Vec::new(),
    };
    enumeration.derivations(top)
}

/// The pair of a node by itself, where the automata stand so after its role. One
/// without premises is of kind 1: a word ends at it.
pub fn node(table: &Table, way: &Way, standing: &Standing) -> Pair {
    let (rejecting, accepting) = match way.premises[..] {
        [] => (standing.rejecting(table), standing.accepting(table)),
        _ => (0, 0),
    };
    Pair {
        used: 1 << (way.credential - 1),
        rejecting,
        accepting,
    }
}

impl Enumeration<'_> {
    /// The spot of a goal where the automata stand so before its role.
    fn spot(&mut self, goal: Goal, before: &Standing) -> Spot {
        let spot = (goal, before.after(self.table, goal.role));
        let next = self.spots.len();
        let number = *self.numbers.entry(spot.clone()).or_insert(next);
        if number == next {
            self.spots.push(spot);
        }
        number
    }

    /// The spot of a goal right below another spot.
    fn spot_below(&mut self, spot: Spot, goal: Goal) -> Spot {
        if let Some(&next) = self.next.get(&(spot, goal)) {
            return next;
        }
        let standing = self.spots[spot].1.clone();
        let next = self.spot(goal, &standing);
        self.next.insert((spot, goal), next);
        next
    }

    /// The best derivations at a place, each without a goal twice on a branch.
    fn derivations(&mut self, place: Place) -> Option<Rc<Pairs>> {
        if let Some(pairs) = self.done.get(&place) {
            return Some(Rc::clone(pairs));
        }
        self.patience.spend(1)?;
        let pairs = Rc::new(self.ways(&place)?);
        self.done.insert(place, Rc::clone(&pairs));
        Some(pairs)
    }

    /// The same, by every way of proving the goal.
    fn ways(&mut self, place: &Place) -> Option<Pairs> {
        let goal = self.spots[place.spot].0;
        let all = || Rc::new(ways(self.table, &self.middles, goal));
        let all = Rc::clone(self.ways.entry(goal).or_insert_with(all));
        let mut pairs = Pairs::default();
        for way in all.iter() {
            for found in self.way(place, way)? {
                pairs.add(found, &mut self.patience)?;
            }
        }
        Some(pairs)
    }

    /// The same, by one way. Where a derivation comes back to its own spot, the
    /// part to which it comes back stands in its stead, if it is as good.
    fn way(&mut self, place: &Place, way: &Way) -> Option<Vec<Rc<Found>>> {
        let open = self.through(place, way, Return::Open)?;
        let cut: Vec<Rc<Found>> = open.iter().map(Found::without_return).collect();
        let mut both = open.iter().zip(&cut);
        if both.all(|(whole, part)| part.pair.dominates(whole.pair)) {
            return Some(cut);
        }
        let shut = self.through(place, way, Return::Shut)?;
        Some(shut.iter().cloned().collect())
    }

    /// The same, but for derivations that come back to their own spot. The last
    /// premise is asked first: in a club everybody is a friend of somebody, but
    /// few are friends of the one who is tried as a middle.
    fn through(&mut self, place: &Place, way: &Way, back: Return) -> Option<Pairs> {
        let mut all = Vec::new();
        for &premise in way.premises.iter().rev() {
            let below = self.premise(place, premise, back)?;
            if below.iter().next().is_none() {
                return Some(Pairs::default());
            }
            all.push(below);
        }
        let pair = node(self.table, way, &self.spots[place.spot].1);
        let mut pairs = Pairs::one(Found::node(pair, place.spot, way.credential, way.middle));
        for below in all.iter().rev() {
            pairs = pairs.with_premise(below, &mut self.patience)?;
        }
        Some(pairs)
    }

    /// The best derivations of a premise of the goal at a place. They do not
    /// come back to goals that may not occur there, nor to the goal itself,
    /// unless the automata stand as before and this is let through.
    fn premise(&mut self, place: &Place, premise: Goal, back: Return) -> Option<Rc<Pairs>> {
        let goal = self.spots[place.spot].0;
        if place.levels == 1 || premise == goal || place.without.contains(&premise) {
            return Some(Rc::default());
        }
        let mut below = Place {
            spot: self.spot_below(place.spot, premise),
            levels: place.levels - 1,
            without: Vec::new(),
        };
        loop {
            let pairs = self.derivations(below.clone())?;
            let met = self.met(place, &pairs, back)?;
            if met.is_empty() {
                return Some(pairs);
            }
            below.without.extend(met);
            below.without.sort();
        }
    }

    /// The goals to which these derivations, of a premise of the goal at a
    /// place, may not come back but do.
    fn met(&mut self, place: &Place, pairs: &Pairs, back: Return) -> Option<Vec<Goal>> {
        let own = self.spots[place.spot].0;
        let mut met = Vec::new();
        for found in pairs.iter() {
            self.patience.spend(1)?;
            for &spot in found.below() {
                let goal = self.spots[spot].0;
                let is_let_through = spot == place.spot && back == Return::Open;
                let is_own = goal == own && !is_let_through;
                if (is_own || place.without.contains(&goal)) && !met.contains(&goal) {
                    met.push(goal);
                }
            }
        }
        Some(met)
    }
}
