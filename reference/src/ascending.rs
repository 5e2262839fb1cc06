//! All derivations of a goal from the credentials of a set, in the order of
//! their records.
//!
//! Two records are compared number by number, the smaller first. A node says
//! by itself how many premises follow, so of one goal's records none is the
//! beginning of another. That is why they come in this order: by the credential
//! of the first node, then by its middle, then by the record of the first
//! premise, then by that of the second, and so on; and the records of a premise
//! come in this order too.
//!
//! Nothing is judged here. Which record is accepted is asked of whole records,
//! one after the other.

use std::collections::HashMap;
use std::rc::Rc;

use crate::pairs::{is_in, Witness};
use crate::patience::Patience;
use crate::query::Asked;
use crate::sorts::{Goal, Principal};
use crate::table::Table;
use crate::ways::{middles, ways, Way};

/// The derivations of what is asked, made one at a time as they are called for.
pub struct Ascending<'a> {
    table: &'a Table,
    /// The credentials that may be used: credential i counts 2^(i-1).
    set: u32,
    /// The highest level that a node may have.
    depth: usize,
    /// The middles that are tried, ascending.
    middles: Vec<Principal>,
    /// A row for each place that has been come to, the top goal's first.
    rows: Vec<Row>,
    /// Where the row of a place stands.
    places: HashMap<Place, usize>,
    /// How long it may go on.
    patience: Patience,
}

/// What the derivations of a goal depend on: the goals above it, by which its
/// level is known too. In which order they come does not matter.
#[derive(PartialEq, Eq, Hash)]
struct Place {
    goal: Goal,
    above: Vec<Goal>,
}

/// The derivations of a goal at a place.
struct Row {
    /// The goals from the top one down to this one, both included.
    branch: Vec<Goal>,
    /// The first ones, ascending.
    found: Vec<Rc<Witness>>,
    /// The ways by which the others go, the next one last.
    ways: Vec<Turning>,
}

/// A way of proving a goal, and how far its derivations have been gone through.
struct Turning {
    way: Way,
    /// Which derivation of each premise is the next to be taken, from 0. The
    /// last premise turns fastest.
    turn: Vec<usize>,
}

impl Turning {
    /// The way at its first turn.
    fn new(way: Way) -> Turning {
        let turn = vec![0; way.premises.len()];
        Turning { way, turn }
    }

    /// Whether no derivation has been taken yet.
    fn is_new(&self) -> bool {
        self.turn.iter().all(|&turn| turn == 0)
    }

    /// The same way at its next turn: one derivation further at this premise,
    /// and at the first of each premise behind it.
    fn turned(mut self, premise: usize) -> Turning {
        self.turn[premise] += 1;
        self.turn[premise + 1..].fill(0);
        self
    }
}

/// Where the top goal's row stands.
const TOP: usize = 0;

impl<'a> Ascending<'a> {
    /// The derivations of what is asked from the credentials of a set.
    pub fn new(table: &'a Table, asked: Asked, set: u32, patience: Patience) -> Ascending<'a> {
        let mut ascending = Ascending {
            table,
            set,
            depth: asked.depth as usize,
            middles: middles(table),
            rows: Vec::new(),
            places: HashMap::new(),
            patience,
        };
        ascending.row(asked.goal, &[]);
        ascending
    }

    /// The derivation with this index, from 0, or nothing if there are no more
    /// than so many; if there is patience for it.
    pub fn derivation(&mut self, index: usize) -> Option<Option<Rc<Witness>>> {
        self.look_up(TOP, index)
    }

    /// Makes so many steps, if so many may still be made: for what a caller does
    /// with the derivations.
    pub fn spend(&mut self, steps: u64) -> Option<()> {
        self.patience.spend(usize::try_from(steps).ok()?)
    }

    /// The derivation of a row with this index, or nothing if there are no more
    /// than so many; if there is patience for it.
    fn look_up(&mut self, row: usize, index: usize) -> Option<Option<Rc<Witness>>> {
        while self.rows[row].found.len() <= index {
            let Some(way) = self.rows[row].ways.pop() else {
                return Some(None);
            };
            if let Some(way) = self.step(row, way)? {
                self.rows[row].ways.push(way);
            }
        }
        Some(Some(Rc::clone(&self.rows[row].found[index])))
    }

    /// Finds the derivation at a way's turn, or that a premise lacks it. Tells
    /// where the way goes on; nothing if it has been gone through.
    fn step(&mut self, row: usize, turning: Turning) -> Option<Option<Turning>> {
        self.patience.spend(1)?;
        if turning.is_new() && !self.leads_somewhere(row, &turning.way)? {
            return Some(None);
        }
        let mut premises = Vec::new();
        for (index, &premise) in turning.way.premises.iter().enumerate() {
            let below = self.row_below(row, premise);
            match self.look_up(below, turning.turn[index])? {
                Some(witness) => premises.push(witness),
                None => return Some(index.checked_sub(1).map(|before| turning.turned(before))),
            }
        }
        let last = premises.len().checked_sub(1);
        let Way {
            credential, middle, ..
        } = turning.way;
        let witness = Witness::over(credential, middle, premises);
        self.rows[row].found.push(Rc::new(witness));
        Some(last.map(|last| turning.turned(last)))
    }

    /// Whether every premise of a way has a derivation; if there is patience for
    /// it. The last is asked first: in a club everybody is a friend of somebody,
    /// but few are friends of the one who is tried as a middle.
    fn leads_somewhere(&mut self, row: usize, way: &Way) -> Option<bool> {
        for &premise in way.premises.iter().rev() {
            let below = self.row_below(row, premise);
            if self.look_up(below, 0)?.is_none() {
                return Some(false);
            }
        }
        Some(true)
    }

    /// The row of a premise, which stands below the branch of a row.
    fn row_below(&mut self, row: usize, premise: Goal) -> usize {
        let branch = self.rows[row].branch.clone();
        self.row(premise, &branch)
    }

    /// The row of a goal below these goals.
    fn row(&mut self, goal: Goal, above: &[Goal]) -> usize {
        let mut place = Place {
            goal,
            above: above.to_vec(),
        };
        place.above.sort();
        if let Some(&row) = self.places.get(&place) {
            return row;
        }
        let excluded = above.len() >= self.depth || above.contains(&goal);
        let row = self.rows.len();
        self.rows.push(Row {
            branch: [above, &[goal]].concat(),
            found: Vec::new(),
            ways: if excluded { vec![] } else { self.ways(goal) },
        });
        self.places.insert(place, row);
        row
    }

    /// Every way to a goal from the set, the least credential and middle last.
    fn ways(&self, goal: Goal) -> Vec<Turning> {
        let all = ways(self.table, &self.middles, goal).into_iter().rev();
        let from_set = all.filter(|way| is_in(way.credential, self.set));
        from_set.map(Turning::new).collect()
    }
}
