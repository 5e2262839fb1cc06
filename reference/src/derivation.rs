//! Derivations, and the records in which they are written down: refusals 11
//! to 13.

use std::slice;

use crate::query::Asked;
use crate::refusal::Refusal;
use crate::sorts::Goal;
use crate::table::Table;
use crate::Number;

/// How many numbers a record has for each node: its credential and its middle.
pub const NODE: usize = 2;

/// A derivation: a goal, the credential through which it is proved, and a
/// derivation of each goal on which it rests.
#[derive(Clone, Debug, PartialEq, Eq)]
pub struct Derivation {
    /// What is derived.
    pub goal: Goal,
    /// The number of the credential.
    pub credential: Number,
    /// The derivations of the premises in their order; none under kind 1.
    pub premises: Vec<Derivation>,
}

impl Derivation {
    /// Reads a record as one whole derivation of what is asked, or refuses it
    /// at the first node that fails.
    pub fn read(table: &Table, asked: Asked, record: &[Number]) -> Result<Derivation, Refusal> {
        let mut reader = Reader {
            table,
            depth: asked.depth as usize,
            numbers: record.iter(),
            nodes: 0,
        };
        let derivation = reader.derivation(asked.goal, &mut Vec::new())?;
        match reader.numbers.next() {
            None => Ok(derivation),
            Some(_) => Err(Refusal::new(11, reader.nodes + 1)),
        }
    }

    /// The sum of 2^(i-1) over the credentials i that occur, each counted
    /// once.
    pub fn used_set(&self) -> u32 {
        let own = 1 << (self.credential - 1);
        let below = self.premises.iter().map(Derivation::used_set);
        below.fold(own, |one, other| one | other)
    }
}

/// Reads nodes one after the other, from the front of a record.
struct Reader<'a> {
    table: &'a Table,
    /// The highest level that a node may have.
    depth: usize,
    /// The numbers that have not been read.
    numbers: slice::Iter<'a, Number>,
    /// How many nodes have been begun.
    nodes: u64,
}

impl Reader<'_> {
    /// Reads a derivation of a goal, which stands below these goals: no pair of
    /// principal and role may come again on its branch.
    fn derivation(&mut self, goal: Goal, above: &mut Vec<Goal>) -> Result<Derivation, Refusal> {
        self.nodes += 1;
        let node = self.nodes;
        let (credential, middle) = self.pair().ok_or(Refusal::new(11, node))?;
        let goals = self
            .table
            .premises(goal, credential, middle)
            .ok_or(Refusal::new(12, node))?;
        let level = above.len() + 1;
        if level > self.depth || above.contains(&goal) {
            return Err(Refusal::new(13, node));
        }
        above.push(goal);
        let mut premises = Vec::new();
        for goal in goals {
            premises.push(self.derivation(goal, above)?);
        }
        above.pop();
        Ok(Derivation {
            goal,
            credential,
            premises,
        })
    }

    /// The two numbers of the next node, if so many remain.
    fn pair(&mut self) -> Option<(Number, Number)> {
        let credential = *self.numbers.next()?;
        let middle = *self.numbers.next()?;
        Some((credential, middle))
    }
}
