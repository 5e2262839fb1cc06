//! Marks for the automata of made-up tables: whether they demand every word or
//! some word.

use crate::random::Random;
use crate::records::Records;

/// Which marks the automata of a table get.
#[derive(Clone, Copy, Debug, PartialEq, Eq, PartialOrd, Ord)]
pub enum Marks {
    /// All of them 0.
    Zeros,
    /// All of them 1.
    Ones,
    /// Each of them 0 or 1.
    Mixed,
}

impl Marks {
    /// One of them: every second time 0 and 1 are mixed.
    pub fn drawn(random: &mut Random) -> Marks {
        match random.below(4) {
            0 => Marks::Zeros,
            1 => Marks::Ones,
            _ => Marks::Mixed,
        }
    }

    /// Gives such marks to all automata of a table.
    pub fn give(self, random: &mut Random, records: &mut Records) {
        for [_, _, mark] in &mut records.automata {
            *mark = match self {
                Marks::Zeros => 0,
                Marks::Ones => 1,
                Marks::Mixed => random.between(0, 1),
            };
        }
    }
}

/// Gives marks to all automata of a table: all of them 0, all 1, or mixed. They
/// are drawn from a source of their own, so that nothing else that is made up
/// depends on them.
pub fn draw(random: &Random, records: &mut Records) {
    draw_one_in(1, random, records);
}

/// The same once in so many times; otherwise the marks are left as they are.
pub fn draw_one_in(times: usize, random: &Random, records: &mut Records) {
    let mut own = Random::new(!random.clone().bits());
    if own.one_in(times) {
        let marks = Marks::drawn(&mut own);
        marks.give(&mut own, records);
    }
}
