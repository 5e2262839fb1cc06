//! Why there is no set, or not the one that was expected: what the library
//! answers to questions near the one that was asked.
//!
//! Every sentence rests on calls of the library, with the wallet's table or with
//! one that is made from it: with another depth limit, without constraints, with
//! one of them, with one name in the place of another. Nothing is judged here.

mod changed;
mod names;
mod object;
mod roles;
mod said;
mod sets;

use std::time::{Duration, Instant};

use bwlchareg::{Number, Query, Refusal};

use crate::answer::{listed, Answer};
use crate::limits::DEPTH;
use crate::table::Table;
use crate::Wallet;

pub use names::{Lone, Near, Sort};
pub use object::object;
pub use roles::{By, Unmet};
pub use said::{findings_of, text};
pub use sets::{KeptOff, Obstacle, Unconstrained};

/// Something that was found out: a sentence, and lines that belong below it.
#[derive(Clone, Debug, PartialEq, Eq)]
pub struct Finding {
    /// The sentence.
    pub sentence: String,
    /// What belongs below it, a line each.
    pub details: Vec<String>,
}

/// What is found out about a query of a wallet, in the order in which it is
/// said.
pub fn findings(wallet: &Wallet, query: Query) -> Vec<Finding> {
    findings_of(wallet, &why(wallet, query))
}

/// After so long the library is asked nothing more.
const PATIENCE: Duration = Duration::from_secs(10);

/// What the library answers. What was not asked, for want of time or because it is
/// of no use, is missing.
#[derive(Clone, Debug, PartialEq, Eq)]
pub struct Why {
    /// What was asked.
    pub query: Query,
    /// The answer to it.
    pub answer: Answer,
    /// The least depth limit at which a set exists.
    pub least: Option<Least>,
    /// The same without constraints, if any are attached.
    pub least_unconstrained: Option<Least>,
    /// Where sets are listed, the least depth limit above the query's at which
    /// others are.
    pub deeper: Option<Deeper>,
    /// What would be listed without constraints, if any are attached.
    pub unconstrained: Option<Unconstrained>,
    /// Roles that are asked for and that no credential defines.
    pub undefined: Vec<Unmet>,
    /// Roles that are asked for and that only credentials of kind 1 define, which
    /// name others than the query's principal.
    pub missing: Vec<Unmet>,
    /// Names that stand on one line only.
    pub lone: Vec<Lone>,
    /// Whether questions were left out for want of time.
    pub cut_short: bool,
}

/// A least depth limit, or none up to 16.
#[derive(Clone, Copy, Debug, PartialEq, Eq)]
pub enum Least {
    /// This depth limit.
    At(Number),
    /// None of those that a query may have.
    Nowhere,
}

/// A depth limit, and the sets that are listed within it and not within that of the
/// query.
#[derive(Clone, Debug, PartialEq, Eq)]
pub struct Deeper {
    /// The depth limit.
    pub depth: Number,
    /// The sets.
    pub sets: Vec<u32>,
}

/// Asks the library all that is of use.
pub fn why(wallet: &Wallet, query: Query) -> Why {
    why_within(wallet, query, PATIENCE)
}

/// The same, as far as there is time.
pub fn why_within(wallet: &Wallet, query: Query, time: Duration) -> Why {
    let mut asker = Asker {
        end: Instant::now() + time,
        cut_short: false,
    };
    let answer = listed(wallet, query);
    let mut why = Why {
        query,
        answer,
        least: None,
        least_unconstrained: None,
        deeper: None,
        unconstrained: None,
        undefined: Vec::new(),
        missing: Vec::new(),
        lone: Vec::new(),
        cut_short: false,
    };
    // A table or a query that is refused has no other answers.
    let refusal = why.answer.refusal().map(|refusal| refusal.number);
    if !matches!(refusal, None | Some(Refusal::NONE | Refusal::LONGER)) {
        return why;
    }
    let bare = changed::unconstrained(&wallet.table);
    why.least = asker.least(&wallet.table, query);
    why.deeper = asker.deeper(wallet, query, &why.answer);
    if bare != wallet.table {
        why.least_unconstrained = asker.least(&bare, query);
        why.unconstrained = sets::unconstrained(&mut asker, wallet, &bare, query, &why.answer);
    }
    (why.undefined, why.missing) = roles::unmet(&mut asker, &bare, query);
    why.lone = names::lone(&mut asker, wallet, query);
    why.cut_short = asker.cut_short;
    why
}

/// Asks the library as long as there is time.
pub(crate) struct Asker {
    end: Instant,
    cut_short: bool,
}

impl Asker {
    /// Whether there is time for a question.
    fn has_time(&mut self) -> bool {
        self.cut_short |= Instant::now() >= self.end;
        !self.cut_short
    }

    /// Whether there is a set; nothing if there is no time to ask.
    fn has_set(&mut self, table: &Table, query: Query) -> Option<bool> {
        let asked = self
            .has_time()
            .then(|| bwlchareg::list(&table.numbers(), query, &mut []));
        // Without a cell the answer is 9, or 10 where there is a set.
        asked.map(|answer| answer.is_err_and(|refusal| refusal.number == Refusal::LONGER))
    }

    /// The least depth limit at which there is a set.
    fn least(&mut self, table: &Table, query: Query) -> Option<Least> {
        for depth in 1..=DEPTH {
            if self.has_set(table, Query { depth, ..query })? {
                return Some(Least::At(depth));
            }
        }
        Some(Least::Nowhere)
    }

    /// The answer to a listing; nothing if there is no time to ask.
    fn list(&mut self, wallet: &Wallet, query: Query) -> Option<Answer> {
        self.has_time().then(|| listed(wallet, query))
    }

    /// The least depth limit above the query's at which sets are listed that are not
    /// on its list.
    fn deeper(&mut self, wallet: &Wallet, query: Query, answer: &Answer) -> Option<Deeper> {
        let Answer::Sets(known) = answer else {
            return None;
        };
        for depth in query.depth + 1..=DEPTH {
            if let Answer::Sets(mut sets) = self.list(wallet, Query { depth, ..query })? {
                sets.retain(|set| !known.contains(set));
                if !sets.is_empty() {
                    return Some(Deeper { depth, sets });
                }
            }
        }
        None
    }
}
