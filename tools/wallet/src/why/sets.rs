//! Sets that constraints keep off the list, and which constraints do so.

use bwlchareg::{Number, Query, Refusal};

use crate::answer::{Answer, CELLS};
use crate::derivation::{judge, numbered, Judged};
use crate::explain::members;
use crate::proof::short_record;
use crate::table::Table;
use crate::why::changed::with_only;
use crate::why::Asker;
use crate::Wallet;

/// The most sets that are gone into.
pub const MOST_SETS: usize = 20;

/// What would be listed if no constraint were attached.
#[derive(Clone, Debug, PartialEq, Eq)]
pub struct Unconstrained {
    /// The sets; the first ones, if there are more than the listing program has
    /// cells.
    pub sets: Vec<u32>,
    /// Whether there are more.
    pub is_cut: bool,
    /// How many of them are not on the list.
    pub kept_off_count: usize,
    /// The first of those.
    pub kept_off: Vec<KeptOff>,
}

/// A set that would be listed if no constraint were attached.
#[derive(Clone, Debug, PartialEq, Eq)]
pub struct KeptOff {
    /// The set.
    pub set: u32,
    /// Its first record without constraints, judged with them; nothing of one that
    /// is too long.
    pub judged: Option<Judged>,
    /// What the library says of each constraint that is attached to one of its
    /// credentials.
    pub obstacles: Vec<Obstacle>,
}

/// A constraint of a set that is not listed.
#[derive(Clone, Debug, PartialEq, Eq)]
pub struct Obstacle {
    /// The automaton.
    pub automaton: Number,
    /// Whether the set would not be listed either if this were the only constraint:
    /// no record of the set meets it.
    pub is_enough: bool,
    /// Whether it rejects the set's first record.
    pub rejects: bool,
}

/// What would be listed with a table without constraints, beside the answer with
/// them. Where a list is longer than the cells, it is not compared.
pub fn unconstrained(
    asker: &mut Asker,
    wallet: &Wallet,
    bare: &Table,
    query: Query,
    answer: &Answer,
) -> Option<Unconstrained> {
    let listed: &[u32] = match answer {
        Answer::Sets(sets) => sets,
        Answer::Refused(refusal) if refusal.number == Refusal::NONE => &[],
        Answer::Refused(_) => return None,
    };
    if !asker.has_time() {
        return None;
    }
    let mut sets = vec![0; CELLS];
    let is_cut = match bwlchareg::list(&bare.numbers(), query, &mut sets) {
        Ok(count) => {
            sets.truncate(count);
            false
        }
        Err(refusal) if refusal.number == Refusal::LONGER => true,
        Err(_) => {
            sets.clear();
            false
        }
    };
    let others = sets.iter().filter(|set| !listed.contains(set));
    let gone_into = others.clone().take(MOST_SETS);
    let bare = Wallet {
        table: bare.clone(),
        ..wallet.clone()
    };
    Some(Unconstrained {
        kept_off_count: others.count(),
        kept_off: gone_into
            .map_while(|set| kept_off(asker, wallet, &bare, query, *set))
            .collect(),
        sets,
        is_cut,
    })
}

/// What the library says of a set that constraints keep off the list.
fn kept_off(
    asker: &mut Asker,
    wallet: &Wallet,
    bare: &Wallet,
    query: Query,
    set: u32,
) -> Option<KeptOff> {
    let record = asker.has_time().then(|| short_record(bare, query, set))?;
    let mut obstacles = Vec::new();
    for automaton in attached(&wallet.table, set) {
        let numbers = with_only(&wallet.table, automaton).numbers();
        let written = asker
            .has_time()
            .then(|| bwlchareg::write(&numbers, query, set, &mut []))?;
        let is_enough = written.is_err_and(|refusal| refusal.number == Refusal::NOT_LISTED);
        let verdict = record
            .as_ref()
            .map(|own| bwlchareg::verify(&numbers, query, own));
        obstacles.push(Obstacle {
            automaton,
            is_enough,
            rejects: verdict.is_some_and(|verdict| verdict.is_err()),
        });
    }
    Some(KeptOff {
        set,
        judged: record.map(|record| judge(wallet, query, &record)),
        obstacles,
    })
}

/// The automata that are attached to credentials of a set, ascending.
fn attached(table: &Table, set: u32) -> Vec<Number> {
    let credentials = members(table, set).filter_map(|number| numbered(table, number));
    let automata = credentials.map(|credential| credential.automaton);
    let mut automata: Vec<Number> = automata.filter(|automaton| *automaton != 0).collect();
    automata.sort_unstable();
    automata.dedup();
    automata
}
