//! Tables whose constraint dies early: the search for a derivation has many ways
//! to go, and on each of them the constraint has no state left after a few roles.
//!
//! The constraint is on a credential that every derivation uses, so it cannot be
//! done without. It says "nothing but my own roles", by label 4.

use bwlchareg::layout::EVERY_WORD;
use reference::generate::shapes::{self, from_records, GOAL, MEMBER, OWNER};
use reference::generate::wallets::Wallet;
use reference::query::DEEPEST;
use reference::records::{CredentialRecord, EdgeRecord, Head};
use reference::table::LAST_STATE;
use reference::Number;

use crate::writing::parts::{add_busy, chain};

/// Who owns the roles on which the constraint dies.
const OTHER: Number = 2;
/// The state that a twin never leaves. It accepts nothing.
const TRAP: Number = LAST_STATE;
/// The edge of the constraint by which nothing but the owner's roles are read.
const OWN: EdgeRecord = [1, 0, 4, OWNER, 0, 0];

/// A table whose constraint dies early.
#[derive(Clone)]
pub struct Early {
    /// What it is.
    pub what: String,
    /// The table and the query.
    pub wallet: Wallet,
    /// At which roles of a word the constraint dies, the goal's being the first.
    pub dies: String,
}

impl Early {
    /// A table whose constraint has a state for its twin too, which is the last.
    /// No edge leads to it from another, so here it is never reached.
    fn new(what: String, mut wallet: Wallet, dies: String) -> Early {
        wallet.records.edges.push([1, TRAP, 2, 0, 0, TRAP]);
        Early { what, wallet, dies }
    }

    /// The same table but for one number: the constraint starts in that state
    /// too. So its set is never empty, and it accepts the same words.
    pub fn twin(&self) -> Wallet {
        let mut twin = self.wallet.clone();
        twin.records.automata[0][0] |= 1 << TRAP;
        twin
    }
}

/// The tables of which the list is timed.
pub fn lists() -> Vec<Early> {
    let mut tables = at_each_place("two ways on each level", 10, two_ways);
    for (people, levels) in [(3, 8), (3, 15), (4, 13)] {
        let what = format!("linked by {people} people");
        let shape = |levels, dies| linked(levels, people, dies);
        tables.extend(at_each_place(&what, levels, shape));
    }
    tables.extend([2, 6].map(beside_seven));
    tables.extend([2, 6].map(beside_a_short_way));
    tables.push(ring());
    tables
}

/// Tables of one shape with so many levels: the constraint dies at the first, the
/// second, a middle one, the last but one, or the last.
fn at_each_place(
    what: &str,
    levels: Number,
    shape: impl Fn(Number, Number) -> Wallet,
) -> Vec<Early> {
    let what = format!("{what}, levels {levels}");
    let places = [1, 2, levels / 2, levels - 1, levels];
    let table = |dies: Number| Early::new(what.clone(), shape(levels, dies), dies.to_string());
    places.map(table).to_vec()
}

/// The tables of which a record is written.
pub fn writings() -> Vec<Early> {
    [1, 3, 5].map(by_owners).to_vec()
}

/// Who owns the role of a level if the constraint dies at this one.
fn owner(level: Number, dies: Number) -> Number {
    match level < dies {
        true => OWNER,
        false => OTHER,
    }
}

/// The table with the constraint on the credential at an index, and with the role
/// of the first level as the one that is asked about.
fn constrained(mut wallet: Wallet, bearer: usize, dies: Number) -> Wallet {
    wallet.records.credentials[bearer][5] = 1;
    wallet.records.automata.push([1, 1, EVERY_WORD]);
    wallet.records.edges.push(OWN);
    wallet.query.owner = owner(1, dies);
    wallet
}

/// 3 to 10 levels, of which each but the last is defined twice: by the next, and
/// by a chain of the next and one more role. The constraint is on the member's
/// credential, the last level's.
fn two_ways(levels: Number, dies: Number) -> Wallet {
    const BESIDE: Number = 40;
    let mut credentials = vec![
        [owner(levels, dies), levels, 1, MEMBER, 0, 0],
        [OWNER, BESIDE, 1, MEMBER, 0, 0],
    ];
    let mut cells = Vec::new();
    for level in 1..levels {
        let (here, below) = (owner(level, dies), owner(level + 1, dies));
        let cell = cells.len() as Number + 1;
        cells.extend([[below, level + 1, cell + 1], [OWNER, BESIDE, 0]]);
        credentials.push([here, level, 2, below, level + 1, 0]);
        credentials.push([here, level, 4, cell, 0, 0]);
    }
    let mut wallet = from_records(credentials, cells);
    wallet.query.depth = levels;
    constrained(wallet, 0, dies)
}

/// 4 to 15 levels, each but the last linked by the next: whoever some member of
/// the next level vouches for is in it. So many people are members of the last
/// level, and each of them vouches for all of these; so on each level each of
/// them can be the middle. One level is a containment of the next, where the
/// owner changes. The constraint is on the first level's only credential.
fn linked(levels: Number, people: Number, dies: Number) -> Wallet {
    const VOUCHED: Number = 40;
    let people = MEMBER - people + 1..=MEMBER;
    let (last, change) = (owner(levels, dies), 1.max(dies - 1));
    let definer = |level: Number| -> CredentialRecord {
        let (here, below) = (owner(level, dies), owner(level + 1, dies));
        match level == change {
            true => [here, level, 2, below, level + 1, 0],
            false => [here, level, 3, level + 1, VOUCHED, 0],
        }
    };
    let mut credentials: Vec<CredentialRecord> = (1..levels).map(definer).collect();
    credentials.extend(people.clone().map(|one| [last, levels, 1, one, 0, 0]));
    credentials.extend(people.map(|one| [one, VOUCHED, 2, last, levels, 0]));
    let mut wallet = from_records(credentials, Vec::new());
    // Below the last link somebody vouches, by the last level's role.
    wallet.query.depth = levels + 1;
    constrained(wallet, 0, dies)
}

/// Levels linked by four people, and beside the constraint seven more, each on a
/// credential that every derivation uses. Those accept every word.
fn beside_seven(dies: Number) -> Early {
    let levels = 13;
    let mut wallet = linked(levels, 4, dies);
    let others = 2..=Head::LIMITS.automata;
    for _ in others.clone() {
        add_busy(&mut wallet.records);
    }
    let credentials = wallet.records.credentials.iter_mut().skip(1);
    for (credential, automaton) in credentials.zip(others) {
        credential[5] = automaton;
    }
    let what = format!("linked by 4, automata 8, levels {levels}");
    Early::new(what, wallet, dies.to_string())
}

/// Nine owners in a ring, each of whom has a role that contains those of the next
/// two. The constraint is on the member's credential.
fn ring() -> Early {
    let mut wallet = shapes::containments(9);
    for [owner, name, kind, first, second, _] in &mut wallet.records.credentials {
        (*owner, *name) = (*name, GOAL);
        if *kind == 2 {
            (*first, *second) = (*second, GOAL);
        }
    }
    let member = wallet.records.credentials.len() - 1;
    let wallet = constrained(wallet, member, DEEPEST);
    Early::new("ring of 9 owners".to_string(), wallet, "2".to_string())
}

/// Levels linked by three people, and beside them a way to the goal that has no
/// constraint: its set is the only one, and the long way is searched again for
/// each set that lacks it.
fn beside_a_short_way(dies: Number) -> Early {
    const SHORT: Number = 50;
    let levels = 12;
    let mut wallet = linked(levels, 3, dies);
    wallet.records.credentials.extend([
        [OWNER, GOAL, 2, OWNER, SHORT, 0],
        [OWNER, SHORT, 2, OWNER, SHORT + 1, 0],
        [OWNER, SHORT + 1, 1, MEMBER, 0, 0],
    ]);
    let what = format!("linked by 3 or a short way, levels {levels}");
    Early::new(what, wallet, dies.to_string())
}

/// Two definers of a role are needed because of a constraint, as in the tables
/// of [`harder`](crate::writing::harder) with choices. The goal is a chain of two
/// roles, and the same ways lead on from both: at each of 1 to 5 roles either
/// straight to the next, which comes first, or round by a role of another owner.
/// Below the one only the owner's roles may come, below the other the two owners
/// in turns: there the straight way dies as soon as it is taken.
fn by_owners(choices: Number) -> Early {
    const LEFT: Number = 2;
    const RIGHT: Number = 3;
    let (straight, round) = (|choice: Number| 10 + choice, |choice: Number| 30 + choice);
    let mut credentials: Vec<CredentialRecord> = vec![[OWNER, GOAL, 4, 1, 0, 1]];
    credentials.extend([LEFT, RIGHT].map(|side| [OWNER, side, 2, OWNER, straight(1), 0]));
    for choice in 1..=choices {
        let (here, next) = (straight(choice), straight(choice + 1));
        credentials.push([OWNER, here, 2, OWNER, next, 0]);
        credentials.push([OWNER, here, 2, OTHER, round(choice), 0]);
        credentials.push([OTHER, round(choice), 2, OWNER, next, 0]);
    }
    credentials.push([OWNER, straight(choices + 1), 1, MEMBER, 0, 0]);
    let mut wallet = from_records(credentials, chain(1, &[LEFT, RIGHT]));
    // After the goal's role, state 1, come the left side, state 2, or the right
    // one, states 3 and 4.
    let accepting = 1 << 2 | 1 << 4;
    wallet.records.automata.push([1, accepting, EVERY_WORD]);
    wallet.records.edges.extend([
        [1, 0, 1, OWNER, GOAL, 1],
        [1, 1, 1, OWNER, LEFT, 2],
        [1, 2, 4, OWNER, 0, 2],
        [1, 1, 1, OWNER, RIGHT, 3],
        [1, 3, 4, OWNER, 0, 4],
        [1, 4, 4, OTHER, 0, 3],
    ]);
    let dies: Vec<String> = (1..=choices)
        .map(|choice| (2 * choice + 2).to_string())
        .collect();
    let what = format!("two definers by owners, choices {choices}");
    Early::new(what, wallet, dies.join(", "))
}

#[cfg(test)]
mod tests {
    use super::{lists, writings, Early};
    use crate::listing::{library_query, Listing};
    use crate::peers::again::can_a_role_come;
    use crate::writing::harder;
    use reference::generate::wallets::Wallet;
    use std::collections::BTreeSet;

    #[test]
    fn the_tables_are_valid_and_can_be_told_apart() {
        let tables = [lists(), writings()].concat();
        for table in &tables {
            for wallet in [&table.wallet, &table.twin()] {
                let query = library_query(wallet.query);
                let valid = bwlchareg::check_query(&wallet.records.numbers(), query);
                assert_eq!(valid, Ok(()), "{}", table.what);
            }
            assert!(table.what.len() <= 38);
        }
        let told: BTreeSet<_> = tables
            .iter()
            .map(|table| (&table.what, &table.dies))
            .collect();
        assert_eq!(told.len(), tables.len());
    }

    #[test]
    fn an_older_build_answers_the_same() {
        let early = [lists(), writings()].concat().into_iter();
        let early = early.map(|table| table.wallet);
        let harder = harder::tables().into_iter().map(|(_, wallet)| wallet);
        let mut all = early.chain(harder).map(|wallet| Listing::of(&wallet));
        assert!(!all.any(|listing| can_a_role_come(&listing)));
    }

    #[test]
    fn a_twin_differs_by_one_number() {
        for table in [lists(), writings()].concat() {
            let twins = [&table.wallet, &table.twin()].map(|wallet| wallet.records.numbers());
            let pairs = twins[0].iter().zip(&twins[1]);
            assert_eq!(pairs.filter(|(one, other)| one != other).count(), 1);
        }
    }

    /// The sets of a list.
    fn listed(wallet: &Wallet) -> Vec<u32> {
        Listing::of(wallet).library_list().expect("a list")
    }

    /// The tables but those that have the most levels: without the cut they take
    /// long.
    fn quick(tables: Vec<Early>) -> impl Iterator<Item = Early> {
        const MOST: [&str; 2] = ["levels 13", "levels 15"];
        let is_quick = |table: &Early| !MOST.iter().any(|most| table.what.ends_with(most));
        tables.into_iter().filter(is_quick)
    }

    #[test]
    fn twins_have_the_same_lists() {
        for table in quick([lists(), writings()].concat()) {
            let [list, twin] = [&table.wallet, &table.twin()].map(listed);
            assert_eq!(list, twin, "{}", table.what);
        }
    }

    #[test]
    fn the_constraint_leaves_no_set_but_the_short_way() {
        assert!(quick(lists()).count() > 10);
        for table in quick(lists()) {
            let mut free = table.wallet.clone();
            for credential in &mut free.records.credentials {
                credential[5] = 0;
            }
            let is_short = |set: &u32| *set == 7 << 17;
            assert!(!listed(&free).iter().all(is_short), "{}", table.what);
            assert!(listed(&table.wallet).iter().all(is_short), "{}", table.what);
        }
    }

    #[test]
    fn a_written_set_has_every_credential() {
        for table in writings() {
            let all = (1 << table.wallet.records.credentials.len()) - 1;
            assert_eq!(listed(&table.wallet), [all], "{}", table.what);
        }
    }
}
