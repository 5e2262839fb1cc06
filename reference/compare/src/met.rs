//! By which mark a record is refused with 14, or accepted though an automaton
//! rejects some of its words.

use std::fmt;

use reference::derivation::Derivation;
use reference::pairs::is_in;
use reference::sorts::Role;
use reference::table::{Demand, Table};
use reference::words::{accepts, every_word};
use reference::Number;

use crate::features::Uses;
use crate::Verdict;

/// What a verdict owes to a mark.
#[derive(Clone, Copy, Debug, PartialEq, Eq, PartialOrd, Ord)]
pub enum Met {
    /// It is refused with 14 for an automaton of mark 0.
    RefusedByZero,
    /// It is refused with 14 for an automaton of mark 1.
    RefusedByOne,
    /// It is accepted, and a used automaton of mark 1 rejects one of its words.
    OneWord,
    /// So it is, and this automaton rejects every word that passes through a
    /// credential to which it is attached.
    WordElsewhere,
    /// It is accepted, and an automaton of mark 1 that no used credential bears
    /// rejects every word.
    NotAsked,
}

impl Met {
    /// Everything that a verdict can owe to a mark.
    pub const ALL: [Met; 5] = [
        Met::RefusedByZero,
        Met::RefusedByOne,
        Met::OneWord,
        Met::WordElsewhere,
        Met::NotAsked,
    ];

    /// What the verdict on a record that derives its query owes to marks.
    pub fn of(table: &Table, derivation: &Derivation, verdict: Verdict) -> Vec<Met> {
        let used_set = match verdict {
            Ok(used_set) => used_set,
            Err(refusal) => {
                return match table.automata[refusal.position as usize - 1].demand {
                    Demand::EveryWord => vec![Met::RefusedByZero],
                    Demand::SomeWord => vec![Met::RefusedByOne],
                }
            }
        };
        let used = Uses::of(table, used_set).automata;
        let mut met = Vec::new();
        for (number, automaton) in (1..).zip(&table.automata) {
            let accepts = |word: &[Role]| accepts(table, number, word);
            if automaton.demand == Demand::EveryWord || every_word(derivation, accepts) {
                continue;
            }
            if used.contains(&number) {
                met.push(Met::OneWord);
                if !accepts_through(table, number, derivation) {
                    met.push(Met::WordElsewhere);
                }
            } else if every_word(derivation, |word| !accepts(word)) {
                met.push(Met::NotAsked);
            }
        }
        met.sort();
        met.dedup();
        met
    }
}

/// Whether an automaton accepts a word that passes through a credential to which
/// it is attached.
fn accepts_through(table: &Table, number: Number, derivation: &Derivation) -> bool {
    let numbered = (1 as Number..).zip(&table.credentials);
    let bearers = numbered.filter(|(_, credential)| credential.automaton == Some(number));
    let bearers = bearers.fold(0, |set, (credential, _)| set | 1 << (credential - 1));
    let accepted = |word: &[Role]| accepts(table, number, word);
    some_word_through(bearers, derivation, &mut Vec::new(), false, &accepted)
}

/// Whether something holds of a word that passes through a credential of a set,
/// below these roles, where it may have done so already.
fn some_word_through(
    set: u32,
    derivation: &Derivation,
    above: &mut Vec<Role>,
    passed: bool,
    holds: &impl Fn(&[Role]) -> bool,
) -> bool {
    let passed = passed || is_in(derivation.credential, set);
    above.push(derivation.goal.role);
    let held = match &derivation.premises[..] {
        [] => passed && holds(above),
        premises => premises
            .iter()
            .any(|premise| some_word_through(set, premise, above, passed, holds)),
    };
    above.pop();
    held
}

impl fmt::Display for Met {
    fn fmt(&self, out: &mut fmt::Formatter<'_>) -> fmt::Result {
        out.pad(match self {
            Met::RefusedByZero => "refused 14 by mark 0",
            Met::RefusedByOne => "refused 14 by mark 1",
            Met::OneWord => "accepted, mark 1 rejects a word",
            Met::WordElsewhere => "so, and every word of its credentials",
            Met::NotAsked => "accepted, mark 1 rejects all, not asked",
        })
    }
}

#[cfg(test)]
mod tests {
    use reference::derivation::Derivation;
    use reference::records::Records;
    use reference::shop::{Q, R, T};
    use reference::table::Table;
    use reference::{verify, Number};

    use super::Met;

    /// What the verdict on a record of the shop owes to an automaton of this mark,
    /// attached to this credential, which accepts the words through
    /// Shop.accredited.
    fn met(mark: Number, credential: usize, record: &[Number]) -> Vec<Met> {
        let mut records = Records::read(&T).expect("T is accepted");
        records.credentials[credential - 1][5] = 1;
        records.automata.push([1, 2, mark]);
        records
            .edges
            .extend([[1, 0, 2, 0, 0, 0], [1, 0, 1, 1, 3, 1]]);
        let numbers = records.numbers();
        let table = Table::read(&numbers).expect("an accepted table");
        let asked = Q.read().expect("Q is valid");
        let derivation = Derivation::read(&table, asked, record).expect("a right record");
        Met::of(&table, &derivation, verify(&numbers, Q, record))
    }

    #[test]
    fn a_verdict_tells_what_it_owes_to_marks() {
        assert_eq!(met(0, 2, &R), [Met::RefusedByZero]);
        assert_eq!(met(1, 4, &[4, 0]), [Met::RefusedByOne]);
        // The word through Shop.accredited is that of credential 2.
        assert_eq!(met(1, 1, &R), [Met::OneWord]);
        assert_eq!(met(1, 2, &R), [Met::OneWord]);
        assert_eq!(met(1, 3, &R), [Met::OneWord, Met::WordElsewhere]);
        assert_eq!(met(1, 3, &[4, 0]), [Met::NotAsked]);
        assert_eq!(met(0, 3, &[4, 0]), []);
    }
}
