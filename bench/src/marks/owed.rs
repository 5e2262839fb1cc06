//! Chains of four with eight automata, of which many are owed a word at once: each
//! demands a word through one of some roles, and which words there are goes by the
//! definers that are chosen.

use bwlchareg::layout::SOME_WORD;
use reference::generate::shapes::{self, from_records, Place, GOAL, MEMBER, OWNER};
use reference::records::{CredentialRecord, Head, Records};
use reference::Number;

use crate::families::Named;
use crate::writing::parts::chain;

/// So many automata there are.
const AUTOMATA: Number = Head::LIMITS.automata;
/// So many parts a chain has.
const PARTS: Number = 4;
/// Who owns the roles through which words are demanded.
const OTHER: Number = 2;
/// Which of the alternatives meet an automaton, counted from its own, which is the
/// first: as many as are wanted.
const MEETING: [Number; 3] = [0, 1, 3];

/// All tables.
pub fn tables() -> Vec<Named> {
    let levels = || 1..=4;
    let one = levels().map(|levels| named_again(0, levels, 8, 1));
    let three = levels().map(|levels| named_again(0, levels, 8, 3));
    let borne_above = levels().map(|levels| named_again(AUTOMATA - levels, levels, 6, 3));
    let members = (2..=4).map(members);
    let alternatives = (2..=4).map(alternatives);
    let all = one.chain(three).chain(borne_above);
    all.chain(members).chain(alternatives).collect()
}

/// A line of so many roles, and below it so many levels, of which each is a chain of
/// four times the next. The last role has so many alternatives, of which a
/// derivation can take several. All these credentials bear automata, and each
/// automaton is met by so many of the alternatives.
fn named_again(line: Number, levels: Number, alternatives: Number, meeting: usize) -> Named {
    let last = GOAL + line + levels;
    let (mut credentials, mut cells) = (Vec::new(), Vec::new());
    for role in GOAL..last {
        credentials.push(match role < GOAL + line {
            true => [OWNER, role, 2, OWNER, role + 1, 0],
            false => {
                let cell = cells.len() as Number + 1;
                cells.extend(chain(cell, &[role + 1; PARTS as usize]));
                [OWNER, role, 4, cell, 0, 0]
            }
        });
    }
    credentials.extend((1..=alternatives).map(|other| leading(last, other)));
    credentials.extend((1..=alternatives).map(member));
    let mut wallet = from_records(credentials, cells);
    demand(&mut wallet.records, alternatives, meeting);
    let above = match line {
        0 => String::new(),
        line => format!("line of {line}, "),
    };
    let what = format!("{above}levels {levels}, met by {meeting} of {alternatives}");
    (what, wallet)
}

/// A chain of four roles, each of which has so many definers with the member. They
/// bear all automata, of which each demands a word through one of the four roles.
fn members(definers: Number) -> Named {
    let mut wallet = shapes::choices(&[definers; PARTS as usize], Place::First);
    let records = &mut wallet.records;
    for automaton in 0..AUTOMATA {
        through(records, &[(OWNER, GOAL + 1 + automaton % PARTS)]);
    }
    bear(&mut records.credentials);
    let what = format!("four roles, definers {definers}, always met");
    (what, wallet)
}

/// A chain of four roles, each of which has so many definers, which lead to
/// alternatives. Two definers of different roles may lead to the same one.
fn alternatives(definers: Number) -> Named {
    let room = Head::LIMITS.credentials - 1 - PARTS * definers;
    let alternatives = room.min(AUTOMATA);
    let parts: Vec<Number> = (GOAL + 1..=GOAL + PARTS).collect();
    let defined = parts.iter().flat_map(|&part| vec![part; definers as usize]);
    let others = (1..=alternatives).cycle();
    let mut credentials = vec![[OWNER, GOAL, 4, 1, 0, 0]];
    credentials.extend(
        defined
            .zip(others)
            .map(|(part, other)| leading(part, other)),
    );
    credentials.extend((1..=alternatives).map(member));
    let mut wallet = from_records(credentials, chain(1, &parts));
    demand(&mut wallet.records, alternatives, MEETING.len());
    let what = format!("four roles, definers {definers}, alternatives {alternatives}");
    (what, wallet)
}

/// Whoever is in this alternative is in the role with this name.
fn leading(role: Number, alternative: Number) -> CredentialRecord {
    [OWNER, role, 2, OTHER, alternative, 0]
}

/// The member is in this alternative.
fn member(alternative: Number) -> CredentialRecord {
    [OTHER, alternative, 1, MEMBER, 0, 0]
}

/// Adds eight automata, each of which is met by so many of the alternatives, and
/// attaches them to all credentials but the members'.
fn demand(records: &mut Records, alternatives: Number, meeting: usize) {
    for automaton in 0..AUTOMATA {
        let meeting = MEETING[..meeting].iter();
        let roles = meeting.map(|further| (OTHER, (automaton + further) % alternatives + 1));
        through(records, &roles.collect::<Vec<_>>());
    }
    let members = records.credentials.len() - alternatives as usize;
    bear(&mut records.credentials[..members]);
}

/// Adds an automaton that demands a word through one of these roles.
fn through(records: &mut Records, roles: &[(Number, Number)]) {
    records.automata.push([1, 2, SOME_WORD]);
    let automaton = records.head().automata;
    let ways = roles
        .iter()
        .map(|&(owner, name)| [automaton, 0, 1, owner, name, 1]);
    let stays = [0, 1].map(|state| [automaton, state, 2, 0, 0, state]);
    records.edges.extend(stays.into_iter().chain(ways));
}

/// Attaches the eight automata to some credentials, one after the other.
fn bear(credentials: &mut [CredentialRecord]) {
    for (credential, automaton) in credentials.iter_mut().zip((1..=AUTOMATA).cycle()) {
        credential[5] = automaton;
    }
}

#[cfg(test)]
mod tests {
    use super::{tables, AUTOMATA};
    use crate::listing::Listing;
    use reference::records::Records;
    use reference::Number;
    use std::collections::BTreeSet;

    /// How many automata the credentials of a set bear.
    fn borne(records: &Records, set: u32) -> usize {
        let credentials = records.credentials.iter().enumerate();
        let used = credentials.filter(|(index, _)| (set >> index) & 1 == 1);
        let automata: BTreeSet<Number> = used.map(|(_, credential)| credential[5]).collect();
        automata
            .into_iter()
            .filter(|automaton| *automaton > 0)
            .count()
    }

    #[test]
    fn all_eight_are_owed_where_all_bearers_are_needed() {
        let mut tables = tables();
        tables.retain(|(what, _)| what.starts_with("line") || what.contains("met by 1"));
        assert_eq!(tables.len(), 8);
        for (what, wallet) in tables {
            let sets = Listing::of(&wallet).library_list().expect("a list");
            assert_eq!(sets.is_empty(), what == "levels 1, met by 1 of 8");
            for set in sets {
                assert_eq!(borne(&wallet.records, set), AUTOMATA as usize, "{what}");
            }
        }
    }
}
