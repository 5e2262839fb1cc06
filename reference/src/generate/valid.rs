//! Valid tables, valid by the way in which they are made.

use crate::generate::chains;
use crate::random::Random;
use crate::records::{AutomatonRecord, CellRecord, CredentialRecord, EdgeRecord, Head, Records};
use crate::sorts::HIGHEST;
use crate::table::{EVERY_STATE, LAST_STATE};
use crate::Number;

/// Counts of a small table.
pub fn small(random: &mut Random) -> Head {
    counts(random, [5, 7, 3, 5], |random, limit| {
        random.between(0, limit)
    })
}

/// Any counts within the limits.
pub fn any(random: &mut Random) -> Head {
    counts(random, Head::LIMITS.numbers(), |random, limit| {
        random.between(0, limit)
    })
}

/// Each count is either 0 or its limit.
pub fn corner(random: &mut Random) -> Head {
    counts(random, Head::LIMITS.numbers(), |random, limit| {
        *random.pick(&[0, limit])
    })
}

/// Counts of every size: small, middling, at the limits, the largest.
pub fn head(random: &mut Random) -> Head {
    match random.below(16) {
        0..=9 => small(random),
        10..=12 => any(random),
        13..=14 => corner(random),
        _ => Head::LIMITS,
    }
}

/// Draws the four counts. An edge belongs to an automaton, so without
/// automata there are no edges.
fn counts(
    random: &mut Random,
    limits: [Number; 4],
    mut draw: impl FnMut(&mut Random, Number) -> Number,
) -> Head {
    let [credentials, cells, automata, edges] = limits.map(|limit| draw(random, limit));
    Head {
        credentials,
        cells,
        automata,
        edges: if automata == 0 { 0 } else { edges },
    }
}

/// The records of a valid table with these counts.
pub fn records(random: &mut Random, head: Head) -> Records {
    let cells = cells(random, head.cells);
    let starts = chains::right_starts(&cells);
    let credentials = repeating(random, head.credentials, |random| {
        credential(random, &starts, head.automata)
    });
    let automata = (0..head.automata).map(|_| automaton(random)).collect();
    let edges = edges(random, head);
    Records {
        credentials,
        cells,
        automata,
        edges,
    }
}

/// Draws so many records, now and then one that is equal to the last.
fn repeating<Record: Copy>(
    random: &mut Random,
    count: Number,
    mut draw: impl FnMut(&mut Random) -> Record,
) -> Vec<Record> {
    let mut records: Vec<Record> = Vec::new();
    for _ in 0..count {
        let record = match records.last() {
            Some(&last) if random.one_in(8) => last,
            _ => draw(random),
        };
        records.push(record);
    }
    records
}

/// A principal or a role name; the ends of the range and small numbers, which
/// often meet, come more often than the rest.
pub fn one_to_highest(random: &mut Random) -> Number {
    match random.below(4) {
        0 => *random.pick(&[1, HIGHEST]),
        1 | 2 => random.between(1, 4),
        _ => random.between(1, HIGHEST),
    }
}

/// A credential. Kind 4 needs a cell at which a chain of 2 to 4 cells starts.
fn credential(random: &mut Random, starts: &[Number], automata: Number) -> CredentialRecord {
    let owner = one_to_highest(random);
    let name = one_to_highest(random);
    let kinds = if starts.is_empty() { 3 } else { 4 };
    let kind = random.between(1, kinds);
    let first = match kind {
        4 => *random.pick(starts),
        _ => one_to_highest(random),
    };
    let second = match kind {
        2 | 3 => one_to_highest(random),
        _ => 0,
    };
    let automaton = random.between(0, automata);
    [owner, name, kind, first, second, automaton]
}

/// Part cells, drawn from the last to the first, since a cell's next is a
/// greater one. Some name the same role as their next cell.
fn cells(random: &mut Random, count: Number) -> Vec<CellRecord> {
    let mut cells = vec![[0; 3]; count as usize];
    for number in (1..=count).rev() {
        let next = next_cell(random, number, count);
        let role = match next {
            0 => None,
            _ if random.one_in(4) => Some(cells[next as usize - 1]),
            _ => None,
        };
        cells[number as usize - 1] = match role {
            Some([principal, name, _]) => [principal, name, next],
            None => [one_to_highest(random), one_to_highest(random), next],
        };
    }
    cells
}

/// A next for a cell: 0, the following cell, or any greater one.
fn next_cell(random: &mut Random, number: Number, count: Number) -> Number {
    match random.below(3) {
        _ if number == count => 0,
        0 => 0,
        1 => number + 1,
        _ => random.between(number + 1, count),
    }
}

/// An automaton with any mark; the empty set and the set of all states come often.
fn automaton(random: &mut Random) -> AutomatonRecord {
    let mut set = || match random.below(4) {
        0 => 0,
        1 => EVERY_STATE,
        _ => random.between(0, EVERY_STATE),
    };
    [set(), set(), random.between(0, 1)]
}

/// The edges. Only every second automaton may have label 4, so that in a table
/// of many edges there are automata without it too.
fn edges(random: &mut Random, head: Head) -> Vec<EdgeRecord> {
    let may_have_4: Vec<bool> = (0..head.automata).map(|_| random.one_in(2)).collect();
    repeating(random, head.edges, |random| edge(random, &may_have_4))
}

/// An edge of one of the automata, of which there is at least one; it says of
/// each whether it may have label 4.
fn edge(random: &mut Random, may_have_4: &[bool]) -> EdgeRecord {
    let automaton = random.between(1, may_have_4.len() as Number);
    let from = random.between(0, LAST_STATE);
    let label = match may_have_4[automaton as usize - 1] {
        true if random.one_in(2) => 4,
        _ => random.between(1, 3),
    };
    let (owner, name) = match label {
        2 => (0, 0),
        4 => (one_to_highest(random), 0),
        _ => (one_to_highest(random), one_to_highest(random)),
    };
    let to = random.between(0, LAST_STATE);
    [automaton, from, label, owner, name, to]
}
