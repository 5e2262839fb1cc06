//! Tables in which a minimal set often has several accepted records, so that it
//! matters which of them is first.
//!
//! The goal rests on two to four parts, and every part on one shared role, to
//! which there are two or three ways. A part may forbid one of the ways below
//! it, or demand that some part goes by one. So a set with several ways is often
//! minimal, and a part that forbids none of them may go by any, as long as each
//! way that is demanded is gone by some part.

use bwlchareg::{layout, Number, Query};

use super::Random;

/// The owner of the roles, who is asked about, and the first of the middles.
const OWNER: Number = 1;
const MEMBER: Number = 2;
const MIDDLE: Number = 3;
/// The most ways, and the last principal that a table names.
const WAYS: Number = 3;
pub const LAST_PRINCIPAL: Number = MIDDLE + WAYS - 1;
/// The names of the roles; parts and ways are numbered after theirs.
const GOAL: Number = 1;
const SHARED: Number = 2;
const LINK: Number = 3;
const PART: Number = 10;
const WAY: Number = 20;

/// What a part asks by its constraint.
enum Wish {
    /// That no word below the part goes by this way.
    Not([Number; 2]),
    /// That some word goes by this way, below whichever part.
    Some([Number; 2]),
}

/// The records of a table, by their sorts.
#[derive(Default)]
struct Records {
    credentials: Vec<[Number; layout::CREDENTIAL]>,
    cells: Vec<[Number; layout::CELL]>,
    automata: Vec<[Number; layout::AUTOMATON]>,
    edges: Vec<[Number; layout::EDGE]>,
}

impl Records {
    fn numbers(&self) -> Vec<Number> {
        let Records {
            credentials,
            cells,
            automata,
            edges,
        } = self;
        let counts = [credentials.len(), cells.len(), automata.len(), edges.len()];
        let mut table: Vec<Number> = counts.map(|count| count as Number).to_vec();
        table.extend(credentials.as_flattened());
        table.extend(cells.as_flattened());
        table.extend(automata.as_flattened());
        table.extend(edges.as_flattened());
        table
    }
}

/// Such a table, with its query.
pub fn crossing(random: &mut Random) -> (Vec<Number>, Query) {
    let (parts, ways) = (random.between(2, 4), random.between(2, WAYS));
    let linked = random.one_in(2);
    let mut records = Records::default();
    records.credentials.push([OWNER, GOAL, 4, 1, 0, 0]);
    for part in 1..=parts {
        let next = if part == parts { 0 } else { part + 1 };
        records.cells.push([OWNER, PART + part, next]);
        let named = way(random.between(1, ways), linked);
        let wish = match random.up_to(2) {
            0 => None,
            1 => Some(Wish::Not(named)),
            _ => Some(Wish::Some(named)),
        };
        add_part(&mut records, PART + part, wish);
    }
    add_ways(&mut records, ways, linked);
    shuffle(random, &mut records.credentials);
    let query = Query {
        principal: MEMBER,
        owner: OWNER,
        name: GOAL,
        depth: random.between(4, 5),
    };
    (records.numbers(), query)
}

/// Whoever is in the shared role is in a part, if its wish is met.
fn add_part(records: &mut Records, part: Number, wish: Option<Wish>) {
    let mut credential = [OWNER, part, 2, OWNER, SHARED, 0];
    if let Some(wish) = wish {
        credential[5] = records.automata.len() as Number + 1;
        add_automaton(records, part, wish);
    }
    records.credentials.push(credential);
}

/// The automaton for a part's wish.
fn add_automaton(records: &mut Records, part: Number, wish: Wish) {
    let automaton = records.automata.len() as Number + 1;
    let edge =
        |from, label, [owner, name]: [Number; 2], to| [automaton, from, label, owner, name, to];
    match wish {
        // Below the part it is in state 1, and reads every role but the way's.
        Wish::Not(way) => {
            records.automata.push([1, 3, layout::EVERY_WORD]);
            records.edges.push(edge(0, 3, [OWNER, part], 0));
            records.edges.push(edge(0, 1, [OWNER, part], 1));
            records.edges.push(edge(1, 3, way, 1));
        }
        // After the way's role, which is the last of a word, it is in state 1.
        Wish::Some(way) => {
            records.automata.push([1, 2, layout::SOME_WORD]);
            records.edges.push(edge(0, 2, [0, 0], 0));
            records.edges.push(edge(0, 1, way, 1));
        }
    }
}

/// So many ways to the shared role: by one link with several middles, or by a
/// containment for each.
fn add_ways(records: &mut Records, ways: Number, linked: bool) {
    let credentials = &mut records.credentials;
    if linked {
        credentials.push([OWNER, SHARED, 3, LINK, WAY, 0]);
    }
    for number in 1..=ways {
        let [owner, name] = way(number, linked);
        credentials.push(match linked {
            true => [OWNER, LINK, 1, owner, 0, 0],
            false => [OWNER, SHARED, 2, owner, name, 0],
        });
        credentials.push([owner, name, 1, MEMBER, 0, 0]);
    }
}

/// The role by which a way goes: one of a middle's, or one of the owner's.
fn way(number: Number, linked: bool) -> [Number; 2] {
    match linked {
        true => [MIDDLE + number - 1, WAY],
        false => [OWNER, WAY + number],
    }
}

/// Puts items into any order.
fn shuffle<Item>(random: &mut Random, items: &mut [Item]) {
    for last in (1..items.len()).rev() {
        items.swap(last, random.up_to(last));
    }
}
