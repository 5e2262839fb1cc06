//! Drawn slices and queries for the tests: a fixed seed gives the same ones
//! again. Most are no tables at all; some are accepted, so that every refusal
//! is reached.

pub mod crossing;

use bwlchareg::{layout, minimal_sets, Number, Query};

/// SplitMix64: a counter that goes up by a fixed odd step, whose bits are then
/// mixed.
pub struct Random {
    counter: u64,
}

impl Random {
    /// The source with this seed.
    pub fn new(seed: u64) -> Random {
        Random { counter: seed }
    }

    fn bits(&mut self) -> u64 {
        self.counter = self.counter.wrapping_add(0x9E37_79B9_7F4A_7C15);
        let mut mixed = self.counter;
        mixed = (mixed ^ (mixed >> 30)).wrapping_mul(0xBF58_476D_1CE4_E5B9);
        mixed = (mixed ^ (mixed >> 27)).wrapping_mul(0x94D0_49BB_1331_11EB);
        mixed ^ (mixed >> 31)
    }

    /// A number from `low` to `high`, both included.
    pub fn between(&mut self, low: Number, high: Number) -> Number {
        low + (self.bits() % (u64::from(high - low) + 1)) as Number
    }

    /// A length or an index up to `most`.
    pub fn up_to(&mut self, most: usize) -> usize {
        (self.bits() % (most as u64 + 1)) as usize
    }

    /// True once in so many times.
    pub fn one_in(&mut self, times: usize) -> bool {
        self.up_to(times - 1) == 0
    }
}

/// The longest slice that is drawn.
pub const LONGEST: usize = 70_000;

/// A slice that may be of any length and have any numbers in it.
pub fn slice(random: &mut Random) -> Vec<Number> {
    let most = match random.up_to(40) {
        0 => LONGEST,
        1..=20 => 200,
        _ => 12,
    };
    let length = random.up_to(most);
    let highest = match random.up_to(4) {
        0 => return vec![0; length],
        1 => return vec![Number::MAX; length],
        2 => Number::MAX,
        3 => 64,
        _ => 4,
    };
    (0..length).map(|_| random.between(0, highest)).collect()
}

/// A table's slice: anything, a table with one wrong number or length, or a
/// table.
pub fn table(random: &mut Random) -> Vec<Number> {
    if random.one_in(4) {
        return slice(random);
    }
    let mut table = accepted(random);
    if random.one_in(8) {
        begin_chains_late(&mut table);
    }
    if random.one_in(3) {
        let place = random.up_to(table.len() - 1);
        let highest = if random.one_in(2) { 4 } else { 80 };
        table[place] = random.between(0, highest);
    }
    if random.one_in(12) {
        let length = random.up_to(table.len() + 2);
        table.resize(length, 1);
    }
    table
}

/// Lets every chain begin at the second cell of its pair, which is its last.
fn begin_chains_late(table: &mut [Number]) {
    for number in 1..=layout::counts(table)[0] {
        let place = layout::credential(table, number);
        let credential = &mut table[place];
        if credential[2] == 4 {
            credential[3] += 1;
        }
    }
}

/// A table of few principals and names, so that credentials meet. Part cells
/// come in pairs, each a chain.
pub fn accepted(random: &mut Random) -> Vec<Number> {
    let credentials = random.between(0, 8);
    let pairs = random.between(0, 3);
    let automata = random.between(0, 8);
    let edges = if automata == 0 {
        0
    } else {
        random.between(0, 12)
    };
    let mut table = vec![credentials, 2 * pairs, automata, edges];
    for _ in 0..credentials {
        table.extend(credential(random, pairs, automata));
    }
    for pair in 0..pairs {
        let [owner, name] = role(random);
        table.extend([owner, name, 2 * pair + 2]);
        let [owner, name] = role(random);
        table.extend([owner, name, 0]);
    }
    for _ in 0..automata {
        // Few states, so that some words are accepted and some are not.
        table.extend([random.between(0, 3), random.between(0, 7)]);
        table.push(random.between(layout::EVERY_WORD, layout::SOME_WORD));
    }
    for _ in 0..edges {
        table.extend(edge(random, automata));
    }
    table
}

/// Such a table with a query.
pub fn accepted_and_query(random: &mut Random) -> (Vec<Number>, Query) {
    let table = accepted(random);
    let query = query(random, &table);
    (table, query)
}

fn credential(
    random: &mut Random,
    pairs: Number,
    automata: Number,
) -> [Number; layout::CREDENTIAL] {
    let [owner, name] = role(random);
    let [first, second] = role(random);
    let automaton = match random.up_to(3) {
        0 => random.between(0, automata),
        _ => 0,
    };
    match random.up_to(5) {
        0 => [owner, name, 2, first, second, automaton],
        1 => [owner, name, 3, second, name, automaton],
        2 if pairs > 0 => {
            let cell = 2 * random.between(0, pairs - 1) + 1;
            [owner, name, 4, cell, 0, automaton]
        }
        _ => [owner, name, 1, first, 0, automaton],
    }
}

fn edge(random: &mut Random, automata: Number) -> [Number; layout::EDGE] {
    let label = random.between(1, 4);
    let [owner, name] = role(random);
    let [owner, name] = match label {
        2 => [0, 0],
        4 => [owner, 0],
        _ => [owner, name],
    };
    let automaton = random.between(1, automata);
    let (from, to) = (random.between(0, 2), random.between(0, 2));
    [automaton, from, label, owner, name, to]
}

fn role(random: &mut Random) -> [Number; 2] {
    [random.between(1, 2), random.between(1, 3)]
}

/// The whole list of a drawn table, empty where there is none.
pub fn listed(table: &[Number], query: Query) -> Vec<u32> {
    minimal_sets(table, query).unwrap_or_default()
}

/// A query, valid most of the time, for a role of the table where there is one.
pub fn query(random: &mut Random, table: &[Number]) -> Query {
    let defined: Vec<_> = credentials(table)
        .map(|(_, credential)| credential)
        .collect();
    let [owner, name] = match defined.len() {
        0 => role(random),
        count => {
            let credential = defined[random.up_to(count - 1)];
            [credential[0], credential[1]]
        }
    };
    let mut query = Query {
        principal: random.between(1, 2),
        owner,
        name,
        depth: random.between(1, 5),
    };
    if random.one_in(16) {
        query.principal = random.between(60, 70);
    }
    if random.one_in(16) {
        query.owner = random.between(0, 1);
    }
    if random.one_in(16) {
        query.name = random.between(0, Number::MAX);
    }
    if random.one_in(16) {
        query.depth = random.between(15, 17);
    }
    query
}

/// A record's slice: anything, or a derivation that is drawn goal by goal, whole
/// most of the time. Levels, roles on a branch and words are not looked at.
pub fn record(random: &mut Random, table: &[Number], query: Query) -> Vec<Number> {
    if random.one_in(4) {
        return slice(random);
    }
    let mut record = Vec::new();
    let mut goals = vec![[query.principal, query.owner, query.name]];
    while let Some(goal) = goals.pop().filter(|_| record.len() < 60) {
        let fitting = credentials(table).filter(|(_, credential)| fits(credential, goal));
        let fitting: Vec<_> = fitting.collect();
        if fitting.is_empty() {
            break;
        }
        let (number, credential) = fitting[random.up_to(fitting.len() - 1)];
        let middle = random.between(1, 2);
        record.extend([number, if credential[2] == 3 { middle } else { 0 }]);
        goals.extend(premises(table, credential, goal[0], middle));
    }
    if random.one_in(8) {
        record.push(0);
    }
    if random.one_in(8) {
        let place = random.up_to(record.len());
        record.splice(place.., [random.between(0, 4), 0]);
    }
    record
}

/// The credentials that a slice has room for, with their numbers.
fn credentials(table: &[Number]) -> impl Iterator<Item = (Number, &[Number])> {
    let count = layout::counts(table)[0].min(20);
    let records = (1..=count).map_while(|number| table.get(layout::credential(table, number)));
    (1..).zip(records)
}

/// Whether a credential defines a goal's role, and of kind 1 is the goal's.
fn fits(credential: &[Number], [principal, owner, name]: [Number; 3]) -> bool {
    credential[..2] == [owner, name] && (credential[2] != 1 || credential[3] == principal)
}

/// The goals that a credential asks for, the first one last.
fn premises(
    table: &[Number],
    credential: &[Number],
    principal: Number,
    middle: Number,
) -> Vec<[Number; 3]> {
    let [owner, _, kind, first, second] = [0, 1, 2, 3, 4].map(|field| credential[field]);
    match kind {
        2 => vec![[principal, first, second]],
        3 => vec![[principal, middle, second], [middle, owner, first]],
        4 => {
            let first = first.max(1) as usize;
            let pair = [first + 1, first].map(|number| table.get(layout::cell(table, number)));
            let pair = pair.into_iter().flatten();
            pair.map(|cell| [principal, cell[0], cell[1]]).collect()
        }
        _ => vec![],
    }
}
