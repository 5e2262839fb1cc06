//! Derivations of very many nodes: every goal above the last level rests on
//! the next level's goal four times over.

use crate::query::{Query, DEEPEST};
use crate::random::Random;
use crate::records::{CellRecord, Head, Records};
use crate::sorts::HIGHEST;
use crate::Number;

/// The principal that is derived to be in every role, and who owns them all.
const MEMBER: Number = HIGHEST;
const OWNER: Number = 1;

/// The table with a role for each of so many levels, 1 to 16, whose name is
/// the level's number. Each but the last is a chain of four times the next.
/// Level and credential have the same number too.
pub fn records(levels: Number) -> Records {
    let chains = (1..levels).map(|level| [OWNER, level, 4, first_cell(level), 0, 0]);
    let last = [OWNER, levels, 1, MEMBER, 0, 0];
    Records {
        credentials: chains.chain([last]).collect(),
        cells: (1..levels).flat_map(cells).collect(),
        automata: Vec::new(),
        edges: Vec::new(),
    }
}

/// The first cell of a level's chain.
fn first_cell(level: Number) -> Number {
    4 * (level - 1) + 1
}

/// The cells of a level's chain: four times the role of the next level.
fn cells(level: Number) -> [CellRecord; 4] {
    let first = first_cell(level);
    [first + 1, first + 2, first + 3, 0].map(|next| [OWNER, level + 1, next])
}

/// The table of nine levels, with equal credentials to choose from, and with
/// a detour at the end of the first chain: only the last branches, behind
/// more than 65,535 nodes, have ten levels.
pub fn made_up(random: &mut Random) -> Records {
    const DETOUR: Number = HIGHEST;
    let mut records = records(9);
    records.cells[3][1] = DETOUR;
    records.credentials.push([OWNER, DETOUR, 2, OWNER, 2, 0]);
    while records.head().credentials < Head::LIMITS.credentials {
        let again = *random.pick(&records.credentials);
        records.credentials.push(again);
    }
    random.shuffle(&mut records.credentials);
    records
}

/// The record of the one derivation of level 1 in the table of so many levels.
pub fn record(levels: Number) -> Vec<Number> {
    let mut record = vec![levels, 0];
    for level in (1..levels).rev() {
        record = [vec![level, 0], record.repeat(4)].concat();
    }
    record
}

/// How many nodes it has: 1 + 4 + 16 and so on.
pub fn nodes(levels: Number) -> u64 {
    (4u64.pow(u32::from(levels)) - 1) / 3
}

/// The query for level 1 with a depth limit of so many levels.
pub fn query(levels: Number) -> Query {
    Query {
        principal: MEMBER,
        owner: OWNER,
        name: 1,
        depth: levels.min(DEEPEST),
    }
}
