//! Chains of a wanted length.

use crate::random::Random;
use crate::records::{CellRecord, Records};
use crate::Number;

/// The number of cells in the chain that starts at each cell, cell 1 first.
/// Every next must be 0 or a greater cell.
pub fn lengths(cells: &[CellRecord]) -> Vec<usize> {
    let mut lengths = vec![0; cells.len()];
    for (index, &[_, _, next]) in cells.iter().enumerate().rev() {
        let following = match next {
            0 => 0,
            next => lengths[next as usize - 1],
        };
        lengths[index] = 1 + following;
    }
    lengths
}

/// The cells at which a chain of 2 to 4 cells starts.
pub fn right_starts(cells: &[CellRecord]) -> Vec<Number> {
    let numbered = (1..).zip(lengths(cells));
    numbered
        .filter(|&(_, length)| (2..=4).contains(&length))
        .map(|(number, _)| number)
        .collect()
}

/// Gives one credential, as kind 4, a chain of exactly so many cells. Other
/// chains that run through these cells change with them.
///
/// There must be a credential, and at least `length` cells.
pub fn with_chain(random: &mut Random, records: &Records, length: Number) -> Records {
    let mut records = records.clone();
    let cells = ascending(random, length, records.cells.len() as Number);
    let followers = cells.iter().skip(1).copied().chain([0]);
    for (&cell, next) in cells.iter().zip(followers) {
        records.cells[cell as usize - 1][2] = next;
    }
    let chosen = random.below(records.credentials.len());
    let [_, _, kind, first, second, _] = &mut records.credentials[chosen];
    (*kind, *first, *second) = (4, cells[0], 0);
    records
}

/// So many numbers out of 1 to `limit`, ascending: each number is taken with
/// the chance that leaves all choices equal.
fn ascending(random: &mut Random, count: Number, limit: Number) -> Vec<Number> {
    let mut missing = count as usize;
    let mut numbers = Vec::new();
    for number in 1..=limit {
        let left = (limit - number) as usize + 1;
        if random.below(left) < missing {
            numbers.push(number);
            missing -= 1;
        }
    }
    numbers
}
