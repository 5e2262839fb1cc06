//! Small listings of every sort, for tests.

use bwlchareg::layout;
use reference::generate::listings::made_up;
use reference::generate::marks::Marks;
use reference::random::Random;
use reference::records::Records;
use reference::Number;

use super::again::can_a_role_come;
use crate::listing::Listing;

/// No more credentials and part cells than these, and no greater depth limit where
/// a role can come again: with much more, some tables have too many derivations to
/// go through.
const CREDENTIALS: usize = 10;
const CELLS: usize = 8;
const DEPTH: Number = 8;

/// So many made-up listings that both sides accept, the same in every run:
/// grown wallets, tables with cycles, and queries of which nothing is known. Their
/// automata demand every word.
pub fn listings(count: usize) -> Vec<Listing> {
    let mut random = Random::new(1);
    let mut listings = Vec::new();
    while listings.len() < count {
        let made_up = made_up(&mut random);
        let (table, query) = (demanding_every_word(made_up.table), made_up.query);
        let is_valid = reference::check_query(&table, query).is_ok();
        let [credentials, cells, ..] = layout::counts(&table);
        let listing = Listing::new(table, query);
        let is_small = credentials <= CREDENTIALS && cells <= CELLS;
        if is_valid && is_small && (query.depth <= DEPTH || !can_a_role_come(&listing)) {
            listings.push(listing);
        }
    }
    listings
}

/// The table with mark 0 everywhere: the ways of listing that are compared know no
/// other demand.
fn demanding_every_word(table: Vec<Number>) -> Vec<Number> {
    match Records::read(&table) {
        Ok(mut records) => {
            Marks::Zeros.give(&mut Random::new(0), &mut records);
            records.numbers()
        }
        Err(_) => table,
    }
}
