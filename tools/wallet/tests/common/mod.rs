//! What several tests need: made-up tables of all shapes, and wallets of them.

#![allow(dead_code)]

use bwlchareg::{layout, Number};
use reference::generate::{chains, crossed, listings, policies, queries, valid, wallets, wide};
use reference::random::Random;
use reference::records::Records;
use wallet::table::Table;
use wallet::Wallet;

/// A query of the reference as the checker takes it.
pub fn query(query: reference::Query) -> bwlchareg::Query {
    let [principal, owner, name, depth] = query.numbers();
    bwlchareg::Query {
        principal,
        owner,
        name,
        depth,
    }
}

/// An accepted table of any shape, and a query.
pub fn made_up(random: &mut Random) -> (Vec<Number>, bwlchareg::Query) {
    let (records, asked) = match random.below(8) {
        0..=3 => any_valid(random),
        4 => (policies::records(random), queries::valid(random)),
        5 => {
            let wallet = wallets::made_up(random);
            (wallet.records, wallet.query)
        }
        6 => {
            let wallet = crossed::made_up(random);
            (wallet.records, wallet.query)
        }
        _ if random.one_in(4) => (wide::made_up(random), wide::query(9)),
        _ => return a_listing(random),
    };
    (marked(random, records.numbers()), query(asked))
}

/// An accepted table with any marks in the place of its own.
pub fn marked(random: &mut Random, mut numbers: Vec<Number>) -> Vec<Number> {
    for number in 1..=layout::counts(&numbers)[2] {
        let mark = layout::automaton(&numbers, number).end - 1;
        numbers[mark] = random.between(layout::EVERY_WORD, layout::SOME_WORD);
    }
    numbers
}

/// A table that is made up for a listing; refused ones are passed over.
fn a_listing(random: &mut Random) -> (Vec<Number>, bwlchareg::Query) {
    loop {
        let listing = listings::made_up(random);
        let asked = query(listing.query);
        if bwlchareg::check_query(&listing.table, asked).is_ok() {
            return (marked(random, listing.table), asked);
        }
    }
}

/// A valid table with records as they come, at times with a chain that goes
/// through any cells.
fn any_valid(random: &mut Random) -> (Records, reference::Query) {
    let head = valid::head(random);
    let mut records = valid::records(random, head);
    if head.credentials > 0 && head.cells >= 4 && random.one_in(2) {
        let length = random.between(2, 4);
        let changed = chains::with_chain(random, &records, length);
        // Other chains through these cells may have become too long.
        if bwlchareg::check(&changed.numbers()).is_ok() {
            records = changed;
        }
    }
    (records, queries::valid(random))
}

/// The wallet of an accepted table without any names.
pub fn nameless(numbers: &[Number], query: Option<bwlchareg::Query>) -> Wallet {
    Wallet {
        table: Table::of_numbers(numbers).expect("an accepted table"),
        query,
        ..Wallet::default()
    }
}

/// Whether two wallets are the same but for the lines on which they stand.
pub fn assert_same(one: &Wallet, other: &Wallet, text: &str) {
    assert_eq!(one.table, other.table, "{text}");
    assert_eq!(one.query, other.query, "{text}");
    assert_eq!(one.names, other.names, "{text}");
}
