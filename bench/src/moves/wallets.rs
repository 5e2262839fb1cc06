//! Lists and written records of small wallets, with edges that are attached to
//! credentials of the first set, or to none.

use std::time::Duration;

use reference::generate::wallets::Wallet;
use reference::records::Records;
use reference::{shop, Number};

use super::edges::Edges;
use super::tables::short;
use crate::builds::{summary, Side, Sides, Turns, LEAST};
use crate::clubs::tables::{clubs, Constraint};
use crate::families::{self, Named};
use crate::listing::{Listing, CELLS};
use crate::peers::wallets::{of_size, sizes};
use crate::sheet::{Form, Lines};

const TURNS: Turns = Turns {
    round: Duration::from_micros(50),
    long: Duration::from_millis(30),
};
/// So many cells are lent for a record.
const RECORD_CELLS: usize = 256;
/// Of the tables that are there in several sizes those that are small.
const SMALL: [&str; 11] = [
    "four different roles, layers 1",
    "four different roles, layers 2",
    "four roles, each defined 1 times",
    "four roles, each defined 2 times",
    "ladder of 4 of kind 3",
    "ladder of 6 of kind 3",
    "ladder of 8 of kind 3",
    "ladder of 5 of kind 3, people 5",
    "ladder of 6 of kind 2",
    "ladder of 10 of kind 2",
    "ladder of 14 of kind 2",
];
/// How many people the clubs have.
const PEOPLE: Number = 6;
/// So many grown wallets there are of each size.
const EACH: usize = 5;

/// A wallet that has a minimal set.
struct Small {
    what: String,
    wallet: Wallet,
    /// The first set.
    set: u32,
}

/// The automata of a wallet, and whether they are attached.
type Given = (Edges, bool);

/// With which automata the wallets are timed.
const GIVEN: [Given; 5] = [
    (Edges::None, false),
    (Edges::Some, false),
    (Edges::Some, true),
    (Edges::Many, false),
    (Edges::Many, true),
];

/// A call with what it is, which tells its time by each side.
type Timed = (&'static str, fn(&Sides, &Small, &Listing) -> Vec<f64>);

/// Both calls.
const CALLS: [Timed; 2] = [("list", list), ("write", write)];

/// Times both calls on all wallets.
pub fn time(form: Form, sides: &Sides) {
    let lines = begin(form, sides);
    for (family, wallets) in families() {
        for (call, timed) in CALLS {
            for (edges, attached) in GIVEN {
                let times = |small: &Small| timed(sides, small, &small.with(edges, attached));
                let times: Vec<Vec<f64>> = wallets.iter().map(times).collect();
                let first = [
                    format!("{call}, {family}"),
                    wallets.len().to_string(),
                    edges.words().to_string(),
                    if attached { "yes" } else { "no" }.to_string(),
                ];
                let names: Vec<&str> = wallets.iter().map(|small| small.what.as_str()).collect();
                lines.line(&[first.to_vec(), summary(form, &names, &times)].concat());
            }
        }
    }
}

/// Prints the head of the lines.
fn begin(form: Form, sides: &Sides) -> Lines {
    let first = ["calls", "wallets", "automata, edges", "attached"].map(String::from);
    let worst = LEAST.map(String::from);
    let worst = if sides.are_two() { &worst[..] } else { &[] };
    let heads = [&first[..], &sides.heads(), worst].concat();
    let title = "lists and records of small wallets, median time of one call";
    Lines::begin(form, &form.timed(title), &heads)
}

/// The time of listing a wallet's sets by each side.
fn list(sides: &Sides, small: &Small, listing: &Listing) -> Vec<f64> {
    let list = |side: Side, cells: &mut [u32; CELLS]| side.list(listing, cells);
    sides.times(TURNS, &small.what, &[0; CELLS], list)
}

/// The time of writing the record of the first set by each side.
fn write(sides: &Sides, small: &Small, listing: &Listing) -> Vec<f64> {
    let write = |side: Side, cells: &mut [Number; RECORD_CELLS]| {
        let written = side.write(listing, small.set, cells);
        assert!(written.is_ok(), "{}", small.what);
        written
    };
    sides.times(TURNS, &small.what, &[0; RECORD_CELLS], write)
}

impl Small {
    /// A wallet without automata, if it has a minimal set then.
    fn new((what, mut wallet): Named) -> Option<Small> {
        Edges::None.put(&mut wallet, 0);
        let sets = Listing::of(&wallet).library_list().expect("a list");
        let set = *sets.first()?;
        Some(Small { what, wallet, set })
    }

    /// The wallet with automata, attached to credentials of the set or to none.
    fn with(&self, edges: Edges, attached: bool) -> Listing {
        let mut wallet = self.wallet.clone();
        edges.put(&mut wallet, if attached { self.set } else { 0 });
        Listing::of(&wallet)
    }
}

/// The wallets, by where they come from.
fn families() -> [(&'static str, Vec<Small>); 4] {
    let small = |named: Vec<Named>| named.into_iter().filter_map(Small::new).collect();
    [
        ("tables of short records", small(of_short_records())),
        ("tables of one shape", small(of_one_shape())),
        ("clubs", small(of_clubs())),
        ("grown wallets", grown()),
    ]
}

/// The tables on which short records are verified.
fn of_short_records() -> Vec<Named> {
    let named = short().into_iter().map(|table| {
        let what = format!("{}, nodes {}", table.what, table.nodes());
        (what, table.wallet)
    });
    named.collect()
}

/// The shop's, and those that are there in several sizes.
fn of_one_shape() -> Vec<Named> {
    let shop = ("the shop's T".to_string(), families::shop(&shop::T));
    let growing = families::growing().into_iter();
    let growing = growing.filter(|(what, _)| SMALL.contains(&what.as_str()));
    [shop].into_iter().chain(growing).collect()
}

/// The smallest clubs.
fn of_clubs() -> Vec<Named> {
    let clubs = clubs().into_iter().filter(|club| club.people == PEOPLE);
    let named = clubs.map(|club| (club.shape.to_string(), club.with(Constraint::None)));
    named.collect()
}

/// Of each size the first grown wallets that have a minimal set.
fn grown() -> Vec<Small> {
    let of_size = |size: Number| {
        let named = (1..).zip(of_size(size)).map(move |(number, listing)| {
            let records = Records::read(&listing.table).expect("an accepted table");
            let query = listing.query;
            let what = format!("wallet {number} of {size} credentials");
            (what, Wallet { records, query })
        });
        named.filter_map(Small::new).take(EACH)
    };
    sizes().flat_map(of_size).collect()
}

#[cfg(test)]
mod tests {
    use super::{families, GIVEN};

    #[test]
    fn no_wallet_is_missing() {
        let counts = families().map(|(_, wallets)| wallets.len());
        assert_eq!(counts, [10, 12, 12, 50]);
    }

    #[test]
    fn the_list_is_the_same_with_all_automata() {
        for small in families().into_iter().flat_map(|(_, wallets)| wallets) {
            let lists = GIVEN.map(|(edges, attached)| small.with(edges, attached).library_list());
            assert!(lists.iter().all(|list| list == &lists[0]), "{}", small.what);
        }
    }
}
