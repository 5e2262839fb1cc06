//! What a climb has found, as text.

use std::fmt::Write;
use std::sync::Arc;

use wallet::print::print;
use wallet::table::Table;

use reference::Number;

use super::call::{costliest, Record};
use super::change::Automata;
use super::watch::Watch;
use super::{Call, Climb, Slow};
use crate::listing::{library_query, Listing};

/// The slowest table of some climbs: how long the call takes on it, from where
/// it was climbed to, its wallet, and its numbers as the listing program takes
/// them.
pub fn text(climb: Climb, automata: Automata, climbs: usize, from: &str, slow: &Slow) -> String {
    let listing = Listing::of(&slow.wallet);
    let automata = match automata {
        Automata::Without => "Without constraints",
        Automata::With => "With constraints",
    };
    let Climb { steps, seed, .. } = climb;
    let slowest = slowest(climb, slow, &listing);
    let mut text = format!("{automata}, seed {seed}: {climbs} climbs of {steps} steps. ");
    writeln!(text, "{slowest}, climbed to from: {from}.\n").expect("room");
    writeln!(text, "```\n{}```\n", wallet_text(&listing)).expect("room");
    let query = listing.query.numbers();
    let numbers = query.iter().chain(&listing.table);
    let numbers: Vec<String> = numbers.map(Number::to_string).collect();
    writeln!(text, "As numbers: {}\n", numbers.join(" ")).expect("room");
    text
}

/// How long the slowest call takes, how many sets there are, and which record it
/// is; or that one takes longer than the limit.
fn slowest(climb: Climb, slow: &Slow, listing: &Listing) -> String {
    let time = climb.words(slow.time);
    let what = match climb.call {
        Call::List => "list",
        Call::Write => "record",
    };
    if slow.time.is_infinite() {
        return format!("One {what} takes {time}");
    }
    let sets = listing.library_list().map_or(0, |list| list.len());
    let which = match climb.call {
        Call::List => format!(", sets {sets}"),
        Call::Write => format!(" for each cell, sets {sets}{}", record(climb, listing)),
    };
    format!("The slowest {what} takes {time}{which}")
}

/// The record that takes the longest for each of its cells, looked for again.
fn record(climb: Climb, listing: &Listing) -> String {
    let mut watch = Watch::new(climb.limit);
    let record = costliest(&mut watch, &Arc::new(listing.clone()));
    record.map_or(String::new(), |Record { set, cells, time }| {
        let time = climb.words(time);
        format!(", set {set}, cells {cells} in {time}")
    })
}

/// The text that the wallet tool has for a listing.
fn wallet_text(listing: &Listing) -> String {
    print(&wallet::Wallet {
        table: Table::of_numbers(&listing.table).expect("an accepted table"),
        query: Some(library_query(listing.query)),
        ..wallet::Wallet::default()
    })
}

#[cfg(test)]
mod tests {
    use super::{text, Automata, Call, Climb, Slow};
    use crate::families;
    use reference::shop;
    use std::time::Duration;

    fn told(call: Call, time: f64) -> String {
        let climb = Climb {
            call,
            steps: 20,
            seed: 7,
            limit: Duration::from_millis(500),
        };
        let wallet = families::shop(&shop::U);
        let slow = Slow { wallet, time };
        text(climb, Automata::With, 3, "the shop", &slow)
    }

    #[test]
    fn the_slowest_table_is_told() {
        let told = told(Call::List, 1_500.0);
        let first = "With constraints, seed 7: 3 climbs of 20 steps. \
                     The slowest list takes 1.5 µs, sets 1, climbed to from: the shop.";
        assert_eq!(told.lines().next(), Some(first));
        assert!(told.contains("\nAs numbers: 4 1 1 2 4 0 1 2 1 1 3 3 2 0 "));
    }

    #[test]
    fn the_slowest_record_is_told() {
        let told = told(Call::Write, 1_500.0);
        let record = "The slowest record takes 1.5 µs for each cell, sets 1, \
                      set 8, cells 2 in ";
        assert!(told.contains(record), "{told}");
    }

    #[test]
    fn its_text_gives_the_same_table() {
        let told = told(Call::List, 1_500.0);
        let text = told.split("```\n").nth(1).expect("a wallet");
        let wallet = wallet::parse::parse(text.as_bytes()).expect("a wallet that can be read");
        assert_eq!(wallet.table.numbers(), shop::U);
    }

    #[test]
    fn a_call_over_the_limit_has_no_time() {
        for (call, what) in [(Call::List, "list"), (Call::Write, "record")] {
            let told = told(call, f64::INFINITY);
            let expected = format!("One {what} takes more than 500 ms, climbed");
            assert!(told.contains(&expected), "{told}");
        }
    }
}
