//! Times automata with marks, of which some demand every word of a record and some
//! at least one.
//!
//! - [`wallets`]: grown wallets with marks 0, mixed and 1
//! - [`owed`]: chains of four in which many automata are owed a word at once
//! - [`counters`]: small clubs in which automata that count are owed a word
//! - [`builds`]: an older build beside a newer one, where all marks are 0

mod builds;
mod counters;
mod owed;
mod wallets;

use std::time::Duration;

use reference::generate::marks::Marks;
use reference::generate::wallets::Wallet;
use reference::random::Random;

use crate::builds::Pair;
use crate::families::Named;
use crate::sheet::{Form, Lines};
use crate::within;
use crate::words;

/// Which marks there are, those beside which the others are timed first.
const MARKS: [(Marks, &str); 3] = [
    (Marks::Zeros, "0"),
    (Marks::Mixed, "mixed"),
    (Marks::Ones, "1"),
];

/// Prints all tables, with that about two builds if they are given. A call on a
/// table of which it is not known how long it takes may take so long.
pub fn time(form: Form, limit: Duration, pairs: &[Pair]) {
    wallets::time(form);
    time_tables("eight automata over chains of four", limit, owed::tables());
    time_tables("clubs with counters", limit, counters::clubs());
    if !pairs.is_empty() {
        builds::time(form, pairs);
    }
}

/// Times the calls on some tables with each sort of marks.
fn time_tables(what: &str, limit: Duration, tables: Vec<Named>) {
    let given_up = words::duration(limit);
    let title = format!("{what}, time of one call, which is given up after {given_up}");
    let heads = [&["tables", "marks"], &within::HEADS[..]].concat();
    let lines = Lines::begin(Form::Markdown, &title, &heads);
    let mut random = Random::new(crate::SEED);
    for (what, wallet) in tables {
        for (marks, words) in MARKS {
            let marked = marked(&mut random, &wallet, marks);
            let cells = within::cells(limit, &format!("{what}, marks {words}"), &marked);
            lines.line(&[vec![what.clone(), words.to_string()], cells].concat());
        }
    }
    eprintln!("{what}: done");
}

/// The same wallet with these marks.
fn marked(random: &mut Random, wallet: &Wallet, marks: Marks) -> Wallet {
    let mut marked = wallet.clone();
    marks.give(random, &mut marked.records);
    marked
}

#[cfg(test)]
mod tests {
    use super::{counters, marked, owed, MARKS};
    use crate::listing::{library_query, Listing};
    use reference::random::Random;
    use std::collections::BTreeSet;

    #[test]
    fn the_tables_are_valid_and_have_different_names() {
        let tables = [owed::tables(), counters::clubs()].concat();
        for (what, wallet) in &tables {
            let query = library_query(wallet.query);
            let valid = bwlchareg::check_query(&wallet.records.numbers(), query);
            assert_eq!(valid, Ok(()), "{what}");
        }
        let names: BTreeSet<&String> = tables.iter().map(|(what, _)| what).collect();
        assert_eq!(names.len(), tables.len());
        assert!(names.iter().all(|name| name.len() <= 38));
    }

    #[test]
    fn the_reference_lists_the_same() {
        let mut random = Random::new(crate::SEED);
        for (what, wallet) in [owed::tables(), counters::clubs()].concat() {
            for (marks, words) in MARKS {
                let listing = Listing::of(&marked(&mut random, &wallet, marks));
                let list = listing.library_list().expect("an accepted table");
                let reference = listing.reference(u64::MAX);
                assert_eq!(reference, Some(list), "{what}, marks {words}");
            }
        }
    }
}
