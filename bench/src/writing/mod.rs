//! Times the writing of records: beside verifying them, beside listing their
//! sets, and where it is refused.
//!
//! - [`plain`]: tables with records of a given length
//! - [`harder`]: tables in which what comes first fails
//! - [`parts`]: what both are made of
//! - [`record`]: a set of a list with its record
//! - [`wallets`]: grown wallets
//! - [`refusals`]: sets that are not on the list, and buffers that are too short

pub mod harder;
pub mod parts;
mod plain;
pub mod record;
mod refusals;
pub mod wallets;

use std::time::Duration;

use reference::generate::wallets::Wallet;

use crate::listing::{Listing, CELLS};
use crate::sheet::{Form, Lines};
use crate::timing::alone;
use record::Written;

/// How long a round of one call lasts at the least.
const ROUND: Duration = Duration::from_millis(5);

/// Prints all tables about writing.
pub fn time(form: Form) {
    time_plain(form);
    time_harder(form);
    wallets::time(form);
    refusals::time_longer(form);
    refusals::time_not_listed(form);
}

/// Times records of several lengths, without automata and with all for which
/// there is room.
fn time_plain(form: Form) {
    let lines = begin(form, "records where nothing fails");
    for (what, wallet) in plain::tables() {
        report(form, &lines, &what, &wallet);
        report(form, &lines, &what, &plain::constrained(wallet));
    }
}

/// Times records of the harder tables.
fn time_harder(form: Form) {
    let lines = begin(form, "records where what comes first fails");
    for (what, wallet) in harder::tables() {
        report(form, &lines, &what, &wallet);
    }
}

/// Prints the head of some lines about records.
fn begin(form: Form, records: &str) -> Lines {
    let title = format!("{records}, time of one call");
    let heads = [
        "records",
        "automata, edges",
        "nodes",
        "list",
        "write",
        "verify",
        "write / verify",
        "write, each node",
    ];
    Lines::begin(form, &form.timed(&title), &heads)
}

/// Times the list of a table and a record, the longest that a set of the list
/// has, and prints a line.
fn report(form: Form, lines: &Lines, what: &str, wallet: &Wallet) {
    let listing = Listing::of(wallet);
    let mut sets = [0; CELLS];
    let (_, list) = alone(ROUND, || listing.library(&mut sets)).expect("a list");
    let records = Written::all(&listing).into_iter();
    let longest = records.max_by_key(Written::nodes).expect("a minimal set");
    let [write, verify] = longest.times(ROUND);
    let (head, nodes) = (wallet.records.head(), longest.nodes());
    lines.line(&[
        what.to_string(),
        format!("{}, {}", head.automata, head.edges),
        nodes.to_string(),
        form.time(list, 0),
        form.time(write, 0),
        form.time(verify, 0),
        form.ratio(write / verify),
        form.time(write / nodes as f64, 0),
    ]);
}

/// The median, the 99th percentile and the worst of some figures, of which there
/// is at least one.
pub fn spread(mut figures: Vec<f64>) -> [f64; 3] {
    figures.sort_by(f64::total_cmp);
    let last = figures.len() - 1;
    [last / 2, last * 99 / 100, last].map(|index| figures[index])
}

#[cfg(test)]
mod tests {
    use super::record::Written;
    use super::{harder, plain, spread};
    use crate::families::Named;
    use crate::listing::Listing;
    use std::collections::BTreeSet;

    #[test]
    fn the_tables_are_valid_and_have_different_names() {
        let tables: Vec<Named> = [plain::tables(), harder::tables()].concat();
        for (what, wallet) in &tables {
            let table = wallet.records.numbers();
            let valid = reference::check_query(&table, wallet.query);
            assert_eq!(valid, Ok(()), "{what}");
        }
        let names: BTreeSet<&String> = tables.iter().map(|(what, _)| what).collect();
        assert_eq!(names.len(), tables.len());
        assert!(names.iter().all(|name| name.len() <= 38));
    }

    #[test]
    fn records_have_their_lengths_with_automata_and_without() {
        let nodes = |wallet| {
            let records = Written::all(&Listing::of(&wallet));
            let nodes: Vec<usize> = records.iter().map(Written::nodes).collect();
            nodes
        };
        let expected = [
            [1, 10, 13, 15].as_slice(),
            &[1_023, 1_093, 1_365, 1_365, 1_023],
            &[65_535, 88_573, 87_381, 87_381, 65_535],
        ];
        for ((what, wallet), expected) in plain::tables().into_iter().zip(expected.concat()) {
            assert_eq!(nodes(wallet.clone()), [expected], "{what}");
            assert_eq!(nodes(plain::constrained(wallet)), [expected], "{what}");
        }
    }

    #[test]
    fn figures_are_the_middle_one_and_the_last_ones() {
        let hundred = (0..=100).rev().map(f64::from).collect();
        assert_eq!(spread(hundred), [50.0, 99.0, 100.0]);
        assert_eq!(spread(vec![3.0]), [3.0; 3]);
    }
}
