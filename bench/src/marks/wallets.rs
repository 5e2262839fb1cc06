//! The grown wallets on which the ways of listing are compared, with marks 0, mixed
//! and 1: their lists, and the first record of every set that is listed.

use std::collections::BTreeSet;
use std::time::Duration;

use reference::generate::wallets::Wallet;
use reference::random::Random;
use reference::records::Records;

use super::{marked, MARKS};
use crate::listing::{Listing, CELLS};
use crate::sheet::{Form, Lines};
use crate::timing::{of_turns, unheard, Call};
use crate::writing::record::Written;
use crate::writing::{spread, wallets};
use crate::SEED;

/// How long a round of one call lasts at the least, and all turns at the most.
const ROUND: Duration = Duration::from_micros(20);
const LONG: Duration = Duration::from_millis(100);

/// A wallet with each sort of marks, in their order.
type Marked = [Listing; MARKS.len()];

/// Prints a line for each call and each sort of marks.
pub fn time(form: Form) {
    let wallets = all();
    let (mut lists, mut writes, mut verdicts) = (Vec::new(), Vec::new(), Vec::new());
    for wallet in &wallets {
        lists.push(list(wallet).map(Some));
        for [write, verdict] in records(wallet) {
            writes.push(write);
            verdicts.push(verdict);
        }
    }
    let lines = begin(form);
    print(form, &lines, ["list", "wallets"], &lists);
    print(form, &lines, ["write", "sets"], &writes);
    print(form, &lines, ["verify", "records"], &verdicts);
    eprintln!("grown wallets with marks: done");
}

/// All wallets.
fn all() -> Vec<Marked> {
    let mut random = Random::new(SEED);
    let mut with_each = |listing: Listing| {
        let wallet = Wallet {
            records: Records::read(&listing.table).expect("an accepted table"),
            query: listing.query,
        };
        MARKS.map(|(marks, _)| Listing::of(&marked(&mut random, &wallet, marks)))
    };
    wallets::grown().into_iter().map(&mut with_each).collect()
}

/// The times of something with each sort of marks, where it is there.
type Times = [Option<f64>; MARKS.len()];

/// The times of the lists, whether there is a set or none.
fn list(wallet: &Marked) -> [f64; MARKS.len()] {
    let mut cells = MARKS.map(|_| [0; CELLS]);
    let both = wallet.iter().zip(&mut cells);
    let calls = both.map(|(listing, cells)| unheard(|| listing.library(cells)));
    let times = of_turns(ROUND, LONG, calls.collect());
    times.try_into().expect("a time for each sort of marks")
}

/// The times of writing and of verifying the record of each set that is listed with
/// some marks. With other marks it may not be, or have another record.
fn records(wallet: &Marked) -> Vec<[Times; 2]> {
    let written = wallet.each_ref().map(Written::all);
    let sets: BTreeSet<u32> = written.iter().flatten().map(Written::set).collect();
    let of_set = |set: u32| {
        let records = written.each_ref().map(|records| {
            let mut records = records.iter();
            records.find(|record| record.set() == set)
        });
        record_times(records)
    };
    sets.into_iter().map(of_set).collect()
}

/// The times of writing and of verifying these records, which all take turns.
fn record_times(records: [Option<&Written>; MARKS.len()]) -> [Times; 2] {
    let there = records.into_iter().flatten();
    let mut calls: Vec<Call> = Vec::new();
    for record in there {
        let mut cells = record.cells();
        calls.push(unheard(move || record.write(&mut cells)));
        calls.push(unheard(move || record.verify()));
    }
    let times = of_turns(ROUND, LONG, calls);
    let mut times = times.chunks(2);
    let both = records.map(|record| record.and_then(|_| times.next()));
    [0, 1].map(|call| both.map(|times| times.map(|times| times[call])))
}

/// Prints the head of the lines.
fn begin(form: Form) -> Lines {
    let heads = [
        "calls",
        "marks",
        "median",
        "99th percentile",
        "worst",
        "with marks 0 too",
        "/ marks 0, median",
        "/ marks 0, 99th percentile",
        "/ marks 0, worst",
    ];
    let title = "grown wallets with marks, time of one call";
    Lines::begin(form, &form.timed(title), &heads)
}

/// Prints the lines of a call on some things. What is there with marks 0 too has a
/// ratio.
fn print(form: Form, lines: &Lines, [call, things]: [&str; 2], times: &[Times]) {
    for (index, (_, marks)) in MARKS.iter().enumerate() {
        let own = times.iter().filter_map(|times| times[index]);
        let ratios = times
            .iter()
            .filter_map(|times| Some(times[index]? / times[0]?));
        let (own, ratios): (Vec<f64>, Vec<f64>) = (own.collect(), ratios.collect());
        let first = [format!("{call}, {} {things}", own.len()), marks.to_string()];
        let both = [ratios.len().to_string()];
        let own = spread(own).map(|time| form.time(time, 0));
        let ratios = spread(ratios).map(|ratio| form.close_ratio(ratio));
        lines.line(&[&first[..], &own, &both, &ratios].concat());
    }
}

#[cfg(test)]
mod tests {
    use super::{all, list, records, Marked, MARKS};
    use crate::listing::Listing;
    use reference::generate::marks::Marks;

    fn some() -> Vec<Marked> {
        all().into_iter().step_by(40).collect()
    }

    #[test]
    fn the_wallets_differ_by_their_marks_alone() {
        assert_eq!(MARKS[0].0, Marks::Zeros);
        let different = all().into_iter().filter(|[zeros, mixed, ones]| {
            assert_eq!(zeros.table.len(), mixed.table.len());
            let ways = |other: &Listing| {
                let pairs = zeros.table.iter().zip(&other.table);
                pairs.filter(|(one, other)| one != other).count()
            };
            let automata = zeros.table[2] as usize;
            assert_eq!(ways(ones), automata);
            assert_eq!(zeros.query, ones.query);
            (1..automata).contains(&ways(mixed))
        });
        assert!(different.count() > 100);
    }

    #[test]
    fn the_reference_lists_the_same() {
        for listing in some().iter().flatten() {
            let list = listing.library_list().expect("an accepted wallet");
            assert_eq!(listing.reference(u64::MAX), Some(list), "{listing:?}");
        }
    }

    #[test]
    fn each_set_of_each_list_has_its_times() {
        for wallet in some() {
            assert!(list(&wallet).iter().all(|time| *time > 0.0));
            let records = records(&wallet);
            for (index, listing) in wallet.iter().enumerate() {
                let sets = listing.library_list().expect("an accepted wallet").len();
                for call in [0, 1] {
                    let times = records.iter().filter_map(|times| times[call][index]);
                    assert_eq!(times.count(), sets);
                }
            }
        }
    }
}
