//! An older build beside a newer one on tables whose marks are all 0: what marks
//! cost who has none. The older build may be one that knows no marks.

use std::time::Duration;

use reference::Number;

use crate::builds::{ratio, summary, Pair, Side, Sides, Turns, LEAST};
use crate::clubs::tables::{clubs, Constraint};
use crate::dead::tables as dead;
use crate::families::{growing, Named};
use crate::listing::{Listing, CELLS};
use crate::sheet::{Form, Lines};
use crate::writing::{harder, record, wallets};

const TURNS: Turns = Turns {
    round: Duration::from_micros(20),
    long: Duration::from_millis(50),
};
/// How many people the clubs have.
const PEOPLE: Number = 6;
/// What is within a tenth takes at most so many times as long as before.
const TENTH: f64 = 1.1;

/// A table, and the record of its first set, if it has one that fits.
struct Table {
    what: String,
    listing: Listing,
    record: Option<(u32, Vec<Number>)>,
}

/// A call with what it is, which tells its time by each side if it can be made.
type Timed = (&'static str, fn(&Sides, &Table) -> Option<Vec<f64>>);

/// All calls.
const CALLS: [Timed; 3] = [("list", list), ("write", write), ("verify", verify)];

/// Prints a line for each call on each sort of tables.
pub fn time(form: Form, pairs: &[Pair]) {
    let sides = Sides::of(pairs);
    let lines = begin(form, &sides);
    let mut cells = vec![0; record::CELLS];
    for (sort, listings) in sorts() {
        let made = |(what, listing)| Table::new(what, listing, &mut cells);
        let tables: Vec<Table> = listings.into_iter().map(made).collect();
        for (call, timed) in CALLS {
            let times = tables.iter().filter_map(|table| {
                let times = timed(&sides, table)?;
                Some((table.what.as_str(), times))
            });
            let (names, times): (Vec<&str>, Vec<Vec<f64>>) = times.unzip();
            let first = [
                format!("{call}, {sort}"),
                times.len().to_string(),
                within_a_tenth(&times).to_string(),
            ];
            lines.line(&[first.to_vec(), summary(form, &names, &times)].concat());
        }
        eprintln!("before and after, {sort}: done");
    }
}

/// Prints the head of the lines.
fn begin(form: Form, sides: &Sides) -> Lines {
    let first = ["calls", "tables", "within a tenth"].map(String::from);
    let heads = [&first[..], &sides.heads(), &LEAST.map(String::from)].concat();
    let title = "before and after, all marks 0, median time of one call";
    Lines::begin(form, &form.timed(title), &heads)
}

/// How many of some calls take the newer build no more than a tenth longer.
fn within_a_tenth(times: &[Vec<f64>]) -> usize {
    let ratios = times.iter().filter_map(|times| ratio(times));
    ratios.filter(|ratio| ratio * TENTH >= 1.0).count()
}

/// The tables, by where they come from.
fn sorts() -> [(&'static str, Vec<(String, Listing)>); 5] {
    let listed = |named: Vec<Named>| {
        let listings = named.into_iter();
        listings
            .map(|(what, wallet)| (what, Listing::of(&wallet)))
            .collect()
    };
    let grown = (1..).zip(wallets::grown());
    let grown = grown.map(|(number, listing)| (format!("grown wallet {number}"), listing));
    [
        ("grown wallets", grown.collect()),
        ("tables of one shape", listed(growing())),
        ("what comes first fails", listed(harder::own())),
        ("constraints that die early", listed(dying())),
        ("clubs of 6", listed(of_clubs())),
    ]
}

/// The tables whose constraint dies early.
fn dying() -> Vec<Named> {
    let tables = [dead::lists(), dead::writings()].concat().into_iter();
    let named = tables.map(|table| {
        let what = format!("{}, dies at {}", table.what, table.dies);
        (what, table.wallet)
    });
    named.collect()
}

/// The smallest clubs, with every constraint.
fn of_clubs() -> Vec<Named> {
    let clubs = clubs().into_iter().filter(|club| club.people == PEOPLE);
    let constrained = clubs.flat_map(|club| {
        Constraint::ALL.map(|constraint| {
            let what = format!("{}, {}", club.shape, constraint.words());
            (what, club.with(constraint))
        })
    });
    constrained.collect()
}

impl Table {
    /// A table with the record that the linked build writes, which has these cells.
    fn new(what: String, listing: Listing, cells: &mut [Number]) -> Table {
        let sets = listing.library_list().expect("an accepted table");
        let record = sets.first().and_then(|&set| {
            let length = listing.write(set, cells).ok()?;
            Some((set, cells[..length].to_vec()))
        });
        Table {
            what,
            listing,
            record,
        }
    }
}

/// The time of the list by each side.
fn list(sides: &Sides, table: &Table) -> Option<Vec<f64>> {
    let list = |side: Side, cells: &mut [u32; CELLS]| side.list(&table.listing, cells);
    Some(sides.times(TURNS, &table.what, &[0; CELLS], list))
}

/// The time of writing the record by each side.
fn write(sides: &Sides, table: &Table) -> Option<Vec<f64>> {
    let (set, record) = table.record.as_ref()?;
    let write = |side: Side, cells: &mut Vec<Number>| side.write(&table.listing, *set, cells);
    Some(sides.times(TURNS, &table.what, &vec![0; record.len()], write))
}

/// The time of verifying it by each side.
fn verify(sides: &Sides, table: &Table) -> Option<Vec<f64>> {
    let (_, record) = table.record.as_ref()?;
    let verify = |side: Side, _: &mut ()| side.verify(&table.listing, record);
    Some(sides.times(TURNS, &table.what, &(), verify))
}

#[cfg(test)]
mod tests {
    use super::{sorts, within_a_tenth};

    #[test]
    fn a_build_that_knows_no_marks_can_be_asked() {
        let sorts = sorts();
        let tables = || sorts.iter().flat_map(|(_, tables)| tables);
        assert!(tables().all(|(_, listing)| listing.base().is_some()));
        let counts = sorts.each_ref().map(|(_, tables)| tables.len());
        assert_eq!(counts[0], 1_000);
        assert!(counts.iter().all(|&count| count >= 10));
    }

    #[test]
    fn a_tenth_is_counted_from_the_older_build() {
        let times = [[100.0, 109.0], [100.0, 111.0], [100.0, 50.0]].map(Vec::from);
        assert_eq!(within_a_tenth(&times), 2);
    }
}
