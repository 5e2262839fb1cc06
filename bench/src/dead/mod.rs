//! Times tables whose constraint dies early: beside their twins, whose constraint
//! never has an empty set, and by an older build of the library beside a newer one.
//!
//! - [`tables`]: the tables and their twins
//! - [`builds`]: an older build beside a newer one

mod builds;
pub mod tables;

use std::fmt::Debug;
use std::time::Duration;

use crate::builds::Pair;
use crate::listing::{Listing, CELLS};
use crate::sheet::{Form, Lines};
use crate::timing::least_in_turns;
use tables::Early;

/// How long a round of one call lasts at the least.
const ROUND: Duration = Duration::from_millis(5);
/// So many cells are lent for a record: more than any of these tables needs.
const RECORD_CELLS: usize = 256;

/// Prints all tables, with those about two builds if they are given.
pub fn time(form: Form, pairs: &[Pair]) {
    time_twins(form, "list", tables::lists(), list_beside);
    time_twins(form, "write", tables::writings(), write_beside);
    if !pairs.is_empty() {
        builds::time(form, pairs);
    }
}

/// Times a call on some tables and on their twins.
fn time_twins(
    form: Form,
    call: &str,
    tables: Vec<Early>,
    beside: impl Fn(&str, &Listing, &Listing) -> [f64; 2],
) {
    let title = format!("{call}, where a constraint dies early, time of one call");
    let ratio = format!("twin / {call}");
    let heads = [
        "tables",
        "credentials, edges",
        "depth",
        "dies at role",
        call,
        "twin",
        &ratio,
    ];
    let lines = Lines::begin(form, &form.timed(&title), &heads);
    for table in tables {
        let (head, depth) = (table.wallet.records.head(), table.wallet.query.depth);
        let [one, twin] = [&table.wallet, &table.twin()].map(Listing::of);
        let [one, twin] = beside(&table.what, &one, &twin);
        lines.line(&[
            table.what,
            format!("{}, {}", head.credentials, head.edges),
            depth.to_string(),
            table.dies,
            form.time(one, 0),
            form.time(twin, 0),
            form.ratio(twin / one),
        ]);
    }
}

/// The times of the lists of a table and of its twin, which are the same.
fn list_beside(what: &str, listing: &Listing, twin: &Listing) -> [f64; 2] {
    let (mut sets, mut twin_sets) = ([0; CELLS], [0; CELLS]);
    let list = || listing.library(&mut sets);
    let times = same(ROUND, what, list, || twin.library(&mut twin_sets));
    assert!(sets == twin_sets, "{what}");
    times
}

/// The times of writing the record of the first set of a table and of its twin,
/// which are the same.
fn write_beside(what: &str, listing: &Listing, twin: &Listing) -> [f64; 2] {
    let set = first_set(listing);
    let (mut cells, mut twin_cells) = ([0; RECORD_CELLS], [0; RECORD_CELLS]);
    let write = || listing.write(set, &mut cells);
    let times = same(ROUND, what, write, || twin.write(set, &mut twin_cells));
    assert!(cells == twin_cells, "{what}");
    times
}

/// The first set of a list that has one.
fn first_set(listing: &Listing) -> u32 {
    listing.library_list().expect("a list")[0]
}

/// The times of two calls, in turns. What they give must be the same: a table on
/// which they differ ends the benchmark.
fn same<Answer: PartialEq + Debug>(
    round: Duration,
    what: &str,
    mut one: impl FnMut() -> Answer,
    mut other: impl FnMut() -> Answer,
) -> [f64; 2] {
    let (mut ones, mut others) = (None, None);
    let times = least_in_turns(round, || ones = Some(one()), || others = Some(other()));
    assert_eq!(ones, others, "{what}");
    times
}
