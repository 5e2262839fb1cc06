//! An older build beside a newer one: on the tables whose constraint dies early,
//! and on the tables and records on which each call is timed anyway. Both are
//! loaded, from as many objects each, in which the code lies at different places.

use std::time::Duration;

use bwlchareg::layout::EVERY_WORD;
use reference::generate::claims::Claim;
use reference::generate::wide;
use reference::random::Random;
use reference::records::{Head, Records};
use reference::{shop, Number};

use super::{first_set, same, tables, ROUND};
use crate::builds::{Build, Pair};
use crate::calls;
use crate::families::{self, Named};
use crate::listing::{Listing, CELLS};
use crate::peers::again::can_a_role_come;
use crate::peers::wallets::{of_size, sizes};
use crate::sheet::{Form, Lines};
use crate::writing::{harder, spread, wallets};
use crate::SEED;

/// So many cells are lent for a record, enough for that of the longest ladder.
const RECORD_CELLS: usize = 1 << 17;
/// The levels of the records whose nodes are counted.
const LEVELS: Number = 9;

/// Prints all tables about both builds.
pub fn time(form: Form, pairs: &[Pair]) {
    time_lists(form, pairs);
    time_writings(form, pairs);
    time_verdicts(form, pairs);
    time_nodes(form, pairs);
}

/// The times of both builds, each the least over its objects, of a call that is
/// timed on one pair.
fn least(pairs: &[Pair], times: impl FnMut(&Pair) -> [f64; 2]) -> [f64; 2] {
    let lesser = |[a, b]: [f64; 2], [c, d]: [f64; 2]| [a.min(c), b.min(d)];
    let times = pairs.iter().map(times);
    times.reduce(lesser).expect("a pair of objects")
}

/// Prints the head of some lines about both builds.
fn begin(form: Form, title: &str, inputs: &str) -> Lines {
    let title = form.timed(&format!("before and after, {title}"));
    let heads = [inputs, "before", "after", "before / after"];
    Lines::begin(form, &title, &heads)
}

/// Prints a line about both builds.
fn print(form: Form, lines: &Lines, what: &str, [before, after]: [f64; 2]) {
    let ratio = form.close_ratio(before / after);
    let [before, after] = [before, after].map(|time| form.time(time, 1));
    lines.line(&[what, &before, &after, &ratio]);
}

/// Times the list of all tables of known shapes, and of grown wallets.
fn time_lists(form: Form, pairs: &[Pair]) {
    let lines = begin(form, "time of one list", "lists");
    let shop = [("the shop's T", &shop::T[..]), ("the shop's U", &shop::U)];
    let shop = shop.map(|(what, table)| (what.to_string(), families::shop(table)));
    for (what, wallet) in [early(tables::lists()), shop.to_vec(), families::growing()].concat() {
        let times = list(pairs, ROUND, &what, &Listing::of(&wallet));
        print(form, &lines, &what, times);
    }
    let grown = sizes().flat_map(of_size);
    let times = grown.map(|wallet| list(pairs, wallets::ROUND, "a grown wallet", &wallet));
    let times: Vec<[f64; 2]> = times.collect();
    let [before, after] = [0, 1].map(|side| spread(times.iter().map(|both| both[side]).collect()));
    let what = ["grown wallets: median", "99th percentile", "worst"];
    for (index, what) in what.iter().enumerate() {
        print(form, &lines, what, [before[index], after[index]]);
    }
}

/// Tables whose constraint dies early, with where it does.
fn early(tables: Vec<tables::Early>) -> Vec<Named> {
    let named = |table: tables::Early| {
        let what = format!("{}, dies at {}", table.what, table.dies);
        (what, table.wallet)
    };
    tables.into_iter().map(named).collect()
}

/// The times of one list by both builds.
fn list(pairs: &[Pair], round: Duration, what: &str, listing: &Listing) -> [f64; 2] {
    let (mut sets, mut newer_sets) = ([0; CELLS], [0; CELLS]);
    least(pairs, |[before, after]| {
        let list = || before.list(listing, &mut sets);
        let times = same(round, what, list, || after.list(listing, &mut newer_sets));
        assert!(sets == newer_sets, "{what}");
        times
    })
}

/// Times the writing of records in which what comes first fails.
fn time_writings(form: Form, pairs: &[Pair]) {
    let lines = begin(form, "time of writing one record", "records");
    for (what, wallet) in [early(tables::writings()), harder::tables()].concat() {
        let times = writing(pairs, &what, &Listing::of(&wallet));
        print(form, &lines, &what, times);
    }
}

/// The times of writing the record of the first set by both builds.
fn writing(pairs: &[Pair], what: &str, listing: &Listing) -> [f64; 2] {
    let set = first_set(listing);
    let (mut cells, mut newer_cells) = (vec![0; RECORD_CELLS], vec![0; RECORD_CELLS]);
    least(pairs, |[before, after]| {
        let write = || before.write(listing, set, &mut cells);
        let times = same(ROUND, what, write, || {
            after.write(listing, set, &mut newer_cells)
        });
        assert!(cells == newer_cells, "{what}");
        times
    })
}

/// Times the verdicts on small records.
fn time_verdicts(form: Form, pairs: &[Pair]) {
    let lines = begin(form, "time of one verdict", "records");
    let by_hand = calls::by_hand();
    let by_hand = by_hand.map(|(what, claim)| (what.to_string(), vec![claim]));
    let grown = grown();
    let grown = (format!("{} grown records, accepted", grown.len()), grown);
    for (what, claims) in by_hand.into_iter().chain([grown]) {
        let times = verdicts(pairs, &what, claims);
        print(form, &lines, &what, times);
    }
}

/// Of the grown records those of tables whose marks are all 0, and in which no role
/// can come again with another principal: a build that knows no marks, or goes by
/// roles, accepts them too.
fn grown() -> Vec<Claim> {
    let mut claims = calls::grown(&mut Random::new(SEED));
    claims.retain(|claim| {
        let listing = Listing::new(claim.table.clone(), claim.query);
        listing.base().is_some() && !can_a_role_come(&listing)
    });
    claims
}

/// Times the verdicts on records of very many nodes, of which each node moves
/// eight automata, with more or fewer edges, or none.
fn time_nodes(form: Form, pairs: &[Pair]) {
    let nodes = wide::nodes(LEVELS);
    let title = format!("verifying a record of {nodes} nodes, time of one node");
    let lines = begin(form, &title, "records");
    for (automata, attached) in [(0, 0), (8, 0), (8, 1), (8, 8)] {
        let records = with_automata(automata, attached);
        let Head {
            automata, edges, ..
        } = records.head();
        let what = format!("automata {automata}, edges {edges}");
        let claim = Claim {
            table: records.numbers(),
            query: wide::query(LEVELS),
            record: wide::record(LEVELS),
        };
        let times = verdicts(pairs, &what, vec![claim]);
        print(form, &lines, &what, times.map(|time| time / nodes as f64));
    }
}

/// The table of the levels with so many automata, of which the first ones, so
/// many, have fifteen edges each and are attached. The others have no edges, so
/// they are dead, and are attached to nothing.
fn with_automata(automata: usize, attached: Number) -> Records {
    let mut records = calls::constrained(wide::records(LEVELS), attached);
    records.automata.resize(automata, [0, 0, EVERY_WORD]);
    records
}

/// The times of one verdict by both builds, over some claims.
fn verdicts(pairs: &[Pair], what: &str, claims: Vec<Claim>) -> [f64; 2] {
    let claims = claims
        .into_iter()
        .map(|claim| (Listing::new(claim.table, claim.query), claim.record));
    let claims: Vec<(Listing, Vec<Number>)> = claims.collect();
    let times = least(pairs, |pair| {
        for (listing, record) in &claims {
            let [before, after] = pair.each_ref().map(|build| build.verify(listing, record));
            assert_eq!(before, after, "{what}");
        }
        let [before, after] = pair.each_ref().map(|build| || accepted(build, &claims));
        same(ROUND, what, before, after)
    });
    times.map(|time| time / claims.len() as f64)
}

/// How many of some records a build accepts.
fn accepted(build: &Build, claims: &[(Listing, Vec<Number>)]) -> usize {
    let verdicts = claims
        .iter()
        .map(|(listing, record)| build.verify(listing, record));
    verdicts.filter(Result::is_ok).count()
}

#[cfg(test)]
mod tests {
    use super::grown;
    use crate::listing::Listing;

    #[test]
    fn a_build_that_knows_no_marks_can_be_asked_about_grown_records() {
        let claims = grown();
        assert!(claims.len() > 100);
        let listings = claims.into_iter();
        let mut listings = listings.map(|claim| Listing::new(claim.table, claim.query));
        assert!(listings.all(|listing| listing.base().is_some()));
    }
}
