//! The first records of made-up tables, compared with what sorting every record
//! of such a table gives; and what the made-up tables are like.

mod every_record;

use std::collections::BTreeSet;

use every_record::records;
use reference::ascending::Ascending;
use reference::derivation::NODE;
use reference::generate::detours;
use reference::generate::listings::{self, Listing};
use reference::listing::minimal_sets;
use reference::pairs::is_part;
use reference::patience::Patience;
use reference::random::Random;
use reference::table::Table;
use reference::writing::first_within;
use reference::{check_query, list, verify, write, Number, Refusal};

const SEED: u64 = 7;
/// What a cell holds before the call. No number of a record is so great.
const BEFORE: Number = 0xA5A5;

/// The used set of a record that derives its query.
fn used_set(record: &[Number]) -> u32 {
    let nodes = record.chunks(NODE);
    nodes.fold(0, |used, node| used | 1 << (node[0] - 1))
}

/// Made-up listings of valid tables, with every record of each.
fn listings_with_records(count: usize) -> Vec<(Listing, Vec<Vec<Number>>)> {
    let mut random = Random::new(SEED);
    let drawn = (0..count).map(|_| listings::any(&mut random));
    let valid = drawn.filter(|listing| check_query(&listing.table, listing.query).is_ok());
    valid
        .filter_map(|listing| {
            let records = records(&listing.table, listing.query)?;
            Some((listing, records))
        })
        .collect()
}

/// The list, with cells to spare; there may be none.
fn listed(listing: &Listing) -> Vec<u32> {
    let mut cells = vec![0; 4_096];
    let count = list(&listing.table, listing.query, &mut cells);
    cells.truncate(count.unwrap_or(0));
    cells
}

/// All derivations from a set, in the order in which they come.
fn in_order(listing: &Listing, set: u32) -> Vec<Vec<Number>> {
    let table = Table::read(&listing.table).expect("an accepted table");
    let asked = listing.query.read().expect("a valid query");
    let mut ascending = Ascending::new(&table, asked, set, Patience::new(u64::MAX));
    let derivations = (0..).map_while(|index| ascending.derivation(index).expect("patience"));
    derivations.map(|witness| witness.record()).collect()
}

#[test]
fn derivations_come_in_the_order_of_their_records_and_none_is_left_out() {
    let mut random = Random::new(SEED);
    let mut most = 0;
    let all = listings_with_records(600);
    for (listing, records) in &all {
        let any = random.bits() as u32;
        for set in [u32::MAX, any, any | random.bits() as u32] {
            let within = |record: &&Vec<Number>| is_part(used_set(record), set);
            let mut expected: Vec<Vec<Number>> = records.iter().filter(within).cloned().collect();
            expected.sort();
            most = most.max(expected.len());
            assert_eq!(in_order(listing, set), expected, "{listing:?}, set {set}");
        }
    }
    assert!(all.len() > 300 && most > 100, "{}, {most}", all.len());
}

#[test]
fn first_records_are_what_the_definition_says() {
    let mut sets = 0;
    let mut not_least = 0;
    for (listing, records) in listings_with_records(2_000) {
        let Listing { table, query, .. } = &listing;
        for set in listed(&listing) {
            let mut cells = vec![BEFORE; 1_000];
            let length = write(table, *query, set, &mut cells).expect("a record");
            let record = cells[..length].to_vec();
            assert!(cells[length..].iter().all(|&cell| cell == BEFORE));
            assert_eq!(verify(table, *query, &record), Ok(set), "{listing:?}");
            let from_set = records.iter().filter(|other| is_part(used_set(other), set));
            let mut others: Vec<&Vec<Number>> = from_set.collect();
            not_least += usize::from(others.iter().any(|&other| *other < record));
            others.retain(|other| verify(table, *query, other).is_ok());
            assert_eq!(others.into_iter().min(), Some(&record), "{listing:?}");
            sets += 1;
        }
    }
    assert!(sets > 500 && not_least > 30, "{sets}, {not_least}");
}

#[test]
fn every_set_is_listed_or_refused() {
    let mut random = Random::new(SEED);
    let mut told = BTreeSet::new();
    for _ in 0..600 {
        let listing = listings::any(&mut random);
        let checked = check_query(&listing.table, listing.query);
        let sets = listed(&listing);
        let any = random.bits() as u32 >> random.below(32);
        for set in [0, 1, any, u32::MAX]
            .into_iter()
            .chain(sets.first().copied())
        {
            let cells = random.below(3);
            let mut buffer = vec![BEFORE; cells];
            let answer = write(&listing.table, listing.query, set, &mut buffer);
            let number = answer.map_or_else(|refusal| refusal.number, |_| 0);
            told.insert(number);
            let expected = match (checked, sets.contains(&set)) {
                (Err(refusal), _) => Some(refusal),
                (_, false) => Some(Refusal::new(15, 0u64)),
                _ => None,
            };
            if let Some(refusal) = expected {
                assert_eq!(answer, Err(refusal), "{listing:?}, set {set}");
            }
            assert!(number == 0 || buffer == vec![BEFORE; cells], "{listing:?}");
        }
    }
    assert!(told.is_superset(&[0, 3, 4, 8, 15, 16].into()), "{told:?}");
}

#[test]
fn patience_ends_or_changes_nothing() {
    let mut random = Random::new(SEED);
    let (mut ended, mut same) = (0, 0);
    for _ in 0..100 {
        let wallet = detours::made_up(&mut random);
        let table = Table::read(&wallet.records.numbers()).expect("an accepted table");
        let asked = wallet.query.read().expect("a valid query");
        for minimal in minimal_sets(&table, asked) {
            let first = |steps| {
                let first = first_within(Patience::new(steps), &table, asked, minimal.set)?;
                Some((first.witness.record(), first.passed))
            };
            match first(40) {
                None => ended += 1,
                short => {
                    assert_eq!(short, first(u64::MAX));
                    same += 1;
                }
            }
        }
    }
    assert!(ended > 20 && same > 20, "{ended}, {same}");
}

#[test]
fn detours_are_valid_and_their_least_record_is_often_not_accepted() {
    let mut random = Random::new(SEED);
    let (mut sets, mut passed) = (0, 0);
    for _ in 0..200 {
        let wallet = detours::made_up(&mut random);
        let numbers = wallet.records.numbers();
        assert_eq!(check_query(&numbers, wallet.query), Ok(()), "{wallet:?}");
        let table = Table::read(&numbers).expect("an accepted table");
        let asked = wallet.query.read().expect("a valid query");
        for minimal in minimal_sets(&table, asked) {
            let first = first_within(Patience::new(u64::MAX), &table, asked, minimal.set);
            sets += 1;
            passed += usize::from(first.expect("patience").passed > 0);
        }
    }
    assert!(3 * passed > sets && sets > 200, "{passed} of {sets}");
}

#[test]
fn the_same_seed_gives_the_same_listings() {
    let drawn = || {
        let mut random = Random::new(SEED);
        (0..50)
            .map(|_| listings::any(&mut random))
            .collect::<Vec<_>>()
    };
    assert_eq!(drawn(), drawn());
}
