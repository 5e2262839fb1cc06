//! That the generators make what they say, and reach every shape of table.

mod owning;

use std::collections::BTreeSet;

use reference::generate::damage::Damaged;
use reference::generate::{chains, damage, noise, places, queries, valid, Place};
use reference::random::Random;
use reference::records::{Head, Records};
use reference::table::EVERY_STATE;
use reference::{check, check_query, shop, Number, Query, Refusal};

const SEED: u64 = 7;

/// Some thousands of valid tables.
fn valid_tables() -> Vec<Records> {
    let mut random = Random::new(SEED);
    let mut draw = || {
        let head = valid::head(&mut random);
        valid::records(&mut random, head)
    };
    (0..4_000).map(|_| draw()).collect()
}

/// How often something is found in valid tables.
fn found(there: impl Fn(&Records) -> bool) -> usize {
    let tables = valid_tables();
    tables.iter().filter(|records| there(records)).count()
}

/// The first cells of the chains of a table's kind 4 credentials.
fn starts(records: &Records) -> Vec<Number> {
    let credentials = records.credentials.iter();
    let fourth = credentials.filter(|credential| credential[2] == 4);
    fourth.map(|credential| credential[3]).collect()
}

/// The cells of the chain that starts at a cell.
fn chain(records: &Records, start: Number) -> Vec<Number> {
    let next = |&cell: &Number| Some(records.cells[cell as usize - 1][2]).filter(|&n| n != 0);
    std::iter::successors(Some(start), next).collect()
}

#[test]
fn valid_tables_are_accepted() {
    for records in valid_tables() {
        assert_eq!(check(&records.numbers()), Ok(()), "{records:?}");
    }
}

#[test]
fn records_written_are_read_again() {
    for records in valid_tables() {
        assert_eq!(Records::read(&records.numbers()), Ok(records));
    }
}

#[test]
fn the_largest_table_has_1105_numbers() {
    let mut random = Random::new(SEED);
    let largest = valid::records(&mut random, Head::LIMITS).numbers();
    assert_eq!(largest.len(), 1_105);
    assert_eq!(check(&largest), Ok(()));
}

#[test]
fn every_kind_and_label_occurs() {
    for kind in 1..=4 {
        assert!(found(|r| r.credentials.iter().any(|c| c[2] == kind)) > 0);
    }
    for label in 1..=4 {
        assert!(found(|r| r.edges.iter().any(|e| e[2] == label)) > 0);
    }
}

#[test]
fn about_a_third_of_the_automata_have_label_4() {
    let [with, all] = owning::automata(&valid_tables());
    assert!((all / 4..all / 2).contains(&with), "{with} of {all}");
}

#[test]
fn every_count_is_at_its_ends() {
    for (index, limit) in Head::LIMITS.numbers().into_iter().enumerate() {
        assert!(found(|r| r.head().numbers()[index] == 0) > 0);
        assert!(found(|r| r.head().numbers()[index] == limit) > 0);
    }
    for set in [0, EVERY_STATE] {
        assert!(found(|r| r.automata.iter().any(|a| a[0] == set)) > 0);
        assert!(found(|r| r.automata.iter().any(|a| a[1] == set)) > 0);
    }
    for mark in [0, 1] {
        assert!(found(|r| r.automata.iter().any(|a| a[2] == mark)) > 0);
    }
}

#[test]
fn chains_of_every_shape_occur() {
    for length in 2..=4 {
        let there = |r: &Records| starts(r).iter().any(|&s| chain(r, s).len() == length);
        assert!(found(there) > 0, "chains of {length}");
    }
    let inside = |r: &Records| {
        let starts = starts(r);
        let tails = starts.iter().flat_map(|&s| chain(r, s).split_off(1));
        tails.into_iter().any(|cell| starts.contains(&cell))
    };
    assert!(found(inside) > 0, "a chain that begins inside another");
}

#[test]
fn cells_are_shared_unused_and_repeated() {
    let shared = |r: &Records| {
        let mut met = BTreeSet::new();
        let cells = r.cells.iter().map(|cell| cell[2]);
        cells
            .filter(|&next| next != 0)
            .any(|next| !met.insert(next))
    };
    assert!(found(shared) > 0, "two cells with one next");
    let unused = |r: &Records| {
        let used: BTreeSet<Number> = starts(r).iter().flat_map(|&s| chain(r, s)).collect();
        !used.is_empty() && used.len() < r.cells.len()
    };
    assert!(found(unused) > 0, "an unused cell beside used ones");
    let twice = |r: &Records| {
        let role = |cell: Number| &r.cells[cell as usize - 1][..2];
        let chains = starts(r).into_iter().map(|s| chain(r, s));
        chains.into_iter().any(|c| role(c[0]) == role(c[1]))
    };
    assert!(found(twice) > 0, "a role named twice");
}

#[test]
fn equal_records_occur() {
    assert!(found(|r| r.credentials.windows(2).any(|w| w[0] == w[1])) > 0);
    assert!(found(|r| r.edges.windows(2).any(|w| w[0] == w[1])) > 0);
}

#[test]
fn every_number_of_a_table_is_a_field() {
    let mut random = Random::new(SEED);
    let records = valid::records(&mut random, Head::LIMITS);
    let fields = places::fields(&records);
    assert_eq!(fields.len(), 1_105);
    let there: BTreeSet<Place> = fields.iter().map(|field| field.place).collect();
    let mut missing = Place::all();
    missing.retain(|place| !there.contains(place));
    let mut others = vec![Place::Length, Place::Chain];
    others.extend(Place::QUERY);
    assert_eq!(missing, others);
}

/// What a single damage leads to: nothing, or one of its place's refusals.
fn assert_expected(damaged: &Damaged) {
    let answer = check(&damaged.table);
    let expected = match answer {
        Ok(()) => true,
        Err(refusal) => damaged.place.refusals().contains(&refusal.number),
    };
    assert!(expected, "{damaged:?}: {answer:?}");
}

#[test]
fn one_damage_leads_to_a_refusal_of_its_place() {
    let mut random = Random::new(SEED);
    for records in valid_tables() {
        assert_expected(&damage::field(&mut random, &records));
        assert_expected(&damage::length(&mut random, &records));
        let chain = damage::chain(&mut random, &records);
        chain.iter().for_each(assert_expected);
    }
}

#[test]
fn every_field_and_length_of_the_shop() {
    let records = Records::read(&shop::U).expect("U is accepted");
    damage::every_field(&records).for_each(|damaged| assert_expected(&damaged));
    for damaged in damage::every_length(&records) {
        let number = if damaged.table.len() < 4 { 1 } else { 3 };
        assert_eq!(check(&damaged.table), Err(Refusal::new(number, 0u64)));
    }
}

#[test]
fn damage_reaches_label_4_with_every_wrong_owner_and_name() {
    let mut random = Random::new(SEED);
    let mut met = BTreeSet::new();
    for records in valid_tables() {
        let Damaged { table, place } = damage::field(&mut random, &records);
        let field = match place {
            Place::EdgeOwner(4) => 3,
            Place::EdgeName(4) => 4,
            _ => continue,
        };
        if let Err(refusal) = check(&table) {
            assert_eq!(refusal.number, 7, "{table:?}");
            let edges = Records::read(&table).expect("a right head").edges;
            let edge = edges[refusal.position as usize - 1];
            assert_eq!(edge[2], 4, "{table:?}");
            met.insert((field, edge[field]));
        }
    }
    let wrong_owners = [0, 65, Number::MAX].map(|owner| (3, owner));
    let wrong_names = [1, 64, 256, Number::MAX].map(|name| (4, name));
    assert!(met.is_superset(&wrong_owners.into()), "{met:?}");
    assert!(met.is_superset(&wrong_names.into()), "{met:?}");
}

#[test]
fn of_two_damages_the_upper_row_counts() {
    let mut random = Random::new(SEED);
    let mut met = BTreeSet::new();
    for records in valid_tables() {
        let (table, pair) = damage::pair(&mut random, &records);
        let refusal = check(&table).expect_err("two damages");
        assert_eq!(refusal.number, pair[0], "{pair:?}: {table:?}");
        met.insert(pair);
    }
    assert_eq!(met.len(), 8 * 7 / 2, "every pair of rows");
}

#[test]
fn overfull_tables_are_refused_for_their_head() {
    let mut random = Random::new(SEED);
    let records = valid::records(&mut random, Head::LIMITS);
    for damaged in damage::overfull(&records, 1) {
        assert_eq!(check(&damaged.table), Err(Refusal::new(2, 0u64)));
    }
}

#[test]
fn a_chain_has_the_wanted_length() {
    let mut random = Random::new(SEED);
    for length in 1..=63 {
        let records = valid::records(&mut random, Head::LIMITS);
        let changed = chains::with_chain(&mut random, &records, length);
        let lengths = chains::lengths(&changed.cells);
        let start = starts(&changed)
            .into_iter()
            .find(|&start| lengths[start as usize - 1] == length as usize);
        assert!(start.is_some(), "a chain of {length}");
    }
}

#[test]
fn noise_meets_every_refusal_of_a_record() {
    let mut random = Random::new(SEED);
    let tables = (0..20_000).map(|_| noise::table(&mut random));
    let numbers: BTreeSet<u32> = tables
        .map(|table| check(&table).err().map_or(0, |refusal| refusal.number))
        .collect();
    assert_eq!(numbers, BTreeSet::from([0, 3, 4, 5, 6, 7, 17]));
    assert!(noise::stump(&mut random).len() < 4);
}

#[test]
fn queries_are_as_they_say() {
    let mut random = Random::new(SEED);
    let answer = |query: Query| check_query(&shop::T, query);
    for _ in 0..1_000 {
        assert_eq!(answer(queries::valid(&mut random)), Ok(()));
        let (query, place) = queries::damaged(&mut random);
        if let Err(refusal) = answer(query) {
            let position = refusal.position as usize;
            assert_eq!(Place::QUERY[position - 1], place);
        }
    }
    let several = (0..1_000).map(|_| answer(queries::several(&mut random)));
    let positions: BTreeSet<u64> = several.flat_map(Result::err).map(|r| r.position).collect();
    assert_eq!(positions, BTreeSet::from([1, 2, 3, 4]));
}
