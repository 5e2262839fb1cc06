//! The record that is written is the first: no record that the verifier accepts
//! and that uses only credentials of the set comes before it, compared number by
//! number. What is written is held against the verifier's verdicts alone.

#[allow(dead_code)]
mod drawn;

use bwlchareg::{check_query, credentials, layout, verify, write, Number, Query, Refusal};
use drawn::crossing::{crossing, LAST_PRINCIPAL};
use drawn::Random;

const SEED: u64 = 2026;

/// The record of a set, in exactly as many cells as it needs. With fewer, down
/// to none, it is refused and no cell changes.
fn written(table: &[Number], query: Query, set: u32) -> Vec<Number> {
    let mut cells = Vec::new();
    loop {
        let before = cells.clone();
        match write(table, query, set, &mut cells) {
            Ok(length) => {
                assert_eq!(length, cells.len());
                return cells;
            }
            Err(refusal) => {
                let told = (refusal.number, refusal.position);
                assert_eq!(told, (Refusal::LONGER_RECORD, 0));
                assert_eq!(cells, before);
                // No credential and no middle is so great.
                cells.push(0xC000 + cells.len() as Number);
            }
        }
    }
}

/// What may stand in a node of a drawn table's record, within a set, ascending.
/// Drawn tables name no other principals as members.
fn nodes(table: &[Number], set: u32) -> Vec<[Number; layout::NODE]> {
    let mut nodes = Vec::new();
    for number in credentials(set) {
        let credential = &table[layout::credential(table, number as usize)];
        let middles = match credential[2] {
            3 => 1..=LAST_PRINCIPAL,
            _ => 0..=0,
        };
        nodes.extend(middles.map(|middle| [number as Number, middle]));
    }
    nodes
}

/// The records that begin so, that are made of these nodes, and that the
/// verifier accepts, in the order of the nodes. They are found by its verdicts
/// alone: a beginning may go on exactly where its next node is told to be
/// missing. There may be very many, so that no more than a few are looked for.
fn accepted_records(
    table: &[Number],
    query: Query,
    nodes: &[[Number; layout::NODE]],
    start: &[Number],
    most: usize,
) -> Vec<Vec<Number>> {
    let missing = (start.len() / layout::NODE) as u64 + 2;
    let mut found = Vec::new();
    for node in nodes {
        let longer = [start, node].concat();
        match verify(table, query, &longer) {
            Ok(_) => found.push(longer),
            Err(refusal) if (refusal.number, refusal.position) == (11, missing) => {
                let most = most - found.len();
                found.extend(accepted_records(table, query, nodes, &longer, most));
            }
            Err(_) => {}
        }
        if found.len() >= most {
            break;
        }
    }
    found
}

#[test]
fn no_accepted_record_of_the_set_comes_before_the_written_one() {
    let mut random = Random::new(SEED);
    let (mut records, mut chosen) = (0, 0);
    for round in 0..1_000 {
        let (table, query) = match round % 2 {
            0 => crossing(&mut random),
            _ => drawn::accepted_and_query(&mut random),
        };
        for set in drawn::listed(&table, query) {
            let record = written(&table, query, set);
            let accepted = accepted_records(&table, query, &nodes(&table, set), &[], 2);
            assert_eq!(Some(&record), accepted.first(), "{table:?} {query:?}");
            assert_eq!(verify(&table, query, &record), Ok(set));
            records += 1;
            chosen += usize::from(accepted.len() > 1);
        }
    }
    // A record that is the only one is first in any order.
    assert!(records >= 500 && chosen >= 100, "{records} {chosen}");
}

#[test]
fn every_number_is_answered_as_a_set() {
    let mut random = Random::new(SEED + 1);
    for _ in 0..300 {
        let (table, query) = drawn::accepted_and_query(&mut random);
        if check_query(&table, query).is_err() {
            continue;
        }
        let listed = drawn::listed(&table, query);
        let great = [1 << 20, 1 << 31, u32::MAX - 7, u32::MAX];
        for set in (0..1 << 10).chain(great) {
            let told = if listed.contains(&set) { 16 } else { 15 };
            let refusal = write(&table, query, set, &mut []).unwrap_err();
            assert_eq!((refusal.number, refusal.position), (told, 0), "{set}");
        }
    }
}
