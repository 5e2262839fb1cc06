//! Made-up tables with automata of both marks: what they are like, and their lists
//! and first records, compared with what verifying every record gives.

mod by_definition;
mod every_record;

use std::collections::BTreeSet;

use by_definition::{compared, listed};
use every_record::records_within;
use reference::generate::clubs::{self, Circle};
use reference::generate::damage::{self, Damaged};
use reference::generate::marks::Marks;
use reference::generate::wallets::Wallet;
use reference::generate::{claims, crossed, demands, valid, Place};
use reference::random::Random;
use reference::records::{Head, Records};
use reference::{check, check_query, list, upgraded, verify, Number, Refusal};

const SEED: u64 = 11;
/// Wallets are left aside if it takes more steps to find all records.
const STEPS: usize = 3_000;

/// So many wallets of a sort.
fn drawn(count: usize, sort: impl Fn(&mut Random) -> Wallet) -> Vec<Wallet> {
    let mut random = Random::new(SEED);
    (0..count).map(|_| sort(&mut random)).collect()
}

/// These wallets with such marks in the place of their own.
fn with_marks(wallets: &[Wallet], marks: Marks) -> Vec<Wallet> {
    let mut random = Random::new(SEED);
    let mut others = wallets.to_vec();
    for wallet in &mut others {
        marks.give(&mut random, &mut wallet.records);
    }
    others
}

/// The marks of the automata that are attached to credentials.
fn attached(records: &Records) -> BTreeSet<Number> {
    let credentials = records.credentials.iter();
    let numbers = credentials.filter(|credential| credential[5] > 0);
    numbers
        .map(|credential| records.automata[credential[5] as usize - 1][2])
        .collect()
}

#[test]
fn wallets_with_demands_mix_the_marks() {
    for wallet in drawn(500, demands::made_up) {
        let valid = check_query(&wallet.records.numbers(), wallet.query);
        assert_eq!(valid, Ok(()), "{wallet:?}");
        assert_eq!(attached(&wallet.records), BTreeSet::from([0, 1]));
    }
}

#[test]
fn lists_and_first_records_with_demands_are_what_the_definition_says() {
    let [wallets, sets] = compared(STEPS, &drawn(1_500, demands::made_up));
    assert!(wallets > 900 && sets > 600, "{wallets}, {sets}");
}

#[test]
fn lists_with_demands_would_be_others_with_other_marks() {
    let wallets = drawn(1_000, demands::made_up);
    for marks in [Marks::Zeros, Marks::Ones] {
        let others = with_marks(&wallets, marks);
        let both = wallets.iter().zip(&others);
        let others = both.filter(|(one, other)| listed(one) != listed(other));
        let others = others.count();
        assert!(others > 100, "{marks:?}: {others}");
    }
}

#[test]
fn lists_and_first_records_of_circles_are_what_the_definition_says_with_all_marks() {
    for marks in [Marks::Ones, Marks::Mixed] {
        for circle in Circle::ALL {
            let mut wallets = drawn(150, |random| clubs::made_up(random, circle, 9));
            wallets.retain(|wallet| !wallet.records.automata.is_empty());
            let [wallets, sets] = compared(STEPS, &with_marks(&wallets, marks));
            assert!(wallets > 20 && sets > 8, "{circle}: {wallets}, {sets}");
        }
    }
}

#[test]
fn lists_and_first_records_of_crossed_wallets_are_what_the_definition_says_with_all_marks() {
    let wallets = drawn(300, crossed::made_up);
    for marks in [Marks::Ones, Marks::Mixed] {
        let [wallets, sets] = compared(STEPS, &with_marks(&wallets, marks));
        assert!(wallets > 40 && sets > 40, "{wallets}, {sets}");
    }
}

#[test]
fn records_are_refused_by_automata_of_both_marks() {
    let mut told = [0; 2];
    for wallet in drawn(300, demands::made_up) {
        let table = wallet.records.numbers();
        let records = records_within(STEPS, &table, wallet.query);
        for record in records.unwrap_or_default() {
            if let Err(Refusal { number, position }) = verify(&table, wallet.query, &record) {
                assert_eq!(number, 14);
                let mark = wallet.records.automata[position as usize - 1][2];
                told[mark as usize] += 1;
            }
        }
    }
    assert!(told.iter().all(|&times| times > 100), "{told:?}");
}

#[test]
fn tables_from_which_records_are_grown_have_all_sorts_of_marks() {
    let mut random = Random::new(SEED);
    let drawn = (0..400).map(|_| attached(&claims::table(&mut random)));
    let drawn: BTreeSet<Vec<Number>> = drawn.map(|marks| marks.into_iter().collect()).collect();
    let expected = [vec![], vec![0], vec![0, 1], vec![1]];
    assert_eq!(drawn, expected.into());
}

#[test]
fn an_upgraded_table_has_mark_0_everywhere_and_is_accepted_if_it_was() {
    let mut random = Random::new(SEED);
    for _ in 0..500 {
        let head = valid::head(&mut random);
        let mut records = valid::records(&mut random, head);
        let upgrade = upgraded(&records.base_numbers()).expect("a table of the base layout");
        Marks::Zeros.give(&mut random, &mut records);
        assert_eq!(upgrade, records.numbers());
        assert_eq!(check(&upgrade), Ok(()));
    }
}

#[test]
fn upgraded_wallets_have_the_lists_of_mark_0() {
    let wallets = drawn(200, demands::made_up);
    let zeros = with_marks(&wallets, Marks::Zeros);
    for (wallet, zeros) in wallets.iter().zip(&zeros) {
        let upgrade = upgraded(&wallet.records.base_numbers()).expect("a base table");
        let mut cells = vec![0; 4_096];
        let count = list(&upgrade, wallet.query, &mut cells).unwrap_or(0);
        assert_eq!(cells[..count], listed(zeros));
    }
}

#[test]
fn every_mark_is_damaged() {
    let records = valid::records(&mut Random::new(SEED), Head::LIMITS);
    let mut told = BTreeSet::new();
    for Damaged { table, place } in damage::every_field(&records) {
        if let (Place::AutomatonMark, Err(refusal)) = (place, check(&table)) {
            assert_eq!(refusal.number, 17);
            told.insert(refusal.position);
        }
    }
    assert_eq!(told, (1..=8).collect());
}
