//! The list and the first records of a wallet, as they are told, and as they
//! follow from verifying every record.

use std::collections::BTreeMap;

use reference::generate::wallets::Wallet;
use reference::pairs::is_part;
use reference::{list, verify, write, Number};

use crate::every_record::records_within;

/// The list of a wallet; nothing if there is no set.
pub fn listed(wallet: &Wallet) -> Vec<u32> {
    let mut cells = vec![0; 4_096];
    let count = list(&wallet.records.numbers(), wallet.query, &mut cells);
    cells.truncate(count.unwrap_or(0));
    cells
}

/// The first record of a listed set.
pub fn first(wallet: &Wallet, set: u32) -> Vec<Number> {
    let mut cells = vec![0; 4_096];
    let length = write(&wallet.records.numbers(), wallet.query, set, &mut cells);
    cells.truncate(length.expect("a record"));
    cells
}

/// Whether the list and the first records of each wallet are what the definition
/// says. Wallets are left aside if it takes more steps than these to find all
/// records. Tells how many are not, and how many sets they have.
pub fn compared(steps: usize, wallets: &[Wallet]) -> [usize; 2] {
    let (mut compared, mut sets) = (0, 0);
    for wallet in wallets {
        let Some(expected) = minimal_within(steps, wallet) else {
            continue;
        };
        let listed = listed(wallet).into_iter();
        let told = listed.map(|set| (set, first(wallet, set)));
        assert_eq!(told.collect::<Vec<_>>(), expected, "{wallet:?}");
        compared += 1;
        sets += expected.len();
    }
    [compared, sets]
}

/// The used sets of accepted records, but for those that have another one as a
/// proper part; each with the least record that has it.
fn minimal_within(steps: usize, wallet: &Wallet) -> Option<Vec<(u32, Vec<Number>)>> {
    let table = wallet.records.numbers();
    let mut records = records_within(steps, &table, wallet.query)?;
    records.sort();
    let mut accepted = BTreeMap::new();
    for record in records {
        if let Ok(used) = verify(&table, wallet.query, &record) {
            accepted.entry(used).or_insert(record);
        }
    }
    let sets: Vec<u32> = accepted.keys().copied().collect();
    let has_part = |set: u32| sets.iter().any(|&part| part != set && is_part(part, set));
    accepted.retain(|&set, _| !has_part(set));
    Some(accepted.into_iter().collect())
}
