//! The wallets on which the ways of listing are compared: grown ones of a given
//! number of credentials, with constraints that demand every word: the other ways
//! know no others.

use reference::generate::marks::Marks;
use reference::generate::wallets;
use reference::random::Random;
use reference::Number;

use crate::listing::Listing;

/// The seed of the wallets.
const SEED: u64 = 2012;
/// So many wallets there are of each size.
const EACH: usize = 100;

/// The numbers of credentials that wallets have.
pub fn sizes() -> impl Iterator<Item = Number> {
    (2..=20).step_by(2)
}

/// The wallets of this size, the same ones in every run.
pub fn of_size(size: Number) -> Vec<Listing> {
    let mut random = Random::new(SEED + u64::from(size));
    (0..EACH).map(|_| constrained(&mut random, size)).collect()
}

/// A grown wallet of this size in which a third to all of the credentials bear
/// on the query, and at least one has an automaton.
fn constrained(random: &mut Random, size: Number) -> Listing {
    loop {
        let mut wallet = wallets::of_size(random, size);
        Marks::Zeros.give(random, &mut wallet.records);
        let mut credentials = wallet.records.credentials.iter();
        if credentials.any(|credential| credential[5] != 0) {
            return Listing::of(&wallet);
        }
    }
}

#[cfg(test)]
mod tests {
    use super::{of_size, sizes, EACH};
    use reference::records::Records;

    #[test]
    fn the_wallets_have_the_size_and_a_constraint() {
        for size in sizes() {
            let wallets = of_size(size);
            assert_eq!(wallets.len(), EACH);
            for wallet in wallets {
                let records = Records::read(&wallet.table).expect("a whole table");
                let mut credentials = records.credentials.iter();
                assert_eq!(records.head().credentials, size);
                assert!(credentials.any(|credential| credential[5] > 0));
                assert_eq!(reference::check_query(&wallet.table, wallet.query), Ok(()));
            }
        }
    }

    #[test]
    fn they_are_the_same_every_time() {
        let tables = || of_size(20).into_iter().map(|wallet| wallet.table);
        assert!(tables().eq(tables()));
    }
}
