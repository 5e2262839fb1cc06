//! Clubs and other wallets in which a role leads back to itself: that they are
//! valid, that their lists and first records are what the definition says, and
//! that roles do come again in them.

mod by_definition;
mod every_record;

use by_definition::{compared, first, listed};
use reference::check_query;
use reference::derivation::Derivation;
use reference::generate::clubs::{self, Circle};
use reference::generate::wallets::Wallet;
use reference::pairs::is_part;
use reference::query::DEEPEST;
use reference::random::Random;
use reference::sorts::Role;
use reference::table::Table;
use reference::words::words;
use reference::Number;

const SEED: u64 = 7;
/// A table is left aside if it takes more steps to find all records.
const STEPS: usize = 4_000;

/// Some wallets of a circle, of at most so many credentials.
fn drawn(circle: Circle, most: Number, count: usize) -> Vec<Wallet> {
    let mut random = Random::new(SEED);
    (0..count)
        .map(|_| clubs::made_up(&mut random, circle, most))
        .collect()
}

/// How often a role stands in one word of a record at the most.
fn most_often(wallet: &Wallet, record: &[Number]) -> usize {
    let table = Table::read(&wallet.records.numbers()).expect("an accepted table");
    let asked = wallet.query.read().expect("a valid query");
    let derivation = Derivation::read(&table, asked, record).expect("a right record");
    let words = words(&derivation);
    let often = |word: &Vec<Role>| {
        let times = word
            .iter()
            .map(|role| word.iter().filter(|r| *r == role).count());
        times.max().unwrap_or(0)
    };
    words.iter().map(often).max().unwrap_or(0)
}

#[test]
fn circles_are_valid_and_no_larger_than_asked_for() {
    for circle in Circle::ALL {
        for most in [8, 13, 20] {
            let wallets = drawn(circle, most, 60);
            for wallet in &wallets {
                let valid = check_query(&wallet.records.numbers(), wallet.query);
                assert_eq!(valid, Ok(()), "{wallet:?}");
                assert!(wallet.records.head().credentials <= most, "{wallet:?}");
            }
            let free = wallets.iter().filter(|w| w.records.automata.is_empty());
            let free = free.count();
            let expected = if circle == Circle::Spared {
                0..1
            } else {
                10..50
            };
            assert!(expected.contains(&free), "{circle}: {free}");
        }
    }
}

#[test]
fn lists_and_first_records_of_circles_are_what_the_definition_says() {
    for circle in Circle::ALL {
        let [wallets, sets] = compared(STEPS, &drawn(circle, 10, 150));
        assert!(wallets > 60 && sets > 40, "{circle}: {wallets}, {sets}");
    }
}

#[test]
fn roles_come_again_in_first_records() {
    for circle in Circle::ALL {
        let mut most = 0;
        for wallet in drawn(circle, 20, 150) {
            let sets = listed(&wallet);
            let first = sets.first().map(|&set| first(&wallet, set));
            most = most.max(first.map_or(0, |record| most_often(&wallet, &record)));
        }
        assert!(most > 1, "{circle}: {most}");
    }
}

#[test]
fn a_line_of_friends_is_one_set() {
    for people in 1..=16 {
        let line = clubs::line(people, 1);
        let all = (1 << (people + 1)) - 1;
        let expected = if people == 1 { vec![2] } else { vec![all] };
        assert_eq!(listed(&line), expected, "{people}");
        let record = first(&line, expected[0]);
        assert_eq!(most_often(&line, &record), people as usize);
    }
    // The last of seventeen is on the seventeenth level.
    assert_eq!(listed(&clubs::line(17, 1)), []);
}

#[test]
fn a_membership_need_not_be() {
    // Without friendships that are added, credential 6 is spared by the way round
    // in which the first role comes again.
    let mut random = Random::new(SEED);
    let mut spared = 0;
    for _ in 0..80 {
        let wallet = clubs::made_up(&mut random, Circle::Spared, 8);
        let all = (1 << wallet.records.head().credentials) - 1;
        let sets = listed(&wallet);
        let alone = matches!(wallet.records.automata[..], [[_, _, 0]]);
        if wallet.query.depth >= 5 && alone {
            assert_eq!(sets.len(), 1, "{wallet:?}");
            assert!(sets[0] != all && is_part(sets[0], all), "{wallet:?}");
            let record = first(&wallet, sets[0]);
            assert_eq!(most_often(&wallet, &record), 2);
            spared += 1;
        }
    }
    assert!(spared > 5, "{spared}");
}

#[test]
fn a_clique_has_every_way_through_it() {
    // Everybody is the club's friend, so nothing but that is needed.
    for people in 2..=4 {
        let clique = clubs::clique(people);
        let sets = listed(&clique);
        let credentials = u32::from(people) + 1;
        assert!(sets.contains(&(1 << (credentials - 1))), "{sets:?}");
        assert_eq!(clique.query.depth, DEEPEST);
        // By way of one, two or more of the others, in any order.
        let ways = [2, 5, 16];
        assert_eq!(sets.len(), ways[people as usize - 2]);
    }
}
