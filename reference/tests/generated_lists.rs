//! The lists of made-up tables, compared with what verifying every record of
//! such a table gives; and what the made-up tables are like.

mod every_record;
mod owning;

use std::collections::{BTreeMap, BTreeSet};

use every_record::records;
use reference::derivation::NODE;
use reference::generate::families::{self, Family};
use reference::generate::listings::{self, Listing, Source};
use reference::generate::shapes::{self, Way};
use reference::generate::wallets::{self, Place, Plan, Wallet};
use reference::listing::minimal_sets_within;
use reference::pairs::is_part;
use reference::patience::Patience;
use reference::query::DEEPEST;
use reference::random::Random;
use reference::records::Records;
use reference::table::Table;
use reference::{check, check_query, list, verify, Number, Query, Refusal};

const SEED: u64 = 7;

/// The list by its definition: the used sets of accepted records, but for those
/// that have another one as a proper part.
fn by_definition(listing: &Listing) -> Option<Vec<u32>> {
    let records = records(&listing.table, listing.query)?;
    let verdict = |record: &Vec<Number>| verify(&listing.table, listing.query, record);
    let verdicts = records.iter().map(verdict);
    let used: BTreeSet<u32> = verdicts.filter_map(Result::ok).collect();
    let proper = |part: u32, whole: u32| is_part(part, whole) && part != whole;
    let minimal = used
        .iter()
        .filter(|&&set| !used.iter().any(|&other| proper(other, set)));
    Some(minimal.copied().collect())
}

/// The list with cells to spare.
fn listed(table: &[Number], query: Query) -> Result<Vec<u32>, Refusal> {
    let mut cells = vec![0; 4_096];
    let count = list(table, query, &mut cells)?;
    cells.truncate(count);
    Ok(cells)
}

#[test]
fn lists_are_what_the_definition_says() {
    let mut random = Random::new(SEED);
    let mut lengths = BTreeSet::new();
    let mut compared = 0;
    for _ in 0..800 {
        let listing = listings::any(&mut random);
        let Some(expected) = by_definition(&listing) else {
            continue;
        };
        compared += 1;
        lengths.insert(expected.len().min(5));
        match listed(&listing.table, listing.query) {
            Ok(sets) => assert_eq!(sets, expected, "{listing:?}"),
            Err(refusal) => {
                assert_eq!(refusal, Refusal::new(9, 0u64), "{listing:?}");
                assert!(expected.is_empty(), "{listing:?}");
            }
        }
    }
    assert!(compared > 400, "{compared}");
    assert_eq!(lengths, (0..=5).collect());
}

/// Hands over wallets of every size and arrangement.
fn each_planned(mut use_it: impl FnMut(&mut Random, Plan)) {
    let mut random = Random::new(SEED);
    for bearing in 1..=20 {
        for place in Place::ALL {
            let others = random.between(0, 20 - bearing);
            let plan = Plan {
                bearing,
                others,
                place,
            };
            use_it(&mut random, plan);
        }
    }
}

#[test]
fn wallets_are_accepted_and_of_the_size_that_is_planned() {
    each_planned(|random, plan| {
        let wallet = wallets::planned(random, plan);
        assert_eq!(check(&wallet.records.numbers()), Ok(()), "{wallet:?}");
        let size = (plan.bearing + plan.others) as usize;
        assert_eq!(wallet.records.credentials.len(), size);
    });
}

#[test]
fn the_others_bear_on_nothing_and_stand_where_they_are_planned() {
    each_planned(|random, plan| {
        let mut wallet = wallets::planned(random, plan);
        wallet.query.depth = DEEPEST;
        let sets = listed(&wallet.records.numbers(), wallet.query).expect("a list");
        let used = sets.iter().fold(0, |one, other| one | other);
        let bearing = match plan.place {
            Place::Low => ((1 << plan.bearing) - 1) << plan.others,
            Place::High => (1 << plan.bearing) - 1,
            Place::Anywhere => u32::MAX,
        };
        assert!(is_part(used, bearing), "{wallet:?}");
    });
}

#[test]
fn every_credential_that_is_to_bear_on_the_query_does() {
    let mut looked_at = 0;
    each_planned(|random, mut plan| {
        plan.others = 0;
        let mut wallet = wallets::planned(random, plan);
        wallet.query.depth = DEEPEST;
        let Some(records) = records(&wallet.records.numbers(), wallet.query) else {
            return;
        };
        looked_at += 1;
        let nodes = records.iter().flat_map(|record| record.chunks(NODE));
        let used: BTreeSet<Number> = nodes.map(|node| node[0]).collect();
        assert_eq!(used, (1..=plan.bearing).collect(), "{wallet:?}");
    });
    assert!(looked_at > 30, "{looked_at}");
}

#[test]
fn patience_ends_or_changes_nothing() {
    let mut random = Random::new(SEED);
    let mut ended = 0;
    for _ in 0..300 {
        let wallet = wallets::made_up(&mut random);
        let table = Table::read(&wallet.records.numbers()).expect("an accepted table");
        let asked = wallet.query.read().expect("a valid query");
        let sets = |steps| {
            let sets = minimal_sets_within(Patience::new(steps), &table, asked)?;
            Some(sets.iter().map(|minimal| minimal.set).collect::<Vec<u32>>())
        };
        match sets(20) {
            None => ended += 1,
            short => assert_eq!(short, sets(u64::MAX)),
        }
    }
    assert!((50..300).contains(&ended), "{ended}");
}

#[test]
fn about_a_third_of_the_automata_of_listings_have_label_4() {
    let mut random = Random::new(SEED);
    let drawn = (0..3_000).map(|_| listings::any(&mut random));
    let mut by_source: BTreeMap<Source, Vec<Records>> = BTreeMap::new();
    for Listing { table, source, .. } in drawn {
        let records = Records::read(&table).into_iter();
        by_source.entry(source).or_default().extend(records);
    }
    let all: Vec<Records> = by_source.values().flatten().cloned().collect();
    let [with_4, automata] = owning::automata(&all);
    let right = automata / 4..automata / 2;
    assert!(right.contains(&with_4), "{with_4} of {automata}");
    // Automata that accept nothing have no label to speak of.
    for (source, tables) in by_source {
        let [with_4, automata] = owning::automata(&tables);
        let some = automata > 0 && source != Source::Shaped(Family::Barred);
        assert_eq!(with_4 > 0, some, "{source}");
    }
}

#[test]
fn the_same_seed_gives_the_same_listings() {
    let drawn = || {
        let mut random = Random::new(SEED);
        (0..50)
            .map(|_| listings::made_up(&mut random))
            .collect::<Vec<_>>()
    };
    assert_eq!(drawn(), drawn());
}

/// The list of a wallet.
fn list_of(wallet: &Wallet) -> Vec<u32> {
    let list = listed(&wallet.records.numbers(), wallet.query);
    list.expect("a list")
}

#[test]
fn ladders_have_a_set_for_each_way_that_goes_up() {
    let counts = [2, 3, 4].map(|principals| list_of(&shapes::ladder(principals)).len());
    assert_eq!(counts, [1, 1, 3]);
    let counts = [3, 4, 5, 9].map(|roles| list_of(&shapes::containments(roles)).len());
    assert_eq!(counts, [2, 2, 4, 22]);
}

#[test]
fn rungs_need_all_credentials_but_those_of_other_people() {
    for (rungs, people) in [(1, 2), (4, 5), (10, 5), (15, 5)] {
        let wallet = shapes::rungs(rungs, people);
        let all = wallet.records.head().credentials;
        assert_eq!(all, rungs + people);
        let others = ((1 << (people - 2)) - 1) << (rungs + 1);
        assert_eq!(list_of(&wallet), [((1 << all) - 1) & !others]);
    }
}

#[test]
fn choices_have_a_set_for_each_choice() {
    for definers in [&[1, 1][..], &[5, 2], &[1, 2, 3], &[6, 6, 6], &[4, 5, 5, 5]] {
        for place in shapes::Place::ALL {
            let wallet = shapes::choices(definers, place);
            let count: Number = definers.iter().product();
            assert_eq!(list_of(&wallet).len(), count as usize);
            let chain = match place {
                shapes::Place::First => 0,
                shapes::Place::Middle => definers.iter().sum::<Number>() / 2,
                shapes::Place::Last => definers.iter().sum(),
            };
            assert_eq!(wallet.records.credentials[chain as usize][2], 4);
        }
    }
}

#[test]
fn layers_have_the_sets_of_the_last_one() {
    let counts = [1, 2, 3, 4].map(|layers| list_of(&shapes::layers(layers)).len());
    assert_eq!(counts, [16, 16, 16, 8]);
}

#[test]
fn ways_are_the_sets_and_have_nothing_in_common() {
    let equal = [(1, 1), (20, 1), (10, 2), (6, 3), (5, 4), (4, 5), (2, 8)];
    let mut ways = equal.map(|(ways, each)| vec![each; ways]).to_vec();
    ways.extend([vec![3, 3, 3, 3, 3, 3, 2], vec![1, 5, 2, 7]]);
    for (ways, way) in ways.iter().flat_map(|ways| Way::ALL.map(|way| (ways, way))) {
        let mut first = 0;
        let expected = ways.iter().map(|each| {
            first += each;
            ((1 << each) - 1) << (first - each)
        });
        let sets = list_of(&shapes::ways(ways, way));
        assert_eq!(sets, expected.collect::<Vec<u32>>());
    }
}

#[test]
fn wallets_of_a_family_are_valid_and_no_larger_than_asked_for() {
    let mut random = Random::new(SEED);
    for family in Family::ALL {
        for most in [8, 13, 20] {
            for _ in 0..30 {
                let wallet = families::made_up(&mut random, family, most);
                let valid = check_query(&wallet.records.numbers(), wallet.query);
                assert_eq!(valid, Ok(()), "{wallet:?}");
                assert!(wallet.records.head().credentials <= most, "{wallet:?}");
            }
        }
    }
}

#[test]
fn families_with_constraints_have_some() {
    let mut random = Random::new(SEED);
    for family in Family::ALL {
        let wallet = families::made_up(&mut random, family, 20);
        let mut credentials = wallet.records.credentials.iter();
        let some = matches!(family, Family::Barred | Family::Constrained);
        assert_eq!(credentials.any(|credential| credential[5] != 0), some);
    }
}
