//! The listings on which the two sides are compared.

use reference::generate::listings::{self, Listing, Source};
use reference::generate::shapes::{self, Place, Way};
use reference::generate::wallets::{self, Plan, Wallet};
use reference::generate::{clubs, damage, full, queries, wide};
use reference::query::Query;
use reference::random::Random;
use reference::records::{Head, Records};
use reference::{shop, stored, Number};

/// So many wallets are listed with every buffer.
const WALLETS: usize = 200;
/// The most rungs of a ladder for which there is room.
const MOST_RUNGS: Number = 15;

/// A listing that is the same in every run.
fn listing(table: &[Number], query: Query) -> Listing {
    Listing {
        table: table.to_vec(),
        query,
        source: Source::Fixed,
    }
}

/// Hands over the fixed listings, which are the same for every seed.
pub fn fixed(judge: &mut impl FnMut(Listing)) {
    fixed_inputs(judge);
    fixed_shapes(MOST_RUNGS, judge);
}

/// Hands over the fixed listings but for the shapes: the shop's, whole and with
/// every field damaged, derivations of very many nodes, tables of many edges, the
/// stored cases, and wallets.
pub fn fixed_inputs(judge: &mut impl FnMut(Listing)) {
    let student = Query {
        owner: 2,
        name: 2,
        depth: 1,
        ..shop::Q
    };
    for table in [&shop::T[..], &shop::U, &[0, 0, 0, 0]] {
        judge(listing(table, shop::Q));
        judge(listing(table, student));
        for (query, _) in queries::every_field(shop::Q) {
            judge(listing(table, query));
        }
        let records = Records::read(table).expect("a table that is accepted");
        let damaged = damage::every_field(&records).chain(damage::every_length(&records));
        for damaged in damaged {
            judge(listing(&damaged.table, shop::Q));
        }
    }
    for levels in 1..=16 {
        judge(listing(
            &wide::records(levels).numbers(),
            wide::query(levels),
        ));
    }
    fixed_edges(judge);
    for case in stored::cases() {
        judge(listing(&case.table, case.query));
    }
    fixed_wallets(judge);
}

/// Hands over tables of few and of many edges, the last of which is each
/// automaton's in turn.
fn fixed_edges(judge: &mut impl FnMut(Listing)) {
    let most = Head::LIMITS.edges;
    for edges in [full::FEWEST, most / 2, most - 1, most] {
        let mut records = full::records(edges);
        for automaton in 1..=records.head().automata {
            records.edges[edges as usize - 1][0] = automaton;
            judge(listing(&records.numbers(), full::ASKED));
        }
    }
}

/// Hands over wallets of every size and arrangement.
fn fixed_wallets(judge: &mut impl FnMut(Listing)) {
    let mut random = Random::new(0);
    for index in 0..WALLETS {
        let bearing = 1 + (index % 20) as Number;
        let plan = Plan {
            bearing,
            others: random.between(0, 20 - bearing),
            place: wallets::Place::ALL[index % 3],
        };
        let wallet = wallets::planned(&mut random, plan);
        judge(listing(&wallet.records.numbers(), wallet.query));
    }
}

/// Hands over wallets of every shape, up to the largest, but with at most so
/// many rungs. Each rung doubles the record.
pub fn fixed_shapes(most_rungs: Number, judge: &mut impl FnMut(Listing)) {
    let mut wallets: Vec<Wallet> = (2..=5).map(shapes::ladder).collect();
    wallets.extend((1..=most_rungs).map(|rungs| shapes::rungs(rungs, 2)));
    let rungs = most_rungs.min(10);
    wallets.extend((2..=10).map(|people| shapes::rungs(rungs, people)));
    wallets.push(shapes::rungs(most_rungs, 5));
    wallets.extend((3..=9).map(shapes::containments));
    wallets.extend((1..=4).map(shapes::layers));
    for definers in [[1; 4], [2; 4], [3; 4], [4; 4], [1, 3, 6, 9], [4, 5, 5, 5]] {
        wallets.extend(Place::ALL.map(|place| shapes::choices(&definers, place)));
    }
    for each in [
        &[1; 20][..],
        &[2; 10],
        &[3; 6],
        &[4; 5],
        &[3, 3, 3, 3, 3, 3, 2],
        &[16],
    ] {
        wallets.extend(Way::ALL.map(|way| shapes::ways(each, way)));
    }
    wallets.extend((1..=17).map(|people| clubs::line(people, 1)));
    wallets.extend((2..=10).map(|people| clubs::line(people, people)));
    wallets.extend((2..=4).map(clubs::clique));
    for wallet in wallets {
        judge(listing(&wallet.records.numbers(), wallet.query));
    }
}

/// Hands over so many listings made up at random.
pub fn made_up(random: &mut Random, count: u64, judge: &mut impl FnMut(&mut Random, Listing)) {
    for _ in 0..count {
        let listing = listings::any(random);
        judge(random, listing);
    }
}
