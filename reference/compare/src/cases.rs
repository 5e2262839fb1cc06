//! The inputs on which the two sides are compared.

use reference::generate::damage::{self, Damaged};
use reference::generate::{noise, queries, valid, Place};
use reference::query::Query;
use reference::random::Random;
use reference::records::{Head, Records};
use reference::{shop, Number};

/// A table with a query, and where they were damaged: a place is there only
/// if nothing else is wrong with the table, or with the query.
pub struct Case {
    /// The table's numbers.
    pub table: Vec<Number>,
    /// Where the table was damaged.
    pub place: Option<Place>,
    /// The query.
    pub query: Query,
    /// Where the query was damaged.
    pub query_place: Option<Place>,
}

impl Case {
    /// A table with the shop's query.
    fn with_shop_query(table: Vec<Number>, place: Option<Place>) -> Case {
        Case {
            table,
            place,
            query: shop::Q,
            query_place: None,
        }
    }
}

/// Hands over the fixed cases, which are the same for every seed.
pub fn fixed(judge: &mut impl FnMut(Case)) {
    let mut random = Random::new(0);
    for records in bases(&mut random) {
        judge(Case::with_shop_query(records.numbers(), None));
        damage::every_field(&records).for_each(|damaged| judge(from_damaged(damaged)));
        damage::every_length(&records).for_each(|damaged| judge(from_damaged(damaged)));
    }
    let largest = valid::records(&mut random, Head::LIMITS);
    damage::every_chain(&mut random, &largest).for_each(|damaged| judge(from_damaged(damaged)));
    for damaged in [1, 236]
        .map(|more| damage::overfull(&largest, more))
        .concat()
    {
        judge(from_damaged(damaged));
    }
    for table in [shop::T.to_vec(), shop::U.to_vec(), largest.numbers()] {
        fixed_queries(&table, judge);
    }
}

/// The tables that are damaged number by number: the shop's two, one without
/// any record, small ones, the largest.
fn bases(random: &mut Random) -> Vec<Records> {
    let read = |table| Records::read(table).expect("a table that is accepted");
    let mut bases = vec![read(&shop::T), read(&shop::U), read(&[0, 0, 0, 0])];
    for _ in 0..32 {
        let head = valid::small(random);
        bases.push(valid::records(random, head));
    }
    bases.push(valid::records(random, Head::LIMITS));
    bases
}

/// A damaged table as a case.
fn from_damaged(damaged: Damaged) -> Case {
    Case::with_shop_query(damaged.table, Some(damaged.place))
}

/// Hands over a table with every damaged form of the shop's query.
fn fixed_queries(table: &[Number], judge: &mut impl FnMut(Case)) {
    for (query, place) in queries::every_field(shop::Q) {
        judge(Case {
            table: table.to_vec(),
            place: None,
            query,
            query_place: Some(place),
        });
    }
}

/// A case made up at random.
pub fn made_up(random: &mut Random) -> Case {
    let (table, place) = made_up_table(random);
    let (query, query_place) = made_up_query(random);
    Case {
        table,
        place,
        query,
        query_place,
    }
}

/// A table made up at random, and where it was damaged if at one place only.
fn made_up_table(random: &mut Random) -> (Vec<Number>, Option<Place>) {
    let head = valid::head(random);
    let records = valid::records(random, head);
    let damaged = match random.below(16) {
        0 | 1 => return (records.numbers(), None),
        2 => return (noise::table(random), None),
        3 => return (noise::stump(random), None),
        4 => return (damage::scattered(random, &records), None),
        5 | 6 => return (damage::pair(random, &records).0, None),
        7 => Some(damage::length(random, &records)),
        8 | 9 => damage::chain(random, &records),
        10 => damage::marks(random, &records),
        _ => Some(damage::field(random, &records)),
    };
    match damaged {
        Some(Damaged { table, place }) => (table, Some(place)),
        None => (records.numbers(), None),
    }
}

/// A query made up at random, and where it was damaged if at one place only.
fn made_up_query(random: &mut Random) -> (Query, Option<Place>) {
    match random.below(4) {
        0 => (queries::several(random), None),
        1 => {
            let (query, place) = queries::damaged(random);
            (query, Some(place))
        }
        _ => (queries::valid(random), None),
    }
}
