//! Queries, valid and damaged.

use crate::generate::places::Place;
use crate::query::Query;
use crate::random::Random;
use crate::Number;

/// A valid query.
pub fn valid(random: &mut Random) -> Query {
    Query::from_numbers(Query::LIMITS.map(|limit| random.between(1, limit)))
}

/// The values that a field with this limit is given in turn.
pub fn values(limit: Number) -> [Number; 6] {
    [0, 1, limit, limit + 1, limit + 256, Number::MAX]
}

/// A query with one field in turn given each such value, and the field.
pub fn every_field(query: Query) -> impl Iterator<Item = (Query, Place)> {
    (0..4).flat_map(move |index| {
        values(Query::LIMITS[index])
            .into_iter()
            .map(move |value| (with_value(query, index, value), Place::QUERY[index]))
    })
}

/// A query with one field damaged, and the field.
pub fn damaged(random: &mut Random) -> (Query, Place) {
    let index = random.below(4);
    let value = *random.pick(&values(Query::LIMITS[index]));
    let query = valid(random);
    (with_value(query, index, value), Place::QUERY[index])
}

/// A query of which one field has been given such a value, or another one of
/// which several fields are out of range.
pub fn spoiled(random: &mut Random, query: Query) -> Query {
    match random.below(4) {
        0 => several(random),
        _ => {
            let index = random.below(4);
            let value = *random.pick(&values(Query::LIMITS[index]));
            with_value(query, index, value)
        }
    }
}

/// A query with any of its fields out of range.
pub fn several(random: &mut Random) -> Query {
    let numbers = Query::LIMITS.map(|limit| match random.below(2) {
        0 => random.between(1, limit),
        _ => *random.pick(&[0, limit + 1, Number::MAX]),
    });
    Query::from_numbers(numbers)
}

/// The query with the field at this index, from 0, changed.
fn with_value(query: Query, index: usize, value: Number) -> Query {
    let mut numbers = query.numbers();
    numbers[index] = value;
    Query::from_numbers(numbers)
}
