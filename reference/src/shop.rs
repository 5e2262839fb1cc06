//! The worked example: a shop that gives students a discount.
//!
//! Principals: Shop 1, School 2, Ann 4. Names: discount 1, student 2,
//! accredited 3.

use crate::query::Query;
use crate::Number;

/// Table T: Shop gives the discount to the students of whoever it accredits,
/// it accredits School, Ann is a student of School, and Ann has the discount.
pub const T: [Number; 28] = [
    4, 0, 0, 0, //
    1, 1, 3, 3, 2, 0, //
    1, 3, 1, 2, 0, 0, //
    2, 2, 1, 4, 0, 0, //
    1, 1, 1, 4, 0, 0, //
];

/// Table U: T with an automaton attached to credential 3, which rejects every
/// word that begins with Shop.discount. Its mark demands every word.
pub const U: [Number; 43] = [
    4, 0, 1, 2, //
    1, 1, 3, 3, 2, 0, //
    1, 3, 1, 2, 0, 0, //
    2, 2, 1, 4, 0, 1, //
    1, 1, 1, 4, 0, 0, //
    1, 2, 0, //
    1, 0, 3, 1, 1, 1, //
    1, 1, 2, 0, 0, 1, //
];

/// Query Q: Ann in Shop.discount, depth 2.
pub const Q: Query = Query {
    principal: 4,
    owner: 1,
    name: 1,
    depth: 2,
};

/// Record R: Ann has the discount as a student of School, which Shop
/// accredits. Its words are discount, accredited and discount, student.
pub const R: [Number; 6] = [1, 2, 2, 0, 3, 0];
