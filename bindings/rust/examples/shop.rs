//! The shop example of docs/DEFINITION.md through the static library: its two
//! tables are checked, with two that have a mistake in them, a proof record is
//! verified, the minimal sets are listed, and a record is written for each of
//! them and verified. Last, table U is made of its base layout.

use std::fmt::Debug;

use bwlchareg::{
    check, check_query, first_record, layout, minimal_sets, upgraded, verify, Number, Query,
    Refusal,
};

/// Principals Shop 1, School 2, Ann 4; names discount 1, student 2, accredited 3.
const T: [Number; 28] = [
    4, 0, 0, 0, // four credentials, no part cells, no automata, no edges
    1, 1, 3, 3, 2, 0, // Shop.discount <- Shop.accredited.student
    1, 3, 1, 2, 0, 0, // Shop.accredited <- School
    2, 2, 1, 4, 0, 0, // School.student <- Ann
    1, 1, 1, 4, 0, 0, // Shop.discount <- Ann
];

/// Table T with an automaton that rejects every word that begins with
/// Shop.discount, attached to credential 3.
const U: [Number; 43] = [
    4, 0, 1, 2, //
    1, 1, 3, 3, 2, 0, //
    1, 3, 1, 2, 0, 0, //
    2, 2, 1, 4, 0, 1, //
    1, 1, 1, 4, 0, 0, //
    1, 2, 0, // starts in state 0, accepts in state 1, demands every word
    1, 0, 3, 1, 1, 1, // 0 -- any role but Shop.discount --> 1
    1, 1, 2, 0, 0, 1, // 1 -- any role --> 1
];

/// Ann in Shop.discount, within two levels.
const Q: Query = Query {
    principal: 4,
    owner: 1,
    name: 1,
    depth: 2,
};

/// Ann is in Shop.discount by credential 1, since School, the middle, is in
/// Shop.accredited by credential 2 and Ann in School.student by credential 3.
const R: [Number; 6] = [1, 2, 2, 0, 3, 0];

/// The most numbers that a record is to have here.
const MOST: usize = 1_000;

fn tell<Value: Debug>(what: &str, answer: Result<Value, Refusal>) {
    match answer {
        Ok(value) => println!("{what}: accepted {value:?}"),
        Err(refusal) => println!(
            "{what}: refused {} at {}: {refusal}",
            refusal.number, refusal.position
        ),
    }
}

fn main() {
    tell("table T", check(&T));
    tell("table U", check(&U));
    tell("query Q", check_query(&T, Q));
    tell(
        "query Q with depth 17",
        check_query(&T, Query { depth: 17, ..Q }),
    );

    let mut mistaken = T;
    let third = layout::credential(&T, 3);
    mistaken[third][3] = 65; // it names principal 65
    tell(
        "table T with principal 65 in credential 3",
        check(&mistaken),
    );
    let mut mistaken = U;
    let mark = layout::automaton(&U, 1).end - 1;
    mistaken[mark] = 2;
    tell("table U with mark 2", check(&mistaken));

    tell("record R with table T", verify(&T, Q, &R));
    tell("record R with table U", verify(&U, Q, &R));
    tell(
        "record R with table T, depth 1",
        verify(&T, Query { depth: 1, ..Q }, &R),
    );

    tell("minimal sets of table T", minimal_sets(&T, Q));
    tell("minimal sets of table U", minimal_sets(&U, Q));
    tell(
        "minimal sets of table T for School",
        minimal_sets(&T, Query { principal: 2, ..Q }),
    );

    for set in minimal_sets(&T, Q).expect("a list of table T") {
        let record = first_record(&T, Q, set, MOST);
        tell(&format!("record of set {set}, table T"), record.clone());
        let used = record.and_then(|record| verify(&T, Q, &record));
        tell("  that record with table T", used);
    }
    tell("record of set 7, table U", first_record(&U, Q, 7, MOST));
    tell(
        "record of set 7, table T, five cells",
        first_record(&T, Q, 7, 5),
    );

    // In the base layout an automaton has no mark.
    let base = [&U[..mark], &U[mark + 1..]].concat();
    tell("table U in the base layout", check(&base));
    let same = upgraded(&base).map(|table| table == U);
    tell("  whether it is U when upgraded", same);
}
