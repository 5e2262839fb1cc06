//! The calls through the library, on the shop example of docs/DEFINITION.md, and
//! what the cells hold afterwards.

use bwlchareg::{list, verify, write, Number, Query, Refusal};

const T: [Number; 28] = [
    4, 0, 0, 0, //
    1, 1, 3, 3, 2, 0, //
    1, 3, 1, 2, 0, 0, //
    2, 2, 1, 4, 0, 0, //
    1, 1, 1, 4, 0, 0, //
];

const U: [Number; 43] = [
    4, 0, 1, 2, //
    1, 1, 3, 3, 2, 0, //
    1, 3, 1, 2, 0, 0, //
    2, 2, 1, 4, 0, 1, //
    1, 1, 1, 4, 0, 0, //
    1, 2, 0, //
    1, 0, 3, 1, 1, 1, //
    1, 1, 2, 0, 0, 1, //
];

const R: [Number; 6] = [1, 2, 2, 0, 3, 0];

const Q: Query = Query {
    principal: 4,
    owner: 1,
    name: 1,
    depth: 2,
};

fn refused<Accepted>(number: u32, position: u64) -> Result<Accepted, Refusal> {
    Err(Refusal { number, position })
}

#[test]
fn records_of_the_shop_are_judged() {
    let shallow = Query { depth: 1, ..Q };
    assert_eq!(verify(&T, Q, &R), Ok(7));
    assert_eq!(verify(&T, Q, &[4, 0]), Ok(8));
    assert_eq!(verify(&U, Q, &[4, 0]), Ok(8));
    assert_eq!(verify(&U, Q, &R), refused(14, 1));
    assert_eq!(verify(&T, shallow, &R), refused(13, 2));
    assert_eq!(verify(&T, Q, &[1, 2, 2, 0]), refused(11, 3));
    assert_eq!(verify(&T, Q, &[1, 4, 2, 0, 3, 0]), refused(12, 2));
    assert_eq!(verify(&T, Q, &[1, 2, 2, 0, 3, 0, 9]), refused(11, 4));
}

/// What a cell holds before a listing. No set is so great.
const BEFORE: u32 = u32::MAX;

/// The answer with a buffer of `CELLS` cells, and the cells after the call.
fn listed<const CELLS: usize>(
    table: &[Number],
    query: Query,
) -> (Result<usize, Refusal>, [u32; CELLS]) {
    let mut cells = [BEFORE; CELLS];
    let answer = list(table, query, &mut cells);
    (answer, cells)
}

#[test]
fn lists_of_the_shop_are_made() {
    let shallow = Query { depth: 1, ..Q };
    let student = Query {
        owner: 2,
        name: 2,
        ..shallow
    };
    assert_eq!(listed(&T, Q), (Ok(2), [7, 8, BEFORE]));
    assert_eq!(listed(&T, Q), (Ok(2), [7, 8]));
    assert_eq!(listed(&T, shallow), (Ok(1), [8, BEFORE]));
    assert_eq!(listed(&U, Q), (Ok(1), [8, BEFORE]));
    assert_eq!(listed(&U, student), (Ok(1), [4, BEFORE]));
}

#[test]
fn a_refused_listing_leaves_the_cells_but_for_10() {
    assert_eq!(listed(&T, Q), (refused(10, 0), [7]));
    assert_eq!(listed(&T, Q), (refused(10, 0), []));
    assert_eq!(listed(&[0; 4], Q), (refused(9, 0), []));
    assert_eq!(listed(&[0; 4], Q), (refused(9, 0), [BEFORE; 2]));
    assert_eq!(listed(&T[..T.len() - 1], Q), (refused(3, 0), [BEFORE; 2]));
    let deep = Query { depth: 17, ..Q };
    assert_eq!(listed(&T, deep), (refused(8, 4), [BEFORE; 2]));
}

/// What a cell holds before a writing. No credential and no middle is so great.
const UNWRITTEN: Number = Number::MAX;

/// The answer with room for `CELLS` numbers, and the cells after the call.
fn written<const CELLS: usize>(
    table: &[Number],
    query: Query,
    set: u32,
) -> (Result<usize, Refusal>, [Number; CELLS]) {
    let mut cells = [UNWRITTEN; CELLS];
    let answer = write(table, query, set, &mut cells);
    (answer, cells)
}

#[test]
fn records_of_the_shop_are_written() {
    assert_eq!(written(&T, Q, 7), (Ok(6), R));
    let (answer, cells) = written::<8>(&T, Q, 7);
    assert_eq!(answer, Ok(6));
    assert_eq!(cells, [1, 2, 2, 0, 3, 0, UNWRITTEN, UNWRITTEN]);
    assert_eq!(written(&T, Q, 8), (Ok(2), [4, 0, UNWRITTEN]));
    assert_eq!(written(&U, Q, 8), (Ok(2), [4, 0]));
    let student = Query {
        owner: 2,
        name: 2,
        depth: 1,
        ..Q
    };
    assert_eq!(written(&U, student, 4), (Ok(2), [3, 0]));
    // The school's constraint takes the set 7 away.
    assert_eq!(written(&U, Q, 7), (refused(15, 0), [UNWRITTEN; 6]));
}
