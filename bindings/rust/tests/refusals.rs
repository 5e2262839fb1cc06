//! Every condition of docs/DEFINITION.md, "Where each input is stopped", by an
//! input that meets it: its reason, its position, and that no cell has changed.

use std::fmt::Debug;

use bwlchareg::{check, check_query, layout, list, verify, write, Number, Query, Reason, Refusal};

/// A table with a credential of each kind, an automaton and an edge.
const TABLE: [Number; 49] = [
    5, 2, 1, 1, //
    1, 1, 3, 3, 2, 0, // 1: whoever is in M.2, for some M in 1.3, is in 1.1
    1, 3, 1, 2, 0, 0, // 2: principal 2 is in 1.3
    2, 2, 1, 4, 0, 1, // 3: principal 4 is in 2.2, under automaton 1
    1, 1, 2, 1, 1, 0, // 4: whoever is in 1.1 is in 1.1
    1, 4, 4, 1, 0, 0, // 5: whoever is in 2.2 and in 1.3 is in 1.4
    2, 2, 2, // cell 1: 2.2, then cell 2
    1, 3, 0, // cell 2: 1.3
    1, 1, 0, // automaton 1 starts and accepts in state 0, and demands every word
    1, 0, 3, 1, 4, 0, // edge 1, of automaton 1: from 0 by all but 1.4 to 0
];

/// Is principal 4 in 1.1, within three levels?
const QUERY: Query = Query {
    principal: 4,
    owner: 1,
    name: 1,
    depth: 3,
};

/// A record that is accepted.
const RECORD: [Number; 6] = [1, 2, 2, 0, 3, 0];

/// Compares a refusal with its reason and position.
#[track_caller]
fn told<Value: Debug>(answer: Result<Value, Refusal>, reason: Reason, position: u64) {
    let refusal = answer.expect_err("a refusal");
    let told = (refusal.reason(), refusal.position);
    assert_eq!(told, (Some(reason), position));
}

/// The table with another number at a place.
fn with(place: usize, number: Number) -> Vec<Number> {
    let mut table = TABLE.to_vec();
    table[place] = number;
    table
}

#[test]
fn the_table_and_the_record_are_accepted_as_they_are() {
    assert_eq!(check(&TABLE), Ok(()));
    assert_eq!(check_query(&TABLE, QUERY), Ok(()));
    assert_eq!(verify(&TABLE, QUERY, &RECORD), Ok(7));
}

#[test]
fn heads() {
    for length in 0..4 {
        told(check(&TABLE[..length]), Reason::ShortHead, 0);
    }
    for (place, over) in [21, 64, 9, 129].into_iter().enumerate() {
        told(check(&with(place, over)), Reason::CountOverLimit, 0);
        told(check(&with(place, over - 1)), Reason::WrongLength, 0);
    }
    let shorter = &TABLE[..TABLE.len() - 1];
    told(check(shorter), Reason::WrongLength, 0);
}

#[test]
fn records_of_the_table() {
    for (place, number) in layout::credential(&TABLE, 3).zip([0, 65, 5, 65, 1, 2]) {
        told(check(&with(place, number)), Reason::Credential, 3);
    }
    let [first, second] = [1, 2].map(|number| layout::cell(&TABLE, number).start);
    for (field, number) in [(0, 0), (1, 65), (2, 1), (2, 2), (2, 3)] {
        let table = with(second + field, number);
        told(check(&table), Reason::PartCell, 2);
    }
    told(check(&with(first + 2, 0)), Reason::Chain, 5);
    let edge = layout::edge(&TABLE, 1).start;
    for (field, number) in [(0, 2), (1, 16), (2, 5), (5, 16)] {
        told(check(&with(edge + field, number)), Reason::Edge, 1);
    }
}

#[test]
fn owners_and_names_of_edges() {
    let edge = layout::edge(&TABLE, 1).start;
    for label in 1..=4 {
        for owner in [0, 1, 64, 65] {
            for name in [0, 1, 64, 65] {
                let mut table = with(edge + 2, label);
                table[edge + 3..edge + 5].copy_from_slice(&[owner, name]);
                let in_range = |number| (1..=64).contains(&number);
                let allowed = match label {
                    2 => (owner, name) == (0, 0),
                    4 => in_range(owner) && name == 0,
                    _ => in_range(owner) && in_range(name),
                };
                match allowed {
                    true => assert_eq!(check(&table), Ok(())),
                    false => told(check(&table), Reason::Edge, 1),
                }
            }
        }
    }
}

#[test]
fn marks() {
    let mark = layout::automaton(&TABLE, 1).end - 1;
    assert_eq!(check(&with(mark, layout::SOME_WORD)), Ok(()));
    for number in [2, 3, Number::MAX] {
        let mut table = with(mark, number);
        told(check(&table), Reason::Mark, 1);
        // It is told before the query, the set and the record, by every call.
        let far = Query { depth: 17, ..QUERY };
        told(check_query(&table, far), Reason::Mark, 1);
        told(verify(&table, far, &RECORD), Reason::Mark, 1);
        told(list(&table, far, &mut [0]), Reason::Mark, 1);
        told(unwritten(&table, far, 7, 6), Reason::Mark, 1);
        // Edges come before marks.
        table[layout::edge(&TABLE, 1).start] = 2;
        told(check(&table), Reason::Edge, 1);
    }
}

#[test]
fn the_first_of_several_wrong_marks_is_told() {
    for wrong in 1..=8 {
        let mut table = vec![0, 0, 8, 0];
        for number in 1..=8 {
            let good = number < wrong;
            table.extend([0, 0, if good { number % 2 } else { number + 1 }]);
        }
        told(check(&table), Reason::Mark, wrong.into());
    }
}

#[test]
fn queries() {
    let spoiled: [fn(&mut Query); 4] = [
        |query| query.principal = 0,
        |query| query.owner = 65,
        |query| query.name = 65,
        |query| query.depth = 17,
    ];
    for (position, spoil) in (1..).zip(spoiled) {
        let mut query = QUERY;
        spoil(&mut query);
        told(check_query(&TABLE, query), Reason::Query, position);
        told(verify(&TABLE, query, &RECORD), Reason::Query, position);
        told(list(&TABLE, query, &mut [0]), Reason::Query, position);
        let answer = write(&TABLE, query, 7, &mut [0; 6]);
        told(answer, Reason::Query, position);
    }
}

#[test]
fn lists() {
    let nobody = Query {
        principal: 9,
        ..QUERY
    };
    told(list(&TABLE, nobody, &mut [0]), Reason::NoMinimalSet, 0);
    told(list(&TABLE, nobody, &mut []), Reason::NoMinimalSet, 0);
    told(list(&TABLE, QUERY, &mut []), Reason::LongerList, 0);
}

/// Asks for the record of a set, with so many cells; tells the answer, if it
/// leaves every cell as it was.
fn unwritten(table: &[Number], query: Query, set: u32, cells: usize) -> Result<usize, Refusal> {
    let before: Vec<Number> = (0..cells).map(|cell| 0xC000 + cell as Number).collect();
    let mut after = before.clone();
    let answer = write(table, query, set, &mut after);
    assert_eq!(after, before);
    answer
}

#[test]
fn sets_that_are_not_listed() {
    // Nothing, a part of the listed set, more than it, credentials that the
    // table does not have, and the greatest number.
    for set in [0, 6, 15, 32, 1 << 20, u32::MAX] {
        for cells in [0, 5, 6, 100] {
            let answer = unwritten(&TABLE, QUERY, set, cells);
            told(answer, Reason::NotListed, 0);
        }
    }
    let nobody = Query {
        principal: 9,
        ..QUERY
    };
    told(unwritten(&TABLE, nobody, 7, 6), Reason::NotListed, 0);
    let shallow = Query { depth: 1, ..QUERY };
    told(unwritten(&TABLE, shallow, 7, 6), Reason::NotListed, 0);
}

#[test]
fn records_that_are_longer_than_the_cells() {
    for cells in 0..RECORD.len() {
        let answer = unwritten(&TABLE, QUERY, 7, cells);
        told(answer, Reason::LongerRecord, 0);
    }
    for more in 0..3 {
        let mut cells = vec![0xC000; RECORD.len() + more];
        assert_eq!(write(&TABLE, QUERY, 7, &mut cells), Ok(RECORD.len()));
        assert_eq!(cells[..RECORD.len()], RECORD);
        assert!(cells[RECORD.len()..].iter().all(|&cell| cell == 0xC000));
    }
}

#[test]
fn the_table_and_the_query_come_before_the_set() {
    let spoiled = with(layout::credential(&TABLE, 3).start, 65);
    let far = Query { depth: 17, ..QUERY };
    for (set, cells) in [(7, 6), (7, 0), (0, 6), (0, 0)] {
        let short = unwritten(&TABLE[..3], far, set, cells);
        told(short, Reason::ShortHead, 0);
        let spoiled = unwritten(&spoiled, far, set, cells);
        told(spoiled, Reason::Credential, 3);
        told(unwritten(&TABLE, far, set, cells), Reason::Query, 4);
    }
}

#[test]
fn records_that_end_too_soon_or_too_late() {
    for length in 0..RECORD.len() {
        let node = (length / layout::NODE) as u64 + 1;
        let answer = verify(&TABLE, QUERY, &RECORD[..length]);
        told(answer, Reason::RecordLength, node);
    }
    for more in 1..4 {
        let longer = [&RECORD[..], &vec![1; more]].concat();
        told(verify(&TABLE, QUERY, &longer), Reason::RecordLength, 4);
    }
}

#[test]
fn nodes_that_do_not_fit_their_goals() {
    // Credentials that the table does not have, one that defines another role,
    // one that names another principal, and four middles.
    let wrong: [&[Number]; 8] = [
        &[0, 0],
        &[6, 0],
        &[2, 0],
        &[1, 4, 2, 0],
        &[1, 0],
        &[1, 65],
        &[4, 1],
        &[1, 2, 2, 2],
    ];
    for record in wrong {
        let node = (record.len() / layout::NODE) as u64;
        told(verify(&TABLE, QUERY, record), Reason::Node, node);
    }
}

#[test]
fn branches_and_words() {
    let shallow = Query { depth: 1, ..QUERY };
    told(verify(&TABLE, shallow, &RECORD), Reason::Branch, 2);
    let circle = [4, 0, 4, 0];
    told(verify(&TABLE, QUERY, &circle), Reason::Branch, 2);

    // Principal 4 in 1.4 asks for 4 in 1.3 too, so credential 2 is made 4's.
    // Both words begin with 1.4, so that with mark 1 none is accepted either.
    let mut table = with(layout::credential(&TABLE, 2).start + 3, 4);
    let query = Query { name: 4, ..QUERY };
    let record = [5, 0, 3, 0, 2, 0];
    for mark in [layout::EVERY_WORD, layout::SOME_WORD] {
        table[layout::automaton(&TABLE, 1)][2] = mark;
        told(verify(&table, query, &record), Reason::Word, 1);
    }
}
