//! Automata of both marks, through the library.

#[allow(dead_code)]
mod drawn;

use bwlchareg::{first_record, layout, minimal_sets, verify, Number, Query, Refusal};
use drawn::Random;

/// A role named twice in a chain, and two automata that each demand a word which
/// goes another way: role 1.1 is 1.2 and 1.2, and 1.2 is 1.3 or 1.4. Automaton 1
/// is attached to credential 1 and demands 1.3, automaton 2 to credential 4,
/// which 1.3 uses, and demands 1.4.
const TWICE: [Number; 82] = [
    5, 2, 2, 6, //
    1, 1, 4, 1, 0, 1, //
    1, 2, 2, 1, 3, 0, //
    1, 2, 2, 1, 4, 0, //
    1, 3, 1, 1, 0, 2, //
    1, 4, 1, 1, 0, 0, //
    1, 2, 2, //
    1, 2, 0, //
    1, 2, 1, //
    1, 2, 1, //
    1, 0, 2, 0, 0, 0, //
    1, 0, 1, 1, 3, 1, //
    1, 1, 2, 0, 0, 1, //
    2, 0, 2, 0, 0, 0, //
    2, 0, 1, 1, 4, 1, //
    2, 1, 2, 0, 0, 1, //
];

/// Principal 1 in 1.1, within three levels.
const BOTH: Query = Query {
    principal: 1,
    owner: 1,
    name: 1,
    depth: 3,
};

fn refused<Accepted>(number: u32, position: u64) -> Result<Accepted, Refusal> {
    Err(Refusal { number, position })
}

/// The table with these marks.
fn marked(table: &[Number], marks: &[Number]) -> Vec<Number> {
    let mut table = table.to_vec();
    for (number, &mark) in (1..).zip(marks) {
        let place = layout::automaton(&table, number).end - 1;
        table[place] = mark;
    }
    table
}

#[test]
fn an_automaton_that_is_not_used_is_not_asked() {
    let same = [1, 0, 2, 0, 4, 0, 2, 0, 4, 0];
    let mut table = TWICE;
    assert_eq!(verify(&table, BOTH, &same), refused(14, 2));
    table[layout::credential(&TWICE, 4)][5] = 0;
    for mark in [layout::EVERY_WORD, layout::SOME_WORD] {
        let table = marked(&table, &[layout::SOME_WORD, mark]);
        assert_eq!(verify(&table, BOTH, &same), Ok(11));
        assert_eq!(minimal_sets(&table, BOTH), Ok(vec![11]));
    }
}

#[test]
fn a_role_that_is_named_twice_meets_two_demands() {
    assert_eq!(minimal_sets(&TWICE, BOTH), Ok(vec![31]));
    let first = [1, 0, 2, 0, 4, 0, 3, 0, 5, 0];
    assert_eq!(first_record(&TWICE, BOTH, 31, 10), Ok(first.to_vec()));
    assert_eq!(verify(&TWICE, BOTH, &first), Ok(31));
    // The other way around, and one way twice.
    let around = [1, 0, 3, 0, 5, 0, 2, 0, 4, 0];
    assert_eq!(verify(&TWICE, BOTH, &around), Ok(31));
    let same = [1, 0, 2, 0, 4, 0, 2, 0, 4, 0];
    assert_eq!(verify(&TWICE, BOTH, &same), refused(14, 2));
    let other = [1, 0, 3, 0, 5, 0, 3, 0, 5, 0];
    assert_eq!(verify(&TWICE, BOTH, &other), refused(14, 1));
}

#[test]
fn the_lowest_automaton_that_is_not_met_is_told_whatever_its_mark() {
    let both = [1, 0, 2, 0, 4, 0, 3, 0, 5, 0];
    let same = [1, 0, 2, 0, 4, 0, 2, 0, 4, 0];
    for (marks, told_both, told_same) in [
        ([1, 1], Ok(31), refused(14, 2)),
        ([1, 0], refused(14, 2), refused(14, 2)),
        ([0, 1], refused(14, 1), refused(14, 2)),
        ([0, 0], refused(14, 1), refused(14, 2)),
    ] {
        let table = marked(&TWICE, &marks);
        assert_eq!(verify(&table, BOTH, &both), told_both, "{marks:?}");
        assert_eq!(verify(&table, BOTH, &same), told_same, "{marks:?}");
    }
}

#[test]
fn marks_that_no_credential_uses_change_nothing() {
    let mut random = Random::new(2031);
    let mut lists = 0;
    for _ in 0..2_000 {
        let (mut table, query) = drawn::accepted_and_query(&mut random);
        for number in 1..=layout::counts(&table)[0] {
            let place = layout::credential(&table, number).end - 1;
            table[place] = 0;
        }
        let automata = layout::counts(&table)[2];
        let every = marked(&table, &[layout::EVERY_WORD; 8][..automata]);
        let some = marked(&table, &[layout::SOME_WORD; 8][..automata]);
        assert_eq!(minimal_sets(&every, query), minimal_sets(&some, query));
        lists += usize::from(minimal_sets(&every, query).is_ok());
    }
    assert!(lists > 100, "{lists}");
}
