//! First records of minimal sets, worked out by hand, with every cell of the
//! buffer.

mod by_hand_tables;

use by_hand_tables::{
    chain, from, in_every, kept, linked, member, on, on_any_of, on_every, plain, table, A, ASKED,
    B, C, D, G,
};
use reference::generate::wide;
use reference::records::{CredentialRecord, EdgeRecord};
use reference::shop::{Q, R, T, U};
use reference::{list, verify, write, Number, Query, Refusal};

/// What a cell holds before the call. No number of a record is so great.
const BEFORE: Number = 0xA5A5;

/// The answer with a buffer of so many cells, and the cells after the call.
fn written(
    table: &[Number],
    query: Query,
    set: u32,
    cells: usize,
) -> (Result<usize, Refusal>, Vec<Number>) {
    let mut buffer = vec![BEFORE; cells];
    let answer = write(table, query, set, &mut buffer);
    (answer, buffer)
}

/// What is told where no cell changes.
fn refused(number: u32, position: u64, cells: usize) -> (Result<usize, Refusal>, Vec<Number>) {
    (Err(Refusal { number, position }), vec![BEFORE; cells])
}

/// The first record of a listed set. It is the same in every buffer that is
/// long enough, no cell beyond it changes, the verifier accepts it with just
/// this set, and no shorter buffer holds it.
fn first(table: &[Number], query: Query, set: u32) -> Vec<Number> {
    let (answer, mut record) = written(table, query, set, 400);
    let length = answer.expect("a record");
    assert!(record.split_off(length).iter().all(|&cell| cell == BEFORE));
    assert_eq!(verify(table, query, &record), Ok(set));
    for more in [0, 1, 5] {
        let cells = [&record[..], &vec![BEFORE; more]].concat();
        assert_eq!(
            written(table, query, set, length + more),
            (Ok(length), cells)
        );
    }
    for cells in 0..length {
        assert_eq!(written(table, query, set, cells), refused(16, 0, cells));
    }
    record
}

/// Whether a set is refused as not listed, whatever the buffer.
fn is_unlisted(table: &[Number], query: Query, set: u32) -> bool {
    let mut sizes = [0, 1, 2, 6, 40].into_iter();
    sizes.all(|cells| written(table, query, set, cells) == refused(15, 0, cells))
}

/// The list.
fn sets(table: &[Number], query: Query) -> Vec<u32> {
    let mut cells = vec![0; 64];
    let count = list(table, query, &mut cells).expect("a list");
    cells.truncate(count);
    cells
}

fn depth(depth: Number) -> Query {
    Query { depth, ..Q }
}

#[test]
fn the_records_of_the_shop() {
    assert_eq!(first(&T, Q, 7), R);
    assert_eq!(first(&T, Q, 8), [4, 0]);
    assert_eq!(first(&T, depth(1), 8), [4, 0]);
    assert_eq!(first(&U, Q, 8), [4, 0]);
    let student = Query {
        owner: 2,
        name: 2,
        depth: 1,
        ..Q
    };
    assert_eq!(first(&U, student, 4), [3, 0]);
}

#[test]
fn every_other_set_of_the_shop_is_unlisted() {
    for set in (0..64).filter(|set| ![7, 8].contains(set)) {
        assert!(is_unlisted(&T, Q, set), "{set}");
    }
    // With one level, and under the constraint, 7 is not on the list.
    assert!(is_unlisted(&T, depth(1), 7));
    assert!(is_unlisted(&U, Q, 7));
    // A listed set with a number above n, up to the highest.
    for bit in 4..32 {
        assert!(is_unlisted(&T, Q, 7 | 1 << bit), "{bit}");
    }
    assert!(is_unlisted(&T, Q, u32::MAX));
}

#[test]
fn a_set_is_unlisted_where_there_is_no_list() {
    let nobody = Query { principal: 5, ..Q };
    for set in [0, 1, 7, 8, 15, u32::MAX] {
        assert!(is_unlisted(&[0, 0, 0, 0], Q, set), "{set}");
        assert!(is_unlisted(&T, nobody, set), "{set}");
    }
}

#[test]
fn the_table_comes_first_then_the_query_then_the_set_then_the_buffer() {
    let mut wrong_kind = T;
    wrong_kind[6] = 5;
    let mut wrong_edge = U;
    wrong_edge[39] = 4;
    let mut wrong_mark = U;
    wrong_mark[30] = 2;
    let wrong_cell = table(&[in_every(G, 1)], &[[1, 2, 2], [1, 2, 2]], 0, &[]);
    let wrong_chain = table(&[in_every(G, 1)], &[[1, 2, 0]], 0, &[]);
    let bad = depth(0);
    for (cells, set) in [0, 5, 6, 40].into_iter().flat_map(|n| [(n, 0), (n, 7)]) {
        let told = |table: &[Number], query| written(table, query, set, cells);
        assert_eq!(told(&T[..3], bad), refused(1, 0, cells));
        assert_eq!(told(&[21, 0, 0, 0], bad), refused(2, 0, cells));
        assert_eq!(told(&T[..27], bad), refused(3, 0, cells));
        assert_eq!(told(&wrong_kind, bad), refused(4, 1, cells));
        assert_eq!(told(&wrong_cell, bad), refused(5, 2, cells));
        assert_eq!(told(&wrong_chain, bad), refused(6, 1, cells));
        assert_eq!(told(&wrong_edge, bad), refused(7, 2, cells));
        assert_eq!(told(&wrong_mark, bad), refused(17, 1, cells));
        assert_eq!(told(&T, bad), refused(8, 4, cells));
        assert_eq!(told(&T, Query { owner: 0, ..bad }), refused(8, 2, cells));
    }
    // 15 comes before 16: a set that is not listed has no record to be too long.
    assert_eq!(written(&T, Q, 15, 0), refused(15, 0, 0));
    assert_eq!(written(&T, Q, 7, 0), refused(16, 0, 0));
    assert_eq!(written(&T, Q, 7, 5), refused(16, 0, 5));
    assert_eq!(written(&T, Q, 7, 6), (Ok(6), R.to_vec()));
}

#[test]
fn equal_credentials_have_a_record_each() {
    let twice = plain(&[member(G, 9), member(G, 9)]);
    assert_eq!(first(&twice, ASKED, 1), [1, 0]);
    assert_eq!(first(&twice, ASKED, 2), [2, 0]);
    assert!(is_unlisted(&twice, ASKED, 3));
    let many = plain(&[member(G, 9); 20]);
    assert_eq!(first(&many, ASKED, 1 << 19), [20, 0]);
}

#[test]
fn a_chain_that_names_a_role_twice_has_its_record_twice() {
    let parts = chain(&[A, A]);
    let credentials = [in_every(G, 1), member(A, 9), member(A, 9)];
    let twice = table(&credentials, &parts, 0, &[]);
    assert_eq!(first(&twice, ASKED, 3), [1, 0, 2, 0, 2, 0]);
    assert_eq!(first(&twice, ASKED, 5), [1, 0, 3, 0, 3, 0]);
    // `1 0 2 0 3 0` uses both, but 7 is not minimal.
    assert!(is_unlisted(&twice, ASKED, 7));
    let longer = [in_every(G, 1), from(A, B), member(B, 9)];
    let longer = table(&longer, &parts, 0, &[]);
    assert_eq!(first(&longer, ASKED, 7), [1, 0, 2, 0, 3, 0, 2, 0, 3, 0]);
}

#[test]
fn premises_come_in_the_order_of_the_chain() {
    let credentials = [member(B, 9), member(A, 9), in_every(G, 1)];
    let one = table(&credentials, &chain(&[A, B]), 0, &[]);
    assert_eq!(first(&one, ASKED, 7), [3, 0, 2, 0, 1, 0]);
    let other = table(&credentials, &chain(&[B, A]), 0, &[]);
    assert_eq!(first(&other, ASKED, 7), [3, 0, 1, 0, 2, 0]);
}

/// The names of what a middle owns, beside the linking role A.
const T1: Number = 11;
const T2: Number = 12;
const T3: Number = 13;

/// A table in which two middles, 7 and 64, lead to B, and everything is needed:
/// C only goes by way of 7, D only by way of 64, and E wants what both own.
fn two_middles() -> Vec<Number> {
    const E: [Number; 2] = [1, 6];
    let credentials = [
        in_every(G, 1),      // 1: B, C, D and E
        linked(B, 2, T1),    // 2
        linked(C, 2, T2),    // 3
        linked(D, 2, T3),    // 4
        in_every(E, 5),      // 5: both middles' T1
        member(A, 64),       // 6
        member([64, T1], 9), // 7
        member([64, T3], 9), // 8
        member(A, 7),        // 9
        member([7, T1], 9),  // 10
        member([7, T2], 9),  // 11
    ];
    let mut parts = chain(&[B, C, D, E]);
    parts.extend([[64, T1, 6], [7, T1, 0]]);
    table(&credentials, &parts, 0, &[])
}

#[test]
fn middles_go_by_their_numbers_and_not_by_their_places() {
    let all = (1 << 11) - 1;
    assert_eq!(sets(&two_middles(), ASKED), [all]);
    let by_7 = [1, 0, 2, 7, 9, 0, 10, 0];
    let rest = [3, 7, 9, 0, 11, 0, 4, 64, 6, 0, 8, 0, 5, 0, 7, 0, 10, 0];
    let record = [&by_7[..], &rest].concat();
    assert_eq!(first(&two_middles(), ASKED, all), record);
    // By way of 64, which stands before 7 in the table, it is accepted too.
    let by_64 = [1, 0, 2, 64, 6, 0, 7, 0];
    let other = [&by_64[..], &rest].concat();
    assert_eq!(verify(&two_middles(), ASKED, &other), Ok(all));
    assert!(record < other);
}

#[test]
fn the_least_credential_may_be_forbidden_on_one_branch() {
    // Only the words G A C and G B C D are accepted.
    let edges = [
        on(0, G, 1),
        on(1, A, 2),
        on(2, C, 3),
        on(1, B, 4),
        on(4, C, 5),
        on(5, D, 6),
    ];
    let credentials = [
        kept(in_every(G, 1)),
        from(A, C),
        from(B, C),
        member(C, 9),
        from(C, D),
        member(D, 9),
    ];
    let one = table(&credentials, &chain(&[A, B]), 8 + 64, &edges);
    let record = [1, 0, 2, 0, 4, 0, 3, 0, 5, 0, 6, 0];
    assert_eq!(first(&one, ASKED, 63), record);
    // With 4 and 5 in each other's place it is forbidden on the first branch.
    let mut turned = credentials;
    turned.swap(3, 4);
    let other = table(&turned, &chain(&[A, B]), 8 + 64, &edges);
    let record = [1, 0, 2, 0, 5, 0, 3, 0, 4, 0, 6, 0];
    assert_eq!(first(&other, ASKED, 63), record);
}

#[test]
fn the_least_middle_may_be_forbidden_on_one_branch() {
    // A word that begins with G A may end with 64's T1, one with G B with 7's;
    // both may end with D, in which the middles are. The same once more by
    // owners: then the automaton is dead at the role of the wrong middle.
    let by_role = [
        on_every(2, 2),
        on_every(3, 3),
        on(2, [64, T1], 4),
        on(3, [7, T1], 4),
    ];
    let by_owner = [
        on_any_of(2, 1, 2),
        on_any_of(3, 1, 3),
        on_any_of(2, 64, 4),
        on_any_of(3, 7, 4),
    ];
    for ways in [by_role, by_owner] {
        let parted = [on(0, G, 1), on(1, A, 2), on(1, B, 3)];
        let middles = [on(2, D, 4), on(3, D, 4)];
        by_64_then_by_7(&[&parted[..], &middles, &ways].concat());
    }
}

/// That the first record goes by the middle 64 below A and by 7 below B, with
/// these edges of the goal's automaton, which accepts in state 4.
fn by_64_then_by_7(edges: &[EdgeRecord]) {
    let credentials = [
        kept(in_every(G, 1)),
        from(A, C),
        from(B, C),
        linked(C, 5, T1),
        member(D, 7),
        member(D, 64),
        member([7, T1], 9),
        member([64, T1], 9),
    ];
    let one = table(&credentials, &chain(&[A, B]), 16, edges);
    assert_eq!(sets(&one, ASKED), [255]);
    let by_64 = [2, 0, 4, 64, 6, 0, 8, 0];
    let by_7 = [3, 0, 4, 7, 5, 0, 7, 0];
    let record = [&[1, 0], &by_64[..], &by_7].concat();
    assert_eq!(first(&one, ASKED, 255), record);
    // With 7 on both branches the record comes before, and is not accepted.
    let least = [&[1, 0, 2, 0, 4, 7, 5, 0, 7, 0], &by_7[..]].concat();
    assert!(least < record);
    let refusal = verify(&one, ASKED, &least).unwrap_err();
    assert_eq!(refusal, Refusal::new(14, 1u64));
}

#[test]
fn a_lesser_middle_may_lead_nowhere() {
    // 7 is in the linking role, but only 64 has a role with 9 in it; 7 is needed
    // for C.
    let credentials = [
        in_every(G, 1),
        linked(B, 2, T1),
        linked(C, 2, T2),
        member(A, 7),
        member(A, 64),
        member([64, T1], 9),
        member([7, T2], 9),
    ];
    let one = table(&credentials, &chain(&[B, C]), 0, &[]);
    let record = [1, 0, 2, 64, 5, 0, 6, 0, 3, 7, 4, 0, 7, 0];
    assert_eq!(first(&one, ASKED, 127), record);
}

#[test]
fn the_least_credential_may_lead_too_deep() {
    // Words have three roles or more. C goes by D right below the goal; below A
    // that is accepted with four levels, and too deep with three.
    let edges = [
        on_every(0, 1),
        on_every(1, 2),
        on_every(2, 3),
        on_every(3, 3),
    ];
    let credentials = [
        kept(in_every(G, 1)),
        from(C, D),
        member(C, 9),
        member(D, 9),
        from(A, C),
    ];
    let both = table(&credentials, &chain(&[C, A]), 8, &edges);
    let four = Query { depth: 4, ..ASKED };
    let three = Query { depth: 3, ..ASKED };
    assert_eq!(sets(&both, four), [1 + 2 + 8 + 16]);
    assert_eq!(first(&both, four, 27), [1, 0, 2, 0, 4, 0, 5, 0, 2, 0, 4, 0]);
    assert_eq!(sets(&both, three), [31]);
    assert_eq!(first(&both, three, 31), [1, 0, 2, 0, 4, 0, 5, 0, 3, 0]);
    assert!(is_unlisted(&both, three, 27));
    assert!(is_unlisted(&both, Query { depth: 2, ..ASKED }, 31));
}

#[test]
fn the_least_credential_may_lead_back() {
    // Only the words G A B D and G B A D are accepted. Below A credential 2 would
    // lead from B back to A, and below B credential 3 from A back to B.
    let edges = [
        on(0, G, 1),
        on(1, A, 2),
        on(1, B, 3),
        on(2, B, 4),
        on(4, D, 5),
        on(3, A, 6),
        on(6, D, 5),
    ];
    let credentials = [
        kept(in_every(G, 1)),
        from(B, A),
        from(A, B),
        from(B, D),
        from(A, D),
        member(D, 9),
    ];
    let both = table(&credentials, &chain(&[A, B]), 32, &edges);
    assert_eq!(sets(&both, ASKED), [63]);
    let record = [1, 0, 3, 0, 4, 0, 6, 0, 2, 0, 5, 0, 6, 0];
    assert_eq!(first(&both, ASKED, 63), record);
}

#[test]
fn the_depth_limit_counts_levels() {
    let role = |level| [1, level];
    let steps = (1..16).map(|level| from(role(level), role(level + 1)));
    let ladder: Vec<CredentialRecord> = steps.chain([member(role(16), 9)]).collect();
    let ladder = plain(&ladder);
    let record: Vec<Number> = (1..=16).flat_map(|number| [number, 0]).collect();
    assert_eq!(first(&ladder, ASKED, 65_535), record);
    assert!(is_unlisted(&ladder, Query { depth: 15, ..ASKED }, 65_535));
}

#[test]
fn a_record_may_be_longer_than_any_buffer() {
    let (nine, query) = (wide::records(9).numbers(), wide::query(9));
    let record = wide::record(9);
    let length = record.len();
    assert_eq!(length, 174_762);
    let mut longer = record.clone();
    longer.push(BEFORE);
    assert_eq!(written(&nine, query, 511, length + 1), (Ok(length), longer));
    assert_eq!(written(&nine, query, 511, length), (Ok(length), record));
    assert_eq!(
        written(&nine, query, 511, length - 1),
        refused(16, 0, length - 1)
    );
    // 1,431,655,765 nodes.
    let (sixteen, query) = (wide::records(16).numbers(), wide::query(16));
    for cells in [0, 2, 70_000] {
        let told = written(&sixteen, query, 65_535, cells);
        assert_eq!(told, refused(16, 0, cells));
    }
    assert!(is_unlisted(&sixteen, query, 65_534));
}
