//! Lists of minimal sets, worked out by hand, with every cell of the buffer.

mod by_hand_tables;

use by_hand_tables::{
    chain, from, in_every, kept, linked, member, on, on_all_but, on_any_of, on_every, plain, table,
    A, ASKED, B, C, D, G,
};
use reference::derivation::NODE;
use reference::generate::wide;
use reference::listing::minimal_sets;
use reference::records::CredentialRecord;
use reference::shop::{Q, T, U};
use reference::table::Table;
use reference::{list, verify, Number, Query, Refusal};

/// What a cell holds before the call. No set is so great.
const BEFORE: u32 = 0xA5A5_A5A5;

/// The answer with a buffer of so many cells, and the cells after the call.
fn listed(table: &[Number], query: Query, cells: usize) -> (Result<usize, Refusal>, Vec<u32>) {
    let mut buffer = vec![BEFORE; cells];
    let answer = list(table, query, &mut buffer);
    (answer, buffer)
}

/// All sets, in a buffer with two cells to spare, which stay as they were. For
/// each set there is a record of which the verifier says the same.
fn sets(table: &[Number], query: Query) -> Vec<u32> {
    let read = Table::read(table).expect("a table that is accepted");
    let minimal = minimal_sets(&read, query.read().expect("a valid query"));
    for set in &minimal {
        let record = set.witness.record();
        assert_eq!(set.witness.nodes(), (record.len() / NODE) as u64);
        assert_eq!(verify(table, query, &record), Ok(set.set));
    }
    let sets: Vec<u32> = minimal.iter().map(|minimal| minimal.set).collect();
    let buffer = [&sets[..], &[BEFORE, BEFORE]].concat();
    assert_eq!(listed(table, query, buffer.len()), (Ok(sets.len()), buffer));
    sets
}

fn refused(number: u32, position: u64) -> Result<usize, Refusal> {
    Err(Refusal { number, position })
}

/// Whether the answer is "none", whatever the buffer, and no cell changes.
fn is_none(table: &[Number], query: Query) -> bool {
    [0, 1, 5]
        .into_iter()
        .all(|cells| listed(table, query, cells) == (refused(9, 0), vec![BEFORE; cells]))
}

fn depth(depth: Number) -> Query {
    Query { depth, ..Q }
}

#[test]
fn the_rows_of_the_shop_example() {
    let student = Query {
        owner: 2,
        name: 2,
        depth: 1,
        ..Q
    };
    assert_eq!(sets(&T, Q), [7, 8]);
    assert_eq!(sets(&T, depth(1)), [8]);
    assert_eq!(sets(&U, Q), [8]);
    assert_eq!(sets(&U, student), [4]);
    assert_eq!(listed(&T, Q, 1), (refused(10, 0), vec![7]));
    assert!(is_none(&[0, 0, 0, 0], Q));
    for wrong in [0, 17] {
        let answer = (refused(8, 4), vec![BEFORE; 3]);
        assert_eq!(listed(&T, depth(wrong), 3), answer);
    }
}

#[test]
fn every_size_of_buffer() {
    assert_eq!(listed(&T, Q, 0), (refused(10, 0), vec![]));
    assert_eq!(listed(&T, Q, 1), (refused(10, 0), vec![7]));
    assert_eq!(listed(&T, Q, 2), (Ok(2), vec![7, 8]));
    assert_eq!(listed(&T, Q, 3), (Ok(2), vec![7, 8, BEFORE]));
    assert_eq!(listed(&T, depth(1), 0), (refused(10, 0), vec![]));
    assert_eq!(listed(&T, depth(1), 1), (Ok(1), vec![8]));
}

#[test]
fn the_table_comes_first_then_the_query_then_the_list() {
    let mut wrong_kind = T;
    wrong_kind[6] = 5;
    let mut wrong_edge = U;
    wrong_edge[39] = 4;
    let mut wrong_mark = U;
    wrong_mark[30] = 2;
    let wrong_cell = table(&[in_every(G, 1)], &[[1, 2, 2], [1, 2, 2]], 0, &[]);
    let wrong_chain = table(&[in_every(G, 1)], &[[1, 2, 0]], 0, &[]);
    let bad = depth(0);
    let cells = vec![BEFORE; 2];
    let answer = |number, position| (refused(number, position), cells.clone());
    assert_eq!(listed(&T[..3], bad, 2), answer(1, 0));
    assert_eq!(listed(&[21, 0, 0, 0], bad, 2), answer(2, 0));
    assert_eq!(listed(&T[..27], bad, 2), answer(3, 0));
    assert_eq!(listed(&wrong_kind, bad, 2), answer(4, 1));
    assert_eq!(listed(&wrong_cell, bad, 2), answer(5, 2));
    assert_eq!(listed(&wrong_chain, bad, 2), answer(6, 1));
    assert_eq!(listed(&wrong_edge, bad, 2), answer(7, 2));
    assert_eq!(listed(&wrong_mark, bad, 2), answer(17, 1));
    assert_eq!(listed(&T, bad, 2), answer(8, 4));
    assert_eq!(listed(&[0, 0, 0, 0], bad, 2), answer(8, 4));
    let first = Query { owner: 0, ..bad };
    assert_eq!(listed(&T, first, 2), answer(8, 2));
}

#[test]
fn none_comes_before_too_long() {
    assert_eq!(listed(&[0, 0, 0, 0], Q, 0), (refused(9, 0), vec![]));
    assert!(is_none(&T, Query { principal: 5, ..Q }));
    // Nobody defines School.discount.
    assert!(is_none(&T, Query { owner: 2, ..Q }));
}

#[test]
fn equal_credentials_are_two() {
    let twice = plain(&[member(G, 9), member(G, 9)]);
    assert_eq!(sets(&twice, ASKED), [1, 2]);
    let many = plain(&[member(G, 9); 20]);
    let powers: Vec<u32> = (0..20).map(|index| 1 << index).collect();
    assert_eq!(sets(&many, ASKED), powers);
    let first = powers[..19].to_vec();
    assert_eq!(listed(&many, ASKED, 19), (refused(10, 0), first));
}

#[test]
fn a_chain_may_name_a_role_twice() {
    let parts = [[1, 2, 2], [1, 2, 0]];
    let credentials = [in_every(G, 1), member(A, 9), member(A, 9)];
    // Both children through 2, or both through 3; 7 is not minimal.
    let twice = table(&credentials, &parts, 0, &[]);
    assert_eq!(sets(&twice, ASKED), [3, 5]);
}

#[test]
fn a_chain_wants_all_its_parts() {
    let parts = [[1, 2, 2], [1, 3, 3], [1, 4, 4], [1, 5, 0]];
    let members = [A, B, C, D].map(|role| member(role, 9));
    let whole = [&[in_every(G, 1)], &members[..]].concat();
    assert_eq!(sets(&table(&whole, &parts, 0, &[]), ASKED), [31]);
    for missing in 1..5 {
        let mut credentials = whole.clone();
        credentials[missing] = member([1, 1 + missing as Number], 8);
        assert!(is_none(&table(&credentials, &parts, 0, &[]), ASKED));
    }
    // The chain that begins at its second cell does without A.
    let shorter = [&[in_every(G, 2)], &members[..]].concat();
    assert_eq!(sets(&table(&shorter, &parts, 0, &[]), ASKED), [29]);
}

#[test]
fn every_middle_is_tried() {
    let credentials = [
        linked(G, 2, 3),
        member(A, 7),
        member(A, 64),
        member([7, 3], 9),
        member([64, 3], 9),
    ];
    assert_eq!(sets(&plain(&credentials), ASKED), [11, 21]);
    // The middle may be the goal's own principal, and be found by other kinds.
    let own = [
        linked(G, 2, 3),
        from(A, [5, 5]),
        member([5, 5], 9),
        member([9, 3], 9),
    ];
    assert_eq!(sets(&plain(&own), ASKED), [15]);
    // A middle of which nothing follows is none.
    let nobody = [linked(G, 2, 3), member(A, 7), member([64, 3], 9)];
    assert!(is_none(&plain(&nobody), ASKED));
}

#[test]
fn no_pair_occurs_twice_on_a_branch() {
    let other = [2, 1];
    let circle = [
        from(G, other),
        from(other, G),
        member(G, 9),
        member(other, 9),
    ];
    assert_eq!(sets(&plain(&circle), ASKED), [4, 9]);
    // By way of G, other, G the word would have three roles.
    let [one, two, three, four] = circle;
    let three_roles = [on_every(0, 1), on_every(1, 2), on_every(2, 3)];
    let long = table(&[one, two, kept(three), four], &[], 8, &three_roles);
    assert_eq!(sets(&long, ASKED), [9]);
    // The linking role is the goal's own, with another principal.
    let linking = [linked(G, 1, 3), member(G, 7), member([7, 3], 9)];
    assert_eq!(sets(&plain(&linking), ASKED), [7]);
    // It is the goal's own with its own principal.
    let own = [linked(G, 1, 3), from(G, A), member([9, 3], 9)];
    assert!(is_none(&plain(&own), ASKED));
    // A pair may occur on two branches.
    let parts = [[1, 2, 2], [1, 3, 0]];
    let siblings = [in_every(G, 1), from(A, C), from(B, C), member(C, 9)];
    assert_eq!(sets(&table(&siblings, &parts, 0, &[]), ASKED), [15]);
}

#[test]
fn the_depth_limit_counts_levels() {
    let role = |level| [1, level];
    let steps = (1..16).map(|level| from(role(level), role(level + 1)));
    let ladder: Vec<CredentialRecord> = steps.chain([member(role(16), 9)]).collect();
    let ladder = plain(&ladder);
    assert_eq!(sets(&ladder, ASKED), [65_535]);
    assert!(is_none(&ladder, Query { depth: 15, ..ASKED }));
    // What is higher up needs fewer levels.
    let from_15 = Query {
        name: 15,
        depth: 2,
        ..ASKED
    };
    assert_eq!(sets(&ladder, from_15), [3 << 14]);
    assert!(is_none(
        &ladder,
        Query {
            depth: 1,
            ..from_15
        }
    ));
}

#[test]
fn credential_20_counts() {
    let mut credentials = vec![member([3, 3], 3); 18];
    credentials.extend([from(G, A), member(A, 9)]);
    assert_eq!(sets(&plain(&credentials), ASKED), [3 << 18]);
}

#[test]
fn a_constraint_of_one_branch_can_be_broken_on_another() {
    let parts = [[1, 2, 2], [1, 3, 0]];
    let no_b = [on_all_but(0, B, 0)];
    let broken = [in_every(G, 1), kept(member(A, 9)), member(B, 9)];
    assert!(is_none(&table(&broken, &parts, 1, &no_b), ASKED));
    // The same credential without the constraint, at another number.
    let free = [&broken[..], &[member(A, 9)]].concat();
    assert_eq!(sets(&table(&free, &parts, 1, &no_b), ASKED), [13]);
    // The branches the other way round: the broken word comes first.
    let turned = [[1, 3, 2], [1, 2, 0]];
    assert_eq!(sets(&table(&free, &turned, 1, &no_b), ASKED), [13]);
}

#[test]
fn only_used_automata_count() {
    // No word is accepted, but 2 need not be used.
    let nothing = [on_all_but(0, G, 1)];
    let credentials = [from(G, A), kept(member(G, 9)), member(A, 9)];
    assert_eq!(sets(&table(&credentials, &[], 2, &nothing), ASKED), [5]);
    let credentials = [kept(from(G, A)), member(G, 9), kept(member(A, 9))];
    assert_eq!(sets(&table(&credentials, &[], 2, &nothing), ASKED), [2]);
    let all_kept = credentials.map(kept);
    assert!(is_none(&table(&all_kept, &[], 2, &nothing), ASKED));
}

#[test]
fn an_automaton_starts_at_the_goal() {
    // Words that begin with A; the constrained credential defines A.
    let begins_with_a = [on(0, A, 1), on_every(1, 1)];
    let credentials = [from(G, A), kept(member(A, 9))];
    let constrained = table(&credentials, &[], 2, &begins_with_a);
    assert!(is_none(&constrained, ASKED));
    assert_eq!(sets(&constrained, Query { name: 2, ..ASKED }), [2]);
    // The branch of a middle has the goal's role before it too.
    let middle = [linked(G, 2, 3), kept(member(A, 7)), member([7, 3], 9)];
    assert!(is_none(&table(&middle, &[], 2, &begins_with_a), ASKED));
    let begins_with_g = [on(0, G, 1), on_every(1, 1)];
    assert_eq!(sets(&table(&middle, &[], 2, &begins_with_g), ASKED), [7]);
}

/// A role of another owner, whose name Gate has too.
const ELSEWHERE: [Number; 2] = [2, 2];

#[test]
fn words_may_be_kept_to_an_owner_s_roles() {
    let own = [on_any_of(0, 1, 0)];
    let both = [on_any_of(0, 1, 0), on_any_of(0, 2, 0)];
    let ways = [
        kept(from(G, A)),
        member(A, 9),
        from(A, ELSEWHERE),
        member(ELSEWHERE, 9),
    ];
    assert_eq!(sets(&table(&ways, &[], 1, &own), ASKED), [3]);
    assert_eq!(sets(&table(&ways, &[], 1, &both), ASKED), [3, 13]);
    assert!(is_none(&table(&ways, &[], 1, &both[1..]), ASKED));
    // Nobody is in A but by way of the other owner.
    let mut away = ways;
    away[1] = member(A, 8);
    assert!(is_none(&table(&away, &[], 1, &own), ASKED));
    assert_eq!(sets(&table(&away, &[], 1, &both), ASKED), [13]);
}

#[test]
fn a_dead_automaton_is_met_again_further_down_and_on_other_branches() {
    let own = [on_any_of(0, 1, 0)];
    // It is dead at the other owner's role, and used only below, by 3.
    let below = [
        from(G, ELSEWHERE),
        from(ELSEWHERE, A),
        kept(member(A, 9)),
        member(A, 9),
    ];
    assert_eq!(sets(&table(&below, &[], 1, &own), ASKED), [11]);
    // It is dead on one branch, and used only on the other, by 2.
    let beside = [
        in_every(G, 1),
        kept(member(A, 9)),
        member(ELSEWHERE, 9),
        member(A, 9),
    ];
    for parts in [[A, ELSEWHERE], [ELSEWHERE, A]] {
        let beside = table(&beside, &chain(&parts), 1, &own);
        assert_eq!(sets(&beside, ASKED), [13]);
    }
}

#[test]
fn the_shortest_way_may_be_the_one_that_does_not_comply() {
    // Words end with C. The shorter way, 1 and 2, ends with B.
    let ends_with_c = [on_every(0, 0), on(0, C, 1)];
    let credentials = [kept(from(G, B)), member(B, 9), from(B, C), member(C, 9)];
    assert_eq!(
        sets(&table(&credentials, &[], 2, &ends_with_c), ASKED),
        [13]
    );
}

#[test]
fn a_listed_set_may_include_one_that_does_not_comply() {
    // Words have three roles: 1, 2, 3 give G A and G B, all five G A B, G B A.
    let three_roles = [on_every(0, 1), on_every(1, 2), on_every(2, 3)];
    let parts = [[1, 2, 2], [1, 3, 0]];
    let credentials = [
        kept(in_every(G, 1)),
        member(A, 9),
        member(B, 9),
        from(B, A),
        from(A, B),
    ];
    let constrained = table(&credentials, &parts, 8, &three_roles);
    assert_eq!(sets(&constrained, ASKED), [31]);
    assert!(verify(&constrained, ASKED, &[1, 0, 2, 0, 3, 0]).is_err());
    let mut free = credentials;
    free[0] = in_every(G, 1);
    let free = table(&free, &parts, 8, &three_roles);
    // A through 2 or through 5 and 3, B through 3 or through 4 and 2.
    assert_eq!(sets(&free, ASKED), [7, 11, 21]);
}

#[test]
fn one_used_set_may_have_an_accepted_and_a_rejected_record() {
    // Only the words G A C and G B C D are accepted.
    let edges = [
        on(0, G, 1),
        on(1, A, 2),
        on(2, C, 3),
        on(1, B, 4),
        on(4, C, 5),
        on(5, D, 6),
    ];
    let parts = [[1, 2, 2], [1, 3, 0]];
    let credentials = [
        kept(in_every(G, 1)),
        from(A, C),
        from(B, C),
        member(C, 9),
        from(C, D),
        member(D, 9),
    ];
    let constrained = table(&credentials, &parts, 8 + 64, &edges);
    assert_eq!(sets(&constrained, ASKED), [63]);
    let accepted = [1, 0, 2, 0, 4, 0, 3, 0, 5, 0, 6, 0];
    let rejected = [1, 0, 2, 0, 5, 0, 6, 0, 3, 0, 4, 0];
    assert_eq!(verify(&constrained, ASKED, &accepted), Ok(63));
    let number = verify(&constrained, ASKED, &rejected).unwrap_err().number;
    assert_eq!(number, 14);
}

#[test]
fn very_many_nodes_are_one_set() {
    let levels = wide::records(16).numbers();
    let (answer, cells) = listed(&levels, wide::query(16), 2);
    assert_eq!((answer, cells), (Ok(1), vec![65_535, BEFORE]));
}
