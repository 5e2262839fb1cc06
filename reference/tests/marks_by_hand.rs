//! Automata that demand every word and automata that demand some word, worked out
//! by hand: checks, verdicts, lists and first records.

use reference::records::{CellRecord, CredentialRecord, EdgeRecord, Records};
use reference::shop::{Q, R, T, U};
use reference::{check, check_query, list, upgraded, verify, write, Number, Query, Refusal};

/// The place of U's mark.
const MARK: usize = 4 + 6 * 4 + 2;

fn refused<Told>(number: u32, position: u64) -> Result<Told, Refusal> {
    Err(Refusal { number, position })
}

/// The list; nothing if there is no set.
fn listed(table: &[Number], query: Query) -> Vec<u32> {
    let mut cells = vec![0; 64];
    let count = list(table, query, &mut cells).unwrap_or(0);
    cells.truncate(count);
    cells
}

/// The first record of a set.
fn first(table: &[Number], query: Query, set: u32) -> Vec<Number> {
    let mut cells = vec![0; 64];
    let length = write(table, query, set, &mut cells).expect("a record");
    cells.truncate(length);
    cells
}

/// U with this mark.
fn marked(mark: Number) -> [Number; U.len()] {
    let mut table = U;
    table[MARK] = mark;
    table
}

/// The edges of automata, numbered from 1, each of which is met by the words that
/// pass through a role of principal 1 with its name.
fn through(names: &[Number]) -> Vec<EdgeRecord> {
    let edges = |(automaton, &name): (Number, &Number)| {
        [
            [automaton, 0, 2, 0, 0, 0],
            [automaton, 0, 1, 1, name, 1],
            [automaton, 1, 2, 0, 0, 1],
        ]
    };
    (1..).zip(names).flat_map(edges).collect()
}

/// A table with automata of these marks, each for the words through a name.
fn passing(
    credentials: &[CredentialRecord],
    cells: &[CellRecord],
    automata: &[(Number, Number)],
) -> Vec<Number> {
    let names: Vec<Number> = automata.iter().map(|&(name, _)| name).collect();
    let records = Records {
        credentials: credentials.to_vec(),
        cells: cells.to_vec(),
        automata: automata.iter().map(|&(_, mark)| [1, 2, mark]).collect(),
        edges: through(&names),
    };
    records.numbers()
}

#[test]
fn refusal_17_the_mark_is_neither_0_nor_1() {
    assert_eq!([check(&marked(0)), check(&marked(1))], [Ok(()), Ok(())]);
    for mark in [2, 3, 256, 257, 32_768, 65_535] {
        let table = marked(mark);
        assert_eq!(check(&table), refused(17, 1), "mark {mark}");
        assert_eq!(check_query(&table, Q), refused(17, 1));
        assert_eq!(verify(&table, Q, &R), refused(17, 1));
        assert_eq!(list(&table, Q, &mut []), refused(17, 1));
        assert_eq!(write(&table, Q, 8, &mut []), refused(17, 1));
    }
}

#[test]
fn refusal_17_comes_behind_7_and_before_8() {
    let mut table = marked(2);
    let bad = Query { depth: 0, ..Q };
    assert_eq!(check_query(&table, bad), refused(17, 1));
    assert_eq!(check_query(&marked(1), bad), refused(8, 4));
    // The second edge goes to state 16.
    table[U.len() - 1] = 16;
    assert_eq!(check_query(&table, bad), refused(7, 2));
}

#[test]
fn refusal_17_names_the_first_automaton_attached_or_not() {
    let member = [1, 1, 1, 9, 0, 0];
    let told = |marks: [Number; 3]| check(&passing(&[member], &[], &marks.map(|mark| (2, mark))));
    assert_eq!(told([0, 1, 1]), Ok(()));
    assert_eq!(told([0, 1, 2]), refused(17, 3));
    assert_eq!(told([0, 7, 2]), refused(17, 2));
    assert_eq!(told([65_535, 0, 0]), refused(17, 1));
}

#[test]
fn a_table_of_the_base_layout_is_read_by_no_call() {
    let mut base = U.to_vec();
    base.remove(MARK);
    assert_eq!(check(&base), refused(3, 0));
    assert_eq!(upgraded(&base), Ok(U.to_vec()));
    // Without automata the two layouts are the same.
    assert_eq!(upgraded(&T), Ok(T.to_vec()));
    assert_eq!(upgraded(&U), refused(3, 0));
    assert_eq!(upgraded(&base[..3]), refused(1, 0));
    assert_eq!(upgraded(&[0, 0, 9, 0]), refused(2, 0));
    let records = Records::read(&marked(1)).expect("an accepted table");
    assert_eq!(records.base_numbers(), base);
}

#[test]
fn the_shop_s_automaton_is_met_by_no_word_that_begins_with_the_discount() {
    let student = Query::from_numbers([4, 2, 2, 1]);
    for mark in [0, 1] {
        let table = marked(mark);
        assert_eq!(listed(&table, Q), [8]);
        assert_eq!(verify(&table, Q, &R), refused(14, 1));
        // It is not asked where its credential is not used.
        assert_eq!(verify(&table, Q, &[4, 0]), Ok(8));
        assert_eq!(listed(&table, student), [4]);
    }
}

/// The shop's table T with an automaton of this mark, attached to a credential,
/// which is met by the words that pass through a role of the shop.
fn shop_through(name: Number, mark: Number, credential: usize) -> Vec<Number> {
    let mut records = Records::read(&T).expect("T is accepted");
    records.credentials[credential - 1][5] = 1;
    records.automata.push([1, 2, mark]);
    records.edges = through(&[name]);
    records.numbers()
}

#[test]
fn one_good_word_is_enough_on_whichever_branch() {
    // R's words are discount, accredited and discount, student: the first passes
    // through accredited, and only it through credential 2.
    for credential in [1, 2, 3] {
        let every = shop_through(3, 0, credential);
        assert_eq!(verify(&every, Q, &R), refused(14, 1));
        assert_eq!(listed(&every, Q), [8]);
        let some = shop_through(3, 1, credential);
        assert_eq!(verify(&some, Q, &R), Ok(7));
        assert_eq!(listed(&some, Q), [7, 8]);
        assert_eq!(first(&some, Q, 7), R);
    }
    // Of credential 4's one word it is not: there is no other.
    assert_eq!(verify(&shop_through(3, 1, 4), Q, &[4, 0]), refused(14, 1));
    assert_eq!(verify(&shop_through(1, 1, 4), Q, &[4, 0]), Ok(8));
}

#[test]
fn some_word_of_one_word_is_every_word() {
    for mark in [0, 1] {
        assert_eq!(verify(&shop_through(1, mark, 4), Q, &[4, 0]), Ok(8));
        assert_eq!(listed(&shop_through(3, mark, 4), Q), [7]);
    }
}

/// Principal 9 is in 1.1 if in 1.2 and in 1.3; each is so by membership.
const BOTH: [CredentialRecord; 3] = [[1, 1, 4, 1, 0, 0], [1, 2, 1, 9, 0, 0], [1, 3, 1, 9, 0, 0]];
const PARTS: [CellRecord; 2] = [[1, 2, 2], [1, 3, 0]];

/// Principal 9 in 1.1, as deep as can be.
const ASKED: Query = Query {
    principal: 9,
    owner: 1,
    name: 1,
    depth: 16,
};

/// The verdict on the one record, where credentials 2 and 3 have automata 1 and 2
/// for the words through these names, of these marks.
fn verdict(automata: [(Number, Number); 2]) -> Result<u32, Refusal> {
    let mut credentials = BOTH;
    credentials[1][5] = 1;
    credentials[2][5] = 2;
    let table = passing(&credentials, &PARTS, &automata);
    verify(&table, ASKED, &[1, 0, 2, 0, 3, 0])
}

#[test]
fn the_lowest_automaton_that_is_not_met_is_told_of_either_mark() {
    // Every word passes through 1.1, some through 1.2, none through 1.4.
    let (every, some, none) = (1, 2, 4);
    assert_eq!(verdict([(every, 0), (some, 1)]), Ok(7));
    assert_eq!(verdict([(some, 1), (every, 0)]), Ok(7));
    assert_eq!(verdict([(every, 0), (none, 1)]), refused(14, 2));
    assert_eq!(verdict([(some, 1), (some, 0)]), refused(14, 2));
    assert_eq!(verdict([(some, 0), (none, 1)]), refused(14, 1));
    assert_eq!(verdict([(none, 1), (some, 0)]), refused(14, 1));
    assert_eq!(verdict([(some, 0), (some, 1)]), refused(14, 1));
}

#[test]
fn an_automaton_that_no_used_credential_bears_is_not_asked() {
    // Credential 4 defines 1.2 too, under an automaton that no word meets.
    for mark in [0, 1] {
        let credentials = [&BOTH[..], &[[1, 2, 1, 9, 0, 1]]].concat();
        let table = passing(&credentials, &PARTS, &[(4, mark)]);
        assert_eq!(verify(&table, ASKED, &[1, 0, 2, 0, 3, 0]), Ok(7));
        assert_eq!(verify(&table, ASKED, &[1, 0, 4, 0, 3, 0]), refused(14, 1));
        assert_eq!(listed(&table, ASKED), [7]);
    }
}

#[test]
fn one_word_may_meet_several_automata() {
    let credentials = [
        [1, 1, 4, 1, 0, 1],
        [1, 2, 2, 1, 4, 2],
        [1, 3, 1, 9, 0, 3],
        [1, 4, 1, 9, 0, 0],
    ];
    let table = passing(&credentials, &PARTS, &[(4, 1), (2, 1), (4, 1)]);
    assert_eq!(listed(&table, ASKED), [15]);
    assert_eq!(first(&table, ASKED, 15), [1, 0, 2, 0, 4, 0, 3, 0]);
}

/// A chain that names a role twice: 1.1 is for whoever is in 1.2 and in 1.2, which
/// is by 1.3 or by 1.4. The automata demand a word through each of these two.
fn twice() -> Vec<Number> {
    let credentials = [
        [1, 1, 4, 1, 0, 1],
        [1, 2, 2, 1, 3, 0],
        [1, 2, 2, 1, 4, 0],
        [1, 3, 1, 1, 0, 2],
        [1, 4, 1, 1, 0, 0],
    ];
    passing(&credentials, &[[1, 2, 2], [1, 2, 0]], &[(3, 1), (4, 1)])
}

#[test]
fn a_role_named_twice_is_proved_twice_to_meet_two_constraints() {
    let query = Query::from_numbers([1, 1, 1, 3]);
    assert_eq!(listed(&twice(), query), [31]);
    assert_eq!(first(&twice(), query, 31), [1, 0, 2, 0, 4, 0, 3, 0, 5, 0]);
    let same = [1, 0, 2, 0, 4, 0, 2, 0, 4, 0];
    assert_eq!(verify(&twice(), query, &same), refused(14, 2));
    // By 1.4 alone the second automaton is not used, and the first is not met.
    let other = [1, 0, 3, 0, 5, 0, 3, 0, 5, 0];
    assert_eq!(verify(&twice(), query, &other), refused(14, 1));
}

#[test]
fn a_set_may_need_a_credential_for_its_word_alone() {
    // 1.2 is by membership too, but then no word passes through 1.4.
    let credentials = [
        [1, 1, 4, 1, 0, 1],
        [1, 2, 1, 9, 0, 0],
        [1, 3, 1, 9, 0, 0],
        [1, 2, 2, 1, 4, 0],
        [1, 3, 2, 1, 4, 0],
        [1, 4, 1, 9, 0, 0],
    ];
    let some = passing(&credentials, &PARTS, &[(4, 1)]);
    let [by_2, by_3, by_both] = [1 + 4 + 8 + 32, 1 + 2 + 16 + 32, 1 + 8 + 16 + 32];
    assert_eq!(listed(&some, ASKED), [by_2, by_3, by_both]);
    let every = passing(&credentials, &PARTS, &[(4, 0)]);
    assert_eq!(listed(&every, ASKED), [by_both]);
    let free = passing(&credentials, &PARTS, &[(1, 1)]);
    assert_eq!(listed(&free, ASKED), [7, by_2, by_3, by_both]);
}

#[test]
fn the_first_record_has_its_demanded_word_as_far_behind_as_can_be() {
    // 1.2 is by 1.4 or by 1.5, and the way by 1.4 has an automaton of its own.
    let credentials = [
        [1, 1, 4, 1, 0, 1],
        [1, 2, 2, 1, 4, 2],
        [1, 2, 2, 1, 5, 0],
        [1, 4, 1, 9, 0, 0],
        [1, 5, 1, 9, 0, 0],
    ];
    let cells = [[1, 2, 2], [1, 2, 3], [1, 2, 0]];
    // Where the first demands a word through 1.5, the way by 1.4 is not needed.
    let table = passing(&credentials, &cells, &[(5, 1), (4, 1)]);
    assert_eq!(listed(&table, ASKED), [1 + 4 + 16]);
    // Where it demands one through 1.4, this way demands one through 1.5.
    let table = passing(&credentials, &cells, &[(4, 1), (5, 1)]);
    assert_eq!(listed(&table, ASKED), [31]);
    let (by_4, by_5) = ([2, 0, 4, 0], [3, 0, 5, 0]);
    let expected = [&[1, 0][..], &by_4, &by_4, &by_5].concat();
    assert_eq!(first(&table, ASKED, 31), expected);
}

/// A club whose friends' friends are its friends; 4, 5 and 6 are friends in line,
/// and 6 has 5 as a friend. A word that passes through a role of 6 is demanded.
fn club(mark: Number) -> Vec<Number> {
    let records = Records {
        credentials: vec![
            [1, 2, 3, 2, 2, 1],
            [1, 2, 1, 4, 0, 0],
            [4, 2, 1, 5, 0, 0],
            [5, 2, 1, 6, 0, 0],
            [6, 2, 1, 5, 0, 0],
        ],
        cells: vec![],
        automata: vec![[1, 2, mark]],
        edges: vec![[1, 0, 2, 0, 0, 0], [1, 0, 4, 6, 0, 1]],
    };
    records.numbers()
}

#[test]
fn a_way_round_is_needed_for_its_word_but_no_pair_may_come_twice() {
    // 5 by way of 6, who is there by way of 5: the pair of the query again. Without
    // the rule the words would meet the automaton.
    let asked = |principal| Query::from_numbers([principal, 1, 2, 16]);
    assert_eq!(listed(&club(1), asked(5)), []);
    assert_eq!(listed(&club(0), asked(5)), []);
    let back = [1, 6, 1, 5, 1, 4, 2, 0, 3, 0, 4, 0, 5, 0];
    assert_eq!(verify(&club(1), asked(5), &back), refused(13, 3));
    // So it is with 6: nobody but 5 has 6 as a friend.
    assert_eq!(listed(&club(1), asked(6)), []);
}

/// Principal 9 is in 1.1 if in 1.2, 1.3 and 1.4, or by 1.4 alone under the
/// constraint that some word passes through 1.3. Who is in 1.1 is in 1.2, and
/// whoever somebody in 1.2 has put into their role 5. So is principal 8.
fn round() -> Vec<Number> {
    let credentials = [
        [1, 1, 4, 1, 0, 0],
        [1, 2, 2, 1, 1, 0],
        [1, 1, 2, 1, 4, 1],
        [1, 3, 1, 9, 0, 0],
        [1, 4, 1, 9, 0, 0],
        [1, 4, 1, 8, 0, 0],
        [1, 2, 3, 2, 5, 0],
        [8, 5, 1, 9, 0, 0],
    ];
    passing(&credentials, &[[1, 2, 2], [1, 3, 3], [1, 4, 0]], &[(3, 1)])
}

#[test]
fn what_lies_between_two_nodes_alike_may_have_the_demanded_word() {
    // 9 in 1.2 may not rest on 9 in 1.1, and what is below this pair has no word
    // through 1.3. So 9 is in 1.2 by way of 8.
    let short = [1, 0, 2, 0, 3, 0, 5, 0, 4, 0, 5, 0];
    assert_eq!(verify(&round(), ASKED, &short), refused(13, 3));
    assert_eq!(verify(&round(), ASKED, &[3, 0, 5, 0]), refused(14, 1));
    assert_eq!(listed(&round(), ASKED), [255]);
    let long = [1, 0, 7, 8, 2, 0, 3, 0, 6, 0, 8, 0, 4, 0, 5, 0];
    assert_eq!(first(&round(), ASKED, 255), long);
}
