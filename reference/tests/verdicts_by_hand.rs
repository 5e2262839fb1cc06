//! Verdicts on records, worked out by hand, each refusal with its number and
//! position.

use reference::derivation::{Derivation, NODE};
use reference::generate::wide;
use reference::records::{CellRecord, CredentialRecord, EdgeRecord, Records};
use reference::shop::{Q, R, T, U};
use reference::sorts::Role;
use reference::table::Table;
use reference::words::{accepts, words};
use reference::{verify, Number, Query, Refusal};

/// What a record is answered with.
type Verdict = Result<u32, Refusal>;

fn refused(number: u32, position: u64) -> Verdict {
    Err(Refusal { number, position })
}

/// The shop's query with another depth limit.
fn depth(depth: Number) -> Query {
    Query { depth, ..Q }
}

/// The starting set and the accepting set of an automaton of mark 0.
type Sets = [Number; 2];

/// The table with these records.
fn table(
    credentials: &[CredentialRecord],
    cells: &[CellRecord],
    automata: &[Sets],
    edges: &[EdgeRecord],
) -> Vec<Number> {
    let automata = automata.iter();
    let records = Records {
        credentials: credentials.to_vec(),
        cells: cells.to_vec(),
        automata: automata
            .map(|&[starting, accepting]| [starting, accepting, 0])
            .collect(),
        edges: edges.to_vec(),
    };
    records.numbers()
}

/// The shop's table T with one automaton, attached to one of the credentials.
fn shop(credential: usize, [starting, accepting]: Sets, edges: &[EdgeRecord]) -> Vec<Number> {
    let mut records = Records::read(&T).expect("T is accepted");
    records.credentials[credential - 1][5] = 1;
    records.automata.push([starting, accepting, 0]);
    records.edges.extend(edges);
    records.numbers()
}

fn role(owner: Number, name: Number) -> Role {
    Role::read(owner, name).expect("a role")
}

#[test]
fn the_rows_of_the_shop_example() {
    assert_eq!(verify(&T, Q, &R), Ok(7));
    assert_eq!(verify(&U, Q, &R), refused(14, 1));
    assert_eq!(verify(&T, depth(1), &R), refused(13, 2));
    assert_eq!(verify(&T, Q, &[1, 2, 2, 0]), refused(11, 3));
    assert_eq!(verify(&T, Q, &[1, 4, 2, 0, 3, 0]), refused(12, 2));
    assert_eq!(verify(&T, depth(0), &R), refused(8, 4));
    assert_eq!(verify(&T, depth(17), &R), refused(8, 4));
}

#[test]
fn the_other_records_of_the_shop() {
    let student = Query {
        owner: 2,
        name: 2,
        depth: 1,
        ..Q
    };
    assert_eq!(verify(&T, Q, &[4, 0]), Ok(8));
    assert_eq!(verify(&T, depth(1), &[4, 0]), Ok(8));
    assert_eq!(verify(&T, depth(16), &R), Ok(7));
    assert_eq!(verify(&U, Q, &[4, 0]), Ok(8));
    assert_eq!(verify(&U, student, &[3, 0]), Ok(4));
    assert_eq!(verify(&[0, 0, 0, 0], Q, &R), refused(12, 1));
}

#[test]
fn the_table_comes_first_then_the_query_then_the_record() {
    let mut wrong_kind = Records::read(&T).expect("T is accepted");
    wrong_kind.credentials[0][2] = 5;
    assert_eq!(verify(&T[..3], depth(0), &[]), refused(1, 0));
    assert_eq!(verify(&[21, 0, 0, 0], depth(0), &[]), refused(2, 0));
    assert_eq!(verify(&T[..T.len() - 1], depth(0), &[]), refused(3, 0));
    assert_eq!(verify(&wrong_kind.numbers(), depth(0), &[]), refused(4, 1));
    assert_eq!(verify(&T, depth(0), &[]), refused(8, 4));
    assert_eq!(verify(&T, Q, &[]), refused(11, 1));
}

#[test]
fn at_each_node_11_comes_before_12_and_12_before_13() {
    // Node 2 is too deep in each of these.
    assert_eq!(verify(&T, depth(1), &[1, 2]), refused(11, 2));
    assert_eq!(verify(&T, depth(1), &[1, 2, 9]), refused(11, 2));
    assert_eq!(verify(&T, depth(1), &[1, 2, 9, 0]), refused(12, 2));
    assert_eq!(verify(&T, depth(1), &[1, 2, 2, 5]), refused(12, 2));
    assert_eq!(verify(&T, depth(1), &[1, 2, 3, 0]), refused(12, 2));
    assert_eq!(verify(&T, depth(1), &[1, 2, 2, 0]), refused(13, 2));
}

#[test]
fn a_node_comes_before_its_children_and_a_child_before_its_sibling() {
    // Here nothing is right from the damaged node on.
    assert_eq!(verify(&T, Q, &[9, 2, 9, 0, 9]), refused(12, 1));
    assert_eq!(verify(&T, Q, &[1, 2, 9, 0, 9]), refused(12, 2));
    assert_eq!(verify(&T, Q, &[1, 2, 2, 0, 9]), refused(11, 3));
    assert_eq!(verify(&T, Q, &[1, 2, 2, 0, 9, 0, 9]), refused(12, 3));
    // A middle that is out of range is told at its own node.
    assert_eq!(verify(&T, Q, &[1, 65, 9, 0]), refused(12, 1));
}

#[test]
fn numbers_left_over_come_after_the_nodes_and_before_the_words() {
    for left in [&[0][..], &[9], &[3, 0], &[9, 9, 9, 9, 9]] {
        let record = [&R, left].concat();
        assert_eq!(verify(&T, Q, &record), refused(11, 4));
        assert_eq!(verify(&U, Q, &record), refused(11, 4));
        let record = [&[4, 0], left].concat();
        assert_eq!(verify(&T, Q, &record), refused(11, 2));
    }
}

#[test]
fn the_number_of_numbers_is_not_looked_at_in_advance() {
    assert_eq!(verify(&T, Q, &[9, 0, 5]), refused(12, 1));
    assert_eq!(verify(&T, depth(1), &[1, 2, 2, 0, 3]), refused(13, 2));
    assert_eq!(verify(&T, Q, &[]), refused(11, 1));
    assert_eq!(verify(&T, Q, &[9]), refused(11, 1));
    assert_eq!(verify(&T, Q, &[4]), refused(11, 1));
}

#[test]
fn refusal_12_for_every_reason() {
    // No credential has this number.
    for credential in [0, 5, 20, 21, 260, 65535] {
        assert_eq!(verify(&T, Q, &[credential, 0]), refused(12, 1));
    }
    // It defines another role, of the same owner or with the same name.
    let student = Query { owner: 2, ..Q };
    assert_eq!(verify(&T, Q, &[2, 0]), refused(12, 1));
    assert_eq!(verify(&T, student, &[4, 0]), refused(12, 1));
    // It is of kind 1, for another principal.
    let shop = Query { principal: 1, ..Q };
    assert_eq!(verify(&T, shop, &[4, 0]), refused(12, 1));
}

#[test]
fn a_middle_out_of_range_is_refused_at_its_node() {
    for middle in [0, 65, 66, 258, 65535] {
        let record = [1, middle, 2, 0, 3, 0];
        assert_eq!(verify(&T, Q, &record), refused(12, 1), "{middle}");
    }
}

#[test]
fn a_middle_that_is_no_member_is_refused_at_its_child() {
    for middle in [1, 3, 4, 63, 64] {
        let record = [1, middle, 2, 0, 3, 0];
        assert_eq!(verify(&T, Q, &record), refused(12, 2), "{middle}");
    }
    // 64 is a middle like any other.
    let highest = table(
        &[[1, 1, 3, 3, 2, 0], [1, 3, 1, 64, 0, 0], [64, 2, 1, 4, 0, 0]],
        &[],
        &[],
        &[],
    );
    assert_eq!(verify(&highest, Q, &[1, 64, 2, 0, 3, 0]), Ok(7));
}

#[test]
fn a_middle_may_be_the_principal_of_the_goal() {
    let own = table(
        &[[1, 1, 3, 3, 2, 0], [1, 3, 1, 4, 0, 0], [4, 2, 1, 4, 0, 0]],
        &[],
        &[],
        &[],
    );
    assert_eq!(verify(&own, Q, &[1, 4, 2, 0, 3, 0]), Ok(7));
}

#[test]
fn only_kind_3_has_a_middle() {
    // Shop.discount, 1.1, by each of the other kinds.
    let kinds = table(
        &[
            [1, 1, 1, 4, 0, 0],
            [1, 1, 2, 2, 2, 0],
            [1, 1, 4, 1, 0, 0],
            [2, 2, 1, 4, 0, 0],
        ],
        &[[2, 2, 2], [2, 2, 0]],
        &[],
        &[],
    );
    for middle in [1, 2, 4, 64, 65, 65535] {
        assert_eq!(verify(&kinds, Q, &[1, middle]), refused(12, 1));
        assert_eq!(verify(&kinds, Q, &[2, middle, 4, 0]), refused(12, 1));
        assert_eq!(verify(&kinds, Q, &[3, middle, 4, 0, 4, 0]), refused(12, 1));
        assert_eq!(verify(&kinds, Q, &[3, 0, 4, 0, 4, middle]), refused(12, 3));
    }
    assert_eq!(verify(&kinds, Q, &[1, 0]), Ok(1));
    assert_eq!(verify(&kinds, Q, &[2, 0, 4, 0]), Ok(2 + 8));
    assert_eq!(verify(&kinds, Q, &[3, 0, 4, 0, 4, 0]), Ok(4 + 8));
}

#[test]
fn a_pair_occurs_once_on_a_branch() {
    let circle = table(
        &[
            [1, 1, 2, 2, 1, 0],
            [2, 1, 2, 2, 2, 0],
            [2, 2, 2, 1, 1, 0],
            [1, 1, 1, 4, 0, 0],
            [2, 2, 1, 4, 0, 0],
        ],
        &[],
        &[],
        &[],
    );
    // The goal again, three levels down, and not only a level down.
    let record = [1, 0, 2, 0, 3, 0, 4, 0];
    assert_eq!(verify(&circle, depth(16), &record), refused(13, 4));
    // The same names of other owners, or other names, are other roles.
    assert_eq!(
        verify(&circle, depth(3), &[1, 0, 2, 0, 5, 0]),
        Ok(1 + 2 + 16)
    );
    // Ann in a role below the goal: 2.1, 2.2, 1.1, 2.1.
    let below = Query {
        owner: 2,
        ..depth(16)
    };
    let record = [2, 0, 3, 0, 1, 0, 2, 0, 5, 0];
    assert_eq!(verify(&circle, below, &record), refused(13, 4));
}

#[test]
fn a_role_occurs_again_on_a_branch_with_another_principal() {
    // Shop.discount for the students of whoever has the discount: the first
    // child has the goal's role, with another principal.
    let linked = table(
        &[[1, 1, 3, 1, 2, 0], [1, 1, 1, 2, 0, 0], [2, 2, 1, 4, 0, 0]],
        &[],
        &[],
        &[],
    );
    let record = [1, 2, 2, 0, 3, 0];
    assert_eq!(verify(&linked, depth(16), &record), Ok(7));
    assert_eq!(verify(&linked, depth(1), &record), refused(13, 2));
    // The second child has it, with the goal's own principal.
    let second = table(
        &[[1, 1, 3, 2, 1, 0], [1, 2, 1, 1, 0, 0], [1, 1, 1, 4, 0, 0]],
        &[],
        &[],
        &[],
    );
    let record = [1, 1, 2, 0, 3, 0];
    assert_eq!(verify(&second, depth(16), &record), refused(13, 3));
}

#[test]
fn siblings_do_not_see_each_others_pairs() {
    // 1.1 from 2.1 and 3.1, and 3.1 from 2.1.
    let cousins = table(
        &[[1, 1, 4, 1, 0, 0], [2, 1, 1, 4, 0, 0], [3, 1, 2, 2, 1, 0]],
        &[[2, 1, 2], [3, 1, 0]],
        &[],
        &[],
    );
    let record = [1, 0, 2, 0, 3, 0, 2, 0];
    assert_eq!(verify(&cousins, depth(3), &record), Ok(7));
    assert_eq!(verify(&cousins, depth(2), &record), refused(13, 4));
}

#[test]
fn a_level_is_counted_from_the_goal() {
    // The first child goes down two levels, the second only one.
    let uneven = table(
        &[[1, 1, 4, 1, 0, 0], [3, 1, 2, 2, 1, 0], [2, 1, 1, 4, 0, 0]],
        &[[3, 1, 2], [2, 1, 0]],
        &[],
        &[],
    );
    let record = [1, 0, 2, 0, 3, 0, 3, 0];
    assert_eq!(verify(&uneven, depth(3), &record), Ok(7));
    assert_eq!(verify(&uneven, depth(2), &record), refused(13, 3));
    assert_eq!(verify(&uneven, depth(1), &record), refused(13, 2));
}

#[test]
fn sixteen_levels_are_allowed() {
    let mut credentials: Vec<CredentialRecord> = (1..16).map(|n| [1, n, 2, 1, n + 1, 0]).collect();
    credentials.push([1, 16, 1, 4, 0, 0]);
    let ladder = table(&credentials, &[], &[], &[]);
    let record: Vec<Number> = (1..=16).flat_map(|number| [number, 0]).collect();
    assert_eq!(verify(&ladder, depth(16), &record), Ok(65535));
    assert_eq!(verify(&ladder, depth(15), &record), refused(13, 16));
    assert_eq!(verify(&ladder, depth(1), &record), refused(13, 2));
}

#[test]
fn a_chain_may_name_a_role_twice() {
    let twice = table(
        &[[1, 1, 4, 1, 0, 0], [2, 2, 1, 4, 0, 0], [2, 2, 1, 4, 0, 0]],
        &[[2, 2, 2], [2, 2, 0]],
        &[],
        &[],
    );
    assert_eq!(verify(&twice, Q, &[1, 0, 2, 0, 3, 0]), Ok(7));
    assert_eq!(verify(&twice, Q, &[1, 0, 3, 0, 2, 0]), Ok(7));
    assert_eq!(verify(&twice, Q, &[1, 0, 2, 0, 2, 0]), Ok(3));
    assert_eq!(verify(&twice, Q, &[1, 0, 3, 0, 3, 0]), Ok(5));
    assert_eq!(verify(&twice, Q, &[1, 0, 2, 0]), refused(11, 3));
}

#[test]
fn parts_come_in_chain_order() {
    // The chain 1, 3, 4; cell 2 begins another one, 2, 3, 4.
    let chains = table(
        &[
            [1, 1, 4, 1, 0, 0],
            [1, 1, 4, 2, 0, 0],
            [2, 1, 1, 4, 0, 0],
            [2, 2, 1, 4, 0, 0],
            [2, 3, 1, 4, 0, 0],
            [2, 4, 1, 4, 0, 0],
        ],
        &[[2, 4, 3], [2, 3, 3], [2, 2, 4], [2, 1, 0]],
        &[],
        &[],
    );
    assert_eq!(verify(&chains, Q, &[1, 0, 6, 0, 4, 0, 3, 0]), Ok(45));
    assert_eq!(verify(&chains, Q, &[2, 0, 5, 0, 4, 0, 3, 0]), Ok(30));
    let swapped = [1, 0, 4, 0, 6, 0, 3, 0];
    assert_eq!(verify(&chains, Q, &swapped), refused(12, 2));
}

#[test]
fn the_used_set_reaches_the_twentieth_credential() {
    let mut credentials = vec![[2, 2, 1, 4, 0, 0]; 19];
    credentials.push([1, 1, 2, 2, 2, 0]);
    let twenty = table(&credentials, &[], &[], &[]);
    assert_eq!(verify(&twenty, Q, &[20, 0, 1, 0]), Ok(524_288 + 1));
    assert_eq!(verify(&twenty, Q, &[20, 0, 19, 0]), Ok(524_288 + 262_144));
}

#[test]
fn positions_exceed_16_bits() {
    let (table, query) = (wide::records(9).numbers(), wide::query(9));
    let record = wide::record(9);
    assert_eq!(record.len(), NODE * 87_381);
    assert_eq!(verify(&table, query, &record), Ok(511));
    let less = Query { depth: 8, ..query };
    assert_eq!(verify(&table, less, &record), refused(13, 9));
    let mut damaged = record.clone();
    damaged[NODE * 87_380] = 1;
    assert_eq!(verify(&table, query, &damaged), refused(12, 87_381));
    damaged.truncate(NODE * 87_380 + 1);
    assert_eq!(verify(&table, query, &damaged), refused(11, 87_381));
    let longer = [record, vec![0]].concat();
    assert_eq!(verify(&table, query, &longer), refused(11, 87_382));
}

#[test]
fn a_record_of_more_than_a_million_nodes() {
    let mut records = wide::records(11);
    // No word has the eleventh role anywhere but at its end.
    records.automata.push([1, 2, 0]);
    records.edges.push([1, 0, 3, 1, 11, 0]);
    records.edges.push([1, 0, 1, 1, 11, 1]);
    records.credentials[10][5] = 1;
    let (table, record) = (records.numbers(), wide::record(11));
    assert_eq!(wide::nodes(11), 1_398_101);
    assert_eq!(record.len(), NODE * 1_398_101);
    assert_eq!(verify(&table, wide::query(11), &record), Ok(2047));
}

#[test]
fn the_words_of_the_shop() {
    let table = Table::read(&T).expect("T is accepted");
    let asked = Q.read().expect("Q is valid");
    let of = |record: &[Number]| words(&Derivation::read(&table, asked, record).expect("right"));
    // No principal and no linked role is in them, and the middle's branch
    // begins at the goal.
    let [discount, student, accredited] = [role(1, 1), role(2, 2), role(1, 3)];
    assert_eq!(of(&R), [[discount, accredited], [discount, student]]);
    assert_eq!(of(&[4, 0]), [[discount]]);
}

#[test]
fn the_goals_role_is_read() {
    // Automaton 1 accepts the one word Shop.discount.
    let one = shop(4, [1, 2], &[[1, 0, 1, 1, 1, 1]]);
    assert_eq!(verify(&one, Q, &[4, 0]), Ok(8));
    let other = shop(4, [1, 2], &[[1, 0, 1, 1, 3, 1]]);
    assert_eq!(verify(&other, Q, &[4, 0]), refused(14, 1));
}

#[test]
fn an_automaton_without_edges_rejects_every_word() {
    for sets in [[0, 0], [1, 1], [65535, 65535]] {
        let none = shop(4, sets, &[]);
        assert_eq!(verify(&none, Q, &[4, 0]), refused(14, 1));
    }
}

#[test]
fn the_branch_of_a_middle_keeps_its_prefix() {
    // Shop.discount, then any one role.
    let two = shop(1, [1, 4], &[[1, 0, 1, 1, 1, 1], [1, 1, 2, 0, 0, 2]]);
    assert_eq!(verify(&two, Q, &R), Ok(7));
    // Shop.accredited, then nothing: the middle's branch by itself.
    let alone = shop(1, [1, 2], &[[1, 0, 1, 1, 3, 1]]);
    assert_eq!(verify(&alone, Q, &R), refused(14, 1));
}

#[test]
fn label_3_matches_where_owner_or_name_differs() {
    for (owner, name, verdict) in [
        (1, 1, refused(14, 1)),
        (1, 2, Ok(8)),
        (2, 1, Ok(8)),
        (2, 2, Ok(8)),
    ] {
        let but = shop(4, [1, 2], &[[1, 0, 3, owner, name, 1]]);
        assert_eq!(verify(&but, Q, &[4, 0]), verdict, "{owner}.{name}");
    }
}

#[test]
fn label_1_matches_where_owner_and_name_are_the_same() {
    for (owner, name, verdict) in [
        (1, 1, Ok(8)),
        (1, 2, refused(14, 1)),
        (2, 1, refused(14, 1)),
        (2, 2, refused(14, 1)),
    ] {
        let exactly = shop(4, [1, 2], &[[1, 0, 1, owner, name, 1]]);
        assert_eq!(verify(&exactly, Q, &[4, 0]), verdict, "{owner}.{name}");
    }
}

#[test]
fn label_4_matches_every_name_of_its_owner_and_no_other_role() {
    let roles = [
        (1, 1),
        (1, 2),
        (1, 64),
        (2, 1),
        (2, 64),
        (64, 1),
        (64, 2),
        (64, 64),
    ];
    // Principal 4 is in each of them, under automaton 1.
    let members = roles.map(|(owner, name)| [owner, name, 1, 4, 0, 1]);
    for (owner, matched) in [(1, 1..=3), (2, 4..=5), (3, 0..=0), (64, 6..=8)] {
        let own = table(&members, &[], &[[1, 2]], &[[1, 0, 4, owner, 0, 1]]);
        for (number, (of, name)) in (1..).zip(roles) {
            let query = Query::from_numbers([4, of, name, 1]);
            let verdict = match matched.contains(&number) {
                true => Ok(1 << (number - 1)),
                false => refused(14, 1),
            };
            let own = verify(&own, query, &[number, 0]);
            assert_eq!(own, verdict, "owner {owner}, role {of}.{name}");
        }
    }
}

#[test]
fn an_automaton_may_want_nothing_but_an_owner_s_roles() {
    // The words of R: discount, accredited, both Shop's; discount, student.
    let [shop_s, school_s] = [1, 2].map(|owner| [1, 0, 4, owner, 0, 0]);
    for (edges, verdict) in [
        (vec![shop_s], refused(14, 1)),
        (vec![school_s], refused(14, 1)),
        (vec![shop_s, school_s], Ok(7)),
        (vec![school_s, shop_s], Ok(7)),
        (vec![shop_s, [1, 0, 1, 2, 2, 0]], Ok(7)),
        (vec![shop_s, [1, 0, 1, 2, 1, 0]], refused(14, 1)),
        (vec![school_s, [1, 0, 3, 1, 3, 0]], refused(14, 1)),
    ] {
        assert_eq!(
            verify(&shop(1, [1, 1], &edges), Q, &R),
            verdict,
            "{edges:?}"
        );
    }
    assert_eq!(verify(&shop(4, [1, 1], &[shop_s]), Q, &[4, 0]), Ok(8));
    // From one state by Shop's roles to 2, by School's to 3.
    let parted = [[1, 0, 4, 1, 0, 1], [1, 1, 4, 1, 0, 2], [1, 1, 4, 2, 0, 3]];
    for (accepting, verdict) in [
        (4, refused(14, 1)),
        (8, refused(14, 1)),
        (4 + 8, Ok(7)),
        (1 + 2, refused(14, 1)),
    ] {
        assert_eq!(verify(&shop(1, [1, accepting], &parted), Q, &R), verdict);
    }
}

#[test]
fn nodes_come_before_an_automaton_that_is_dead() {
    // The automaton wants nothing but School's roles: it is dead from the goal
    // on. Only the record that does not use it is accepted.
    for credential in 1..=3 {
        let dead = shop(credential, [1, 1], &[[1, 0, 4, 2, 0, 0]]);
        assert_eq!(verify(&dead, Q, &R), refused(14, 1));
        assert_eq!(verify(&dead, Q, &[1, 2]), refused(11, 2));
        assert_eq!(verify(&dead, Q, &[1, 2, 2, 0, 3]), refused(11, 3));
        assert_eq!(verify(&dead, Q, &[1, 2, 9, 0]), refused(12, 2));
        assert_eq!(verify(&dead, Q, &[1, 2, 2, 0, 3, 1]), refused(12, 3));
        assert_eq!(verify(&dead, depth(1), &R), refused(13, 2));
        assert_eq!(verify(&dead, Q, &[&R[..], &[0]].concat()), refused(11, 4));
        assert_eq!(verify(&dead, Q, &[4, 0]), Ok(8));
    }
    let unused = shop(4, [1, 1], &[[1, 0, 4, 2, 0, 0]]);
    assert_eq!(verify(&unused, Q, &R), Ok(7));
}

/// Attaches these automata to the first three credentials.
fn attach(records: &mut Records, automata: [Number; 3]) {
    for (credential, automaton) in records.credentials.iter_mut().zip(automata) {
        credential[5] = automaton;
    }
}

#[test]
fn a_lower_automaton_comes_before_one_that_is_dead_earlier() {
    // Automaton 2 is dead from the goal on, 1 only at the last node.
    let mut records = Records::read(&T).expect("T is accepted");
    records.automata.extend([[1, 1, 0], [1, 1, 0]]);
    records.edges.push([2, 0, 4, 2, 0, 0]);
    records.edges.push([1, 0, 4, 1, 0, 0]);
    for (attached, verdict) in [
        ([2, 1, 0], refused(14, 1)),
        ([0, 2, 1], refused(14, 1)),
        ([2, 0, 0], refused(14, 2)),
    ] {
        attach(&mut records, attached);
        assert_eq!(verify(&records.numbers(), Q, &R), verdict, "{attached:?}");
    }
}

#[test]
fn only_its_own_edges_move_an_automaton() {
    let mut records = Records::read(&T).expect("T is accepted");
    records.credentials[3][5] = 1;
    records.automata.extend([[1, 2, 0], [1, 2, 0]]);
    records.edges.push([2, 0, 2, 0, 0, 1]);
    assert_eq!(verify(&records.numbers(), Q, &[4, 0]), refused(14, 1));
    records.credentials[3][5] = 2;
    assert_eq!(verify(&records.numbers(), Q, &[4, 0]), Ok(8));
}

#[test]
fn every_role_takes_one_edge() {
    // Both words of R have two roles: neither one nor three edges will do.
    let edges = [[1, 0, 2, 0, 0, 1], [1, 1, 2, 0, 0, 2], [1, 2, 2, 0, 0, 3]];
    for (state, verdict) in [
        (0, refused(14, 1)),
        (1, refused(14, 1)),
        (2, Ok(7)),
        (3, refused(14, 1)),
    ] {
        let counting = shop(1, [1, 1 << state], &edges);
        assert_eq!(verify(&counting, Q, &R), verdict, "state {state}");
    }
}

#[test]
fn an_automaton_is_in_all_the_states_that_it_can_reach() {
    // From state 0 the goal's role leads to 1 and to 2; only 1 goes on.
    let edges = [[1, 0, 2, 0, 0, 1], [1, 0, 2, 0, 0, 2], [1, 1, 2, 0, 0, 15]];
    assert_eq!(verify(&shop(1, [1, 32768], &edges), Q, &R), Ok(7));
    assert_eq!(verify(&shop(4, [1, 2], &edges), Q, &[4, 0]), Ok(8));
    assert_eq!(verify(&shop(4, [1, 4], &edges), Q, &[4, 0]), Ok(8));
    // State 1 is left behind, and 2 leads nowhere.
    assert_eq!(verify(&shop(1, [1, 6], &edges), Q, &R), refused(14, 1));
    // Several starting states, of which one is enough.
    assert_eq!(verify(&shop(4, [3, 32768], &edges), Q, &[4, 0]), Ok(8));
}

#[test]
fn the_lowest_rejecting_automaton_is_named() {
    // The word discount, accredited is rejected by automaton 2, the word
    // discount, student by automaton 1; 3 rejects both.
    let mut records = Records::read(&T).expect("T is accepted");
    records.automata.extend([[1, 1, 0], [1, 1, 0], [1, 0, 0]]);
    records.edges.push([1, 0, 3, 2, 2, 0]);
    records.edges.push([2, 0, 3, 1, 3, 0]);
    for (attached, verdict) in [
        ([0, 0, 0], Ok(7)),
        ([1, 2, 3], refused(14, 1)),
        ([3, 2, 1], refused(14, 1)),
        ([2, 0, 3], refused(14, 2)),
        ([3, 3, 2], refused(14, 2)),
        ([0, 3, 0], refused(14, 3)),
    ] {
        attach(&mut records, attached);
        assert_eq!(verify(&records.numbers(), Q, &R), verdict, "{attached:?}");
    }
}

#[test]
fn the_eighth_automaton_counts_like_the_others() {
    let mut records = Records::read(&T).expect("T is accepted");
    records.automata.extend([[1, 1, 0]; 8]);
    records.credentials[3][5] = 8;
    assert_eq!(verify(&records.numbers(), Q, &[4, 0]), refused(14, 8));
    records.edges.push([8, 0, 2, 0, 0, 0]);
    assert_eq!(verify(&records.numbers(), Q, &[4, 0]), Ok(8));
}

#[test]
fn an_automaton_that_accepts_nothing_keeps_its_credential_out() {
    let edges = [[1, 0, 2, 0, 0, 0]];
    for sets in [[0, 65535], [1, 0], [2, 1]] {
        assert_eq!(verify(&shop(4, sets, &edges), Q, &[4, 0]), refused(14, 1));
        assert_eq!(verify(&shop(4, sets, &edges), Q, &R), Ok(7));
        for credential in [1, 2, 3] {
            let out = shop(credential, sets, &edges);
            assert_eq!(verify(&out, Q, &R), refused(14, 1));
            assert_eq!(verify(&out, Q, &[4, 0]), Ok(8));
        }
    }
}

#[test]
fn misread_an_automaton_starts_at_its_own_credential() {
    // U's automaton, started at School.student, would accept.
    let table = Table::read(&U).expect("U is accepted");
    assert!(accepts(&table, 1, &[role(2, 2)]));
    assert!(!accepts(&table, 1, &[role(1, 1), role(2, 2)]));
    assert_eq!(verify(&U, Q, &R), refused(14, 1));
    // One that wants Shop.discount first would reject.
    let first = shop(3, [1, 2], &[[1, 0, 1, 1, 1, 1], [1, 1, 2, 0, 0, 1]]);
    assert_eq!(verify(&first, Q, &R), Ok(7));
}

#[test]
fn misread_only_words_through_the_constrained_credential() {
    // The automaton of one branch rejects the word of the other.
    let no_student = shop(2, [1, 1], &[[1, 0, 3, 2, 2, 0]]);
    assert_eq!(verify(&no_student, Q, &R), refused(14, 1));
    let not_accredited = shop(3, [1, 1], &[[1, 0, 3, 1, 3, 0]]);
    assert_eq!(verify(&not_accredited, Q, &R), refused(14, 1));
}

#[test]
fn misread_automata_of_credentials_that_the_record_does_not_use() {
    // U's automaton rejects the word Shop.discount, but is not used here.
    assert_eq!(verify(&U, Q, &[4, 0]), Ok(8));
}

#[test]
fn misread_minimal_as_fewest() {
    // Both are accepted: the one with three credentials, the one with one.
    assert_eq!(verify(&T, Q, &R), Ok(7));
    assert_eq!(verify(&T, Q, &[4, 0]), Ok(8));
}
