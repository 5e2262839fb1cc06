//! Answers worked out by hand, each refusal with its number and position.

use reference::records::Records;
use reference::shop::{Q, T, U};
use reference::{check, check_query, Number, Query, Refusal};

/// A table with two credentials of kind 4, six cells (two chains, one of them
/// inside the other, and two unused cells), an automaton and an edge for each
/// label.
fn parts() -> Records {
    Records {
        credentials: vec![
            [1, 1, 4, 1, 0, 0], // credential 1: the chain 1, 2, 4, 5
            [1, 2, 4, 4, 0, 1], // credential 2: the chain 4, 5
            [2, 1, 2, 3, 1, 0], // credential 3
        ],
        cells: vec![
            [2, 1, 2],   // cell 1
            [2, 1, 4],   // cell 2: the same role again
            [9, 9, 0],   // cell 3: unused
            [64, 64, 5], // cell 4
            [3, 1, 0],   // cell 5
            [5, 5, 0],   // cell 6: unused
        ],
        automata: vec![[0, 65535, 0]],
        edges: vec![
            [1, 0, 1, 1, 1, 15],  // edge 1
            [1, 15, 2, 0, 0, 0],  // edge 2
            [1, 3, 3, 64, 64, 3], // edge 3
            [1, 15, 4, 2, 0, 15], // edge 4
        ],
    }
}

/// Another number for a field of a record of the table above. Records count
/// from 1, fields from 0.
#[derive(Clone, Copy)]
enum Change {
    Credential(usize, usize, Number),
    Cell(usize, usize, Number),
    Edge(usize, usize, Number),
}
use Change::{Cell, Credential, Edge};

/// The answer to the table above with these changes.
fn changed(changes: &[Change]) -> Result<(), Refusal> {
    let mut records = parts();
    for &change in changes {
        match change {
            Credential(number, field, value) => records.credentials[number - 1][field] = value,
            Cell(number, field, value) => records.cells[number - 1][field] = value,
            Edge(number, field, value) => records.edges[number - 1][field] = value,
        }
    }
    check(&records.numbers())
}

fn refused(number: u32, position: u64) -> Result<(), Refusal> {
    Err(Refusal { number, position })
}

#[test]
fn the_shop_is_accepted() {
    assert_eq!(check(&T), Ok(()));
    assert_eq!(check(&U), Ok(()));
    assert_eq!(check_query(&T, Q), Ok(()));
    assert_eq!(check_query(&U, Q), Ok(()));
}

#[test]
fn a_table_with_parts_is_accepted() {
    assert_eq!(check(&parts().numbers()), Ok(()));
}

#[test]
fn a_table_of_nothing_is_accepted() {
    assert_eq!(check(&[0, 0, 0, 0]), Ok(()));
}

#[test]
fn refusal_1_fewer_than_four_numbers() {
    assert_eq!(check(&[]), refused(1, 0));
    assert_eq!(check(&[4]), refused(1, 0));
    assert_eq!(check(&[4, 0]), refused(1, 0));
    assert_eq!(check(&[65535, 65535, 65535]), refused(1, 0));
}

#[test]
fn refusal_2_a_head_count_over_its_limit() {
    assert_eq!(check(&[21, 0, 0, 0]), refused(2, 0));
    assert_eq!(check(&[0, 64, 0, 0]), refused(2, 0));
    assert_eq!(check(&[0, 0, 9, 0]), refused(2, 0));
    assert_eq!(check(&[0, 0, 0, 129]), refused(2, 0));
    // 129 edges of the one automaton, all of them right.
    let mut records = parts();
    records.edges = vec![[1, 0, 2, 0, 0, 0]; 129];
    assert_eq!(check(&records.numbers()), refused(2, 0));
}

#[test]
fn refusal_3_a_wrong_length() {
    assert_eq!(check(&T[..T.len() - 1]), refused(3, 0));
    assert_eq!(check(&[T.as_slice(), &[0]].concat()), refused(3, 0));
    assert_eq!(check(&[20, 63, 8, 128]), refused(3, 0));
    assert_eq!(check(&[0, 0, 0, 0, 0]), refused(3, 0));
}

#[test]
fn refusal_4_owner_name_kind_and_automaton() {
    assert_eq!(changed(&[Credential(1, 0, 0)]), refused(4, 1));
    assert_eq!(changed(&[Credential(2, 0, 65)]), refused(4, 2));
    assert_eq!(changed(&[Credential(3, 1, 0)]), refused(4, 3));
    assert_eq!(changed(&[Credential(3, 1, 64)]), Ok(()));
    assert_eq!(changed(&[Credential(3, 2, 0)]), refused(4, 3));
    assert_eq!(changed(&[Credential(3, 2, 5)]), refused(4, 3));
    assert_eq!(changed(&[Credential(3, 5, 1)]), Ok(()));
    assert_eq!(changed(&[Credential(3, 5, 2)]), refused(4, 3));
}

#[test]
fn refusal_4_first_and_second_by_kind() {
    for (kind, first, second, answer) in [
        (1, 64, 0, Ok(())),
        (1, 0, 0, refused(4, 3)),
        (1, 65, 0, refused(4, 3)),
        (1, 1, 1, refused(4, 3)),
        (2, 64, 64, Ok(())),
        (2, 0, 1, refused(4, 3)),
        (2, 1, 0, refused(4, 3)),
        (2, 1, 65, refused(4, 3)),
        (3, 64, 64, Ok(())),
        (3, 0, 1, refused(4, 3)),
        (3, 65, 1, refused(4, 3)),
        (3, 1, 0, refused(4, 3)),
        (4, 2, 0, Ok(())),
        (4, 2, 1, refused(4, 3)),
        (4, 0, 0, refused(4, 3)),
        (4, 7, 0, refused(4, 3)),
        (4, 6, 0, refused(6, 3)),
    ] {
        let changes = [(2, kind), (3, first), (4, second)];
        let changes = changes.map(|(field, value)| Credential(3, field, value));
        assert_eq!(changed(&changes), answer, "kind {kind}, {first}, {second}");
    }
}

#[test]
fn refusal_4_a_chain_where_there_are_no_cells() {
    assert_eq!(check(&[1, 0, 0, 0, 1, 1, 4, 0, 0, 0]), refused(4, 1));
    assert_eq!(check(&[1, 0, 0, 0, 1, 1, 4, 1, 0, 0]), refused(4, 1));
}

#[test]
fn refusal_5_part_cells() {
    assert_eq!(changed(&[Cell(1, 0, 0)]), refused(5, 1));
    assert_eq!(changed(&[Cell(4, 0, 65)]), refused(5, 4));
    assert_eq!(changed(&[Cell(5, 1, 0)]), refused(5, 5));
    assert_eq!(changed(&[Cell(6, 1, 65)]), refused(5, 6));
    assert_eq!(changed(&[Cell(3, 2, 3)]), refused(5, 3));
    assert_eq!(changed(&[Cell(3, 2, 2)]), refused(5, 3));
    assert_eq!(changed(&[Cell(3, 2, 6)]), Ok(()));
    assert_eq!(changed(&[Cell(3, 2, 7)]), refused(5, 3));
    assert_eq!(changed(&[Cell(6, 2, 6)]), refused(5, 6));
}

#[test]
fn refusal_6_chains() {
    // The chain 1, 2, 4, 5, 6 has five cells; 4, 5, 6 is right.
    assert_eq!(changed(&[Cell(5, 2, 6)]), refused(6, 1));
    // 2, 4, 5, 6 is right too.
    let both = [Cell(5, 2, 6), Credential(1, 3, 2)];
    assert_eq!(changed(&both), Ok(()));
    // The chain 5 has one cell, and so has 4 once it ends there.
    assert_eq!(changed(&[Credential(2, 3, 5)]), refused(6, 2));
    assert_eq!(changed(&[Cell(4, 2, 0)]), refused(6, 2));
}

#[test]
fn refusal_7_edges() {
    assert_eq!(changed(&[Edge(1, 0, 0)]), refused(7, 1));
    assert_eq!(changed(&[Edge(2, 0, 2)]), refused(7, 2));
    assert_eq!(changed(&[Edge(2, 1, 16)]), refused(7, 2));
    assert_eq!(changed(&[Edge(3, 5, 16)]), refused(7, 3));
    assert_eq!(changed(&[Edge(3, 2, 0)]), refused(7, 3));
    assert_eq!(changed(&[Edge(3, 2, 5)]), refused(7, 3));
    assert_eq!(changed(&[Edge(3, 2, 2)]), refused(7, 3));
    assert_eq!(changed(&[Edge(1, 3, 0)]), refused(7, 1));
    assert_eq!(changed(&[Edge(1, 4, 65)]), refused(7, 1));
    assert_eq!(changed(&[Edge(2, 3, 1)]), refused(7, 2));
    assert_eq!(changed(&[Edge(2, 4, 1)]), refused(7, 2));
    assert_eq!(changed(&[Edge(3, 3, 65)]), refused(7, 3));
    assert_eq!(changed(&[Edge(3, 4, 0)]), refused(7, 3));
    assert_eq!(changed(&[Edge(1, 2, 3)]), Ok(()));
}

/// The answer if edge 4 has this label, owner and name.
fn labelled(label: Number, owner: Number, name: Number) -> Result<(), Refusal> {
    changed(&[Edge(4, 2, label), Edge(4, 3, owner), Edge(4, 4, name)])
}

#[test]
fn refusal_7_label_4_has_an_owner_and_no_name() {
    for owner in [1, 2, 63, 64] {
        assert_eq!(labelled(4, owner, 0), Ok(()), "owner {owner}");
        for name in [1, owner, 64, 65, 256, 65535] {
            let answer = labelled(4, owner, name);
            assert_eq!(answer, refused(7, 4), "owner {owner}, name {name}");
        }
    }
    for owner in [0, 65, 66, 256, 257, 65535] {
        assert_eq!(labelled(4, owner, 0), refused(7, 4), "owner {owner}");
        // The two in each other's place, and neither as it should be.
        assert_eq!(labelled(4, owner, 1), refused(7, 4), "owner {owner}");
    }
}

#[test]
fn refusal_7_no_other_label_has_an_owner_and_no_name() {
    for label in [0, 1, 2, 3, 5, 6, 260, 65535] {
        assert_eq!(labelled(label, 2, 0), refused(7, 4), "label {label}");
    }
    // What the other labels have is not what label 4 has.
    assert_eq!(changed(&[Edge(1, 2, 4)]), refused(7, 1));
    assert_eq!(changed(&[Edge(2, 2, 4)]), refused(7, 2));
    assert_eq!(changed(&[Edge(3, 2, 4)]), refused(7, 3));
    for label in [0, 5, 65535] {
        assert_eq!(labelled(label, 0, 0), refused(7, 4), "label {label}");
        assert_eq!(labelled(label, 2, 2), refused(7, 4), "label {label}");
    }
}

#[test]
fn refusal_7_the_first_edge_whatever_its_label() {
    let (name, owner) = (Edge(4, 4, 1), Edge(4, 3, 0));
    assert_eq!(changed(&[name, Edge(1, 0, 0)]), refused(7, 1));
    assert_eq!(changed(&[owner, Edge(2, 3, 1)]), refused(7, 2));
    assert_eq!(changed(&[name, owner, Edge(3, 5, 16)]), refused(7, 3));
    // Label 4 at an edge with a role, before edges that are wrong in other ways.
    let others = [Edge(2, 0, 0), Edge(3, 1, 16), Edge(4, 2, 5), owner];
    for own in [Edge(1, 2, 4), Edge(1, 4, 0)] {
        let all = [&[own], &others[..]].concat();
        assert_eq!(changed(&all), refused(7, 1));
    }
    // Edge 1 has label 4 as it should be, and is passed.
    let passed = [Edge(1, 2, 4), Edge(1, 4, 0)];
    assert_eq!(changed(&passed), Ok(()));
    assert_eq!(changed(&[&passed[..], &others].concat()), refused(7, 2));
    // An edge with label 4 has the other fields too.
    for other in [Edge(4, 0, 0), Edge(4, 0, 2), Edge(4, 1, 16), Edge(4, 5, 16)] {
        assert_eq!(changed(&[other]), refused(7, 4));
    }
}

#[test]
fn refusal_8_the_first_wrong_field_of_the_query() {
    for (numbers, answer) in [
        ([64, 64, 64, 16], Ok(())),
        ([1, 1, 1, 1], Ok(())),
        ([0, 1, 1, 2], refused(8, 1)),
        ([65, 1, 1, 2], refused(8, 1)),
        ([4, 0, 1, 2], refused(8, 2)),
        ([4, 65, 1, 2], refused(8, 2)),
        ([4, 1, 0, 2], refused(8, 3)),
        ([4, 1, 65, 2], refused(8, 3)),
        ([4, 1, 1, 0], refused(8, 4)),
        ([4, 1, 1, 17], refused(8, 4)),
        ([4, 65535, 0, 0], refused(8, 2)),
    ] {
        let query = Query::from_numbers(numbers);
        assert_eq!(check_query(&T, query), answer, "{numbers:?}");
    }
}

#[test]
fn rows_come_before_records() {
    let (four, five) = (Credential(3, 0, 0), Cell(1, 0, 0));
    let (six, seven) = (Credential(1, 3, 5), Edge(1, 0, 0));
    assert_eq!(changed(&[four, five, six, seven]), refused(4, 3));
    assert_eq!(changed(&[five, six, seven]), refused(5, 1));
    assert_eq!(changed(&[six, seven]), refused(6, 1));
    assert_eq!(changed(&[Edge(3, 0, 0), seven]), refused(7, 1));
    for seven in [Edge(4, 3, 65), Edge(4, 4, 64)] {
        assert_eq!(changed(&[four, seven]), refused(4, 3));
        assert_eq!(changed(&[five, seven]), refused(5, 1));
        assert_eq!(changed(&[six, seven]), refused(6, 1));
    }
}

#[test]
fn the_table_is_checked_before_the_query() {
    let query = Query { depth: 0, ..Q };
    assert_eq!(check_query(&T[..T.len() - 1], query), refused(3, 0));
    assert_eq!(check_query(&[], query), refused(1, 0));
    assert_eq!(check_query(&T, query), refused(8, 4));
    // Label 4, right and wrong.
    let mut records = parts();
    assert_eq!(check_query(&records.numbers(), query), refused(8, 4));
    for (field, value) in [(3, 0), (3, 65), (4, 1)] {
        records.edges = parts().edges;
        records.edges[3][field] = value;
        assert_eq!(check_query(&records.numbers(), query), refused(7, 4));
    }
}
