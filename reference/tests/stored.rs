//! The test program `crates/rows` has the stored cases, and they are worth
//! storing: every answer, kind, label, mark and size of buffer is among them.

use std::collections::BTreeSet;

use reference::blocks::{self, LISTS, UNLISTED, UNTOUCHED};
use reference::records::Records;
use reference::stored::{cases, Case, Given};
use reference::table::{Label, Table};
use reference::{check, list, Number};

const STDOUT: &str = include_str!("../../crates/rows/stdout");

/// The numbers of a line.
fn numbers(line: &str) -> Vec<u32> {
    let number = |word: &str| word.parse().expect("a number");
    line.split(' ').map(number).collect()
}

/// The lines that the program prints for each case, the same line of several
/// lists once, and then those of the writings.
fn printed() -> Vec<Vec<&'static str>> {
    let mut all = STDOUT.lines();
    let mut of_case = |case: &Case| {
        let count = blocks::lines(case).lines().count();
        let mut lines: Vec<&str> = all.by_ref().take(count).collect();
        if let Given::Cells(_) = case.given {
            let lists: Vec<&str> = lines.drain(1..LISTS).collect();
            assert!(lists.iter().all(|&line| line == lines[0]), "{case:?}");
        }
        lines
    };
    cases().iter().map(&mut of_case).collect()
}

/// The numbers of the first line that the program prints for each case.
fn lines() -> Vec<Vec<u32>> {
    printed().iter().map(|lines| numbers(lines[0])).collect()
}

/// The numbers of the lines of all writings, by case.
fn writings() -> Vec<Vec<Vec<u32>>> {
    let printed = printed();
    let behind = printed.iter().map(|lines| &lines[1..]);
    behind
        .map(|lines| lines.iter().map(|line| numbers(line)).collect())
        .collect()
}

#[test]
fn the_test_program_has_these_cases() {
    let stdin = include_bytes!("../../crates/rows/stdin");
    assert!(
        blocks::input(&cases()) == stdin,
        "make crates/rows/stdin anew"
    );
    assert!(
        blocks::output(&cases()) == STDOUT,
        "make crates/rows/stdout anew"
    );
}

#[test]
fn the_first_lines_are_the_shop_example() {
    let answers: Vec<_> = lines().iter().map(|line| (line[0], line[1])).collect();
    let lists = [(0, 2), (0, 1), (0, 1), (0, 1), (10, 0), (9, 0)];
    let verdicts = [(0, 7), (14, 1), (13, 2), (11, 3), (12, 2)];
    assert_eq!(answers[..6], lists);
    assert_eq!(answers[6..11], verdicts);
    assert_eq!(answers[11..15], [(8, 4); 4]);
    assert_eq!(STDOUT.lines().next(), Some("0 2 7 8 2863311530"));
}

#[test]
fn the_first_writings_are_the_shop_s() {
    let expected = [
        format!("0 6 1 2 2 0 3 0{}", " 43690".repeat(12 - 6)),
        format!("16 0{}", " 43690".repeat(5)),
        format!("0 2 4 0{}", " 43690".repeat(12 - 2)),
        "15 0 43690".to_string(),
        "15 0 43690".to_string(),
    ];
    assert_eq!(printed()[0][1..], expected);
}

#[test]
fn every_answer_is_among_them() {
    let told: BTreeSet<u32> = lines().iter().map(|line| line[0]).collect();
    assert_eq!(told, (0..=14).chain([17]).collect());
    let lines = writings().concat();
    let told: BTreeSet<u32> = lines.iter().map(|line| line[0]).collect();
    assert_eq!(told, (0..=8).chain(15..=17).collect());
}

/// The whole list of a case; there may be none.
fn listed(case: &Case) -> Vec<u32> {
    let mut cells = vec![0; 64];
    let count = list(&case.table, case.query, &mut cells);
    cells.truncate(count.unwrap_or(0));
    cells
}

#[test]
fn records_are_written_for_listed_sets_alone() {
    let answers = lines().into_iter().zip(writings());
    for (case, (line, writings)) in cases().iter().zip(answers) {
        let Given::Cells(_) = case.given else {
            assert_eq!(writings.len(), 0, "{case:?}");
            continue;
        };
        let (sets, asked) = (listed(case), blocks::writings(&line[2..]));
        assert_eq!(writings.len(), asked.len(), "{case:?}");
        for (written, (set, cells)) in writings.iter().zip(asked) {
            let is_written = [0, 16].contains(&written[0]);
            assert_eq!(is_written, sets.contains(&set), "{case:?}, set {set}");
            assert_eq!(written.len(), 2 + cells);
        }
        assert!(!UNLISTED.iter().any(|set| sets.contains(set)), "{case:?}");
    }
}

/// The answers to the cases of the wallet with label 4 where it is accepted, in
/// their order.
#[test]
fn label_4_is_judged_as_it_should_be() {
    let mut told = Vec::new();
    for (case, line) in cases().iter().zip(lines()) {
        let table = Table::read(&case.table);
        let mut edges = table.iter().flat_map(|table| &table.edges);
        let has_4 = edges.any(|edge| matches!(edge.label, Label::OwnedBy(_)));
        if has_4 && case.query.principal == 9 {
            told.push(line);
        }
    }
    let lists = [
        vec![0, 1, 71, UNTOUCHED],
        vec![0, 2, 63, 71],
        vec![9, 0, UNTOUCHED],
    ];
    assert_eq!(told[..3], lists);
    let verdicts = [
        [14, 2],
        [0, 63],
        [0, 71],
        [14, 2],
        [11, 4],
        [12, 4],
        [13, 3],
    ];
    assert_eq!(told[3..], verdicts);
}

/// The answers to the cases of the club, in their order.
#[test]
fn a_role_comes_again_on_a_branch() {
    let mut told = Vec::new();
    for (case, lines) in cases().iter().zip(printed()) {
        if case.query.principal == 6 {
            told.push(lines);
        }
    }
    let lists: Vec<&str> = told[..2].iter().map(|lines| lines[0]).collect();
    assert_eq!(lists, ["0 2 23 25", &format!("0 1 25 {UNTOUCHED}")]);
    let written = format!("0 10 1 5 1 4 2 0 3 0 5 0{}", " 43690".repeat(2));
    assert_eq!(told[0][1], written);
    let written = format!("0 6 1 5 4 0 5 0{}", " 43690".repeat(6));
    assert_eq!([told[0][3], told[1][1]], [&written, &written]);
    let verdicts = ["0 23", "14 1", "13 3", "13 3", "13 2"].map(|line| vec![line]);
    assert_eq!(told[2..], verdicts);
}

/// The answers to the cases under automata that share edges, in their order.
#[test]
fn edges_count_for_their_own_automaton() {
    let mut told = Vec::new();
    for (case, lines) in cases().iter().zip(printed()) {
        if case.query.principal == 7 {
            told.push(lines[0]);
        }
    }
    let second_alone = format!("0 1 26 {UNTOUCHED}");
    let lists = ["0 2 85 170", "0 2 21 26", &second_alone];
    assert_eq!(told[..3], lists);
    assert_eq!(told[3..], ["0 170", "14 1"]);
}

/// The answers to the last cases, which are those by mark.
#[test]
fn marks_are_judged_as_they_should_be() {
    let printed = printed();
    let told: Vec<&str> = printed.iter().map(|lines| lines[0]).collect();
    let (before, told) = told.split_at(told.len() - 16);
    assert_eq!(before.last(), Some(&"14 1"));
    let one = |set: u32| format!("0 1 {set} {UNTOUCHED}");
    let lists = [format!("{} {UNTOUCHED}", one(8)), one(31), one(29)];
    assert_eq!(told[..3], lists);
    assert_eq!(told[3..5], ["0 2 63 71".into(), one(71)]);
    let refused = ["17 2", "17 1", "17 1", "7 3", "17 1"];
    let numbers = told[5..10].iter().map(|line| numbers(line));
    let numbers: Vec<String> = numbers.map(|n| format!("{} {}", n[0], n[1])).collect();
    assert_eq!(numbers, refused);
    assert_eq!(told[10..], ["0 63", "14 2", "14 2", "14 1", "0 71", "14 1"]);
}

#[test]
fn first_records_have_the_demanded_words() {
    let printed = printed();
    let by_mark = &printed[printed.len() - 16..];
    let room = " 43690".repeat(2);
    assert_eq!(by_mark[1][1], format!("0 10 1 0 2 0 4 0 3 0 5 0{room}"));
    assert_eq!(by_mark[2][1], format!("0 10 1 0 3 0 3 0 4 0 5 0{room}"));
}

/// The case without the edge with this index.
fn without(case: &Case, index: usize) -> Case {
    let mut records = Records::read(&case.table).expect("an accepted table");
    records.edges.remove(index);
    let table = records.numbers();
    Case {
        table,
        ..case.clone()
    }
}

#[test]
fn lists_hang_on_single_edges() {
    let cases = cases().into_iter();
    let cases: Vec<Case> = cases.filter(|case| case.query.principal == 7).collect();
    let edges = cases[0].table[3] as usize;
    assert_eq!(listed(&without(&cases[0], edges - 1)), [85]);
    // The two edges on one role to one state.
    assert_eq!(listed(&without(&cases[1], 3)), [26]);
    assert_eq!(listed(&without(&cases[1], 4)), [21]);
    // An edge that both automata have: the second needs its own.
    assert_eq!(listed(&without(&cases[2], 2)), []);
    assert_eq!(listed(&without(&cases[2], 0)), [26]);
}

#[test]
fn every_kind_label_and_mark_is_among_them() {
    let tables = cases().into_iter().map(|case| case.table);
    let accepted = tables.filter(|table| check(table).is_ok());
    let records: Vec<Records> = accepted.flat_map(|table| Records::read(&table)).collect();
    let credentials = records.iter().flat_map(|records| &records.credentials);
    let kinds: BTreeSet<Number> = credentials.map(|credential| credential[2]).collect();
    let edges = records.iter().flat_map(|records| &records.edges);
    let labels: BTreeSet<Number> = edges.map(|edge| edge[2]).collect();
    let automata = records.iter().flat_map(|records| &records.automata);
    let marks: BTreeSet<Number> = automata.map(|automaton| automaton[2]).collect();
    assert_eq!(kinds, (1..=4).collect());
    assert_eq!(labels, (1..=4).collect());
    assert_eq!(marks, (0..=1).collect());
}

/// No cell, too few, just enough and more, by the answer's number, the number of
/// cells, and the count or position.
#[test]
fn every_size_of_buffer_is_among_them() {
    let mut sizes = BTreeSet::new();
    for (case, line) in cases().iter().zip(lines()) {
        if let Given::Cells(cells) = case.given {
            sizes.insert((line[0], cells, line[1] as usize));
        }
    }
    let refused = [(9, 0, 0), (9, 3, 0), (10, 0, 0), (10, 1, 0)];
    let listed = [(0, 1, 1), (0, 3, 1), (0, 2, 2), (0, 4, 2)];
    for size in [refused, listed].concat() {
        assert!(sizes.contains(&size), "{size:?}: {sizes:?}");
    }
}
