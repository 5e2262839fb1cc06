//! The examples, and small texts, by hand: the numbers that they stand for.

use bwlchareg::Number;
use wallet::parse::parse;
use wallet::print::print;
use wallet::program;
use wallet::Wallet;

const SHOP: &str = include_str!("../../../examples/shop.wallet");
const CONSTRAINED: &str = include_str!("../../../examples/shop-constrained.wallet");

fn read(text: &str) -> Wallet {
    parse(text.as_bytes()).unwrap_or_else(|mistake| panic!("{mistake}"))
}

/// A text without its comment lines.
fn bare(text: &str) -> String {
    let lines = text.lines().filter(|line| !line.starts_with('#'));
    lines.map(|line| format!("{line}\n")).collect()
}

#[test]
fn the_shop_is_table_t() {
    let wallet = read(SHOP);
    assert_eq!(wallet.table.numbers(), reference::shop::T);
    let query = wallet.query.expect("a query");
    assert_eq!(program::input(query, &[])[..], [4, 0, 1, 0, 1, 0, 2, 0]);
    assert_eq!(print(&wallet), bare(SHOP));
}

#[test]
fn the_constrained_shop_is_table_u() {
    let wallet = read(CONSTRAINED);
    assert_eq!(wallet.table.numbers(), reference::shop::U);
    let query = wallet.query.expect("a query");
    assert_eq!(program::input(query, &[])[..], [4, 0, 1, 0, 1, 0, 2, 0]);
    assert_eq!(print(&wallet), bare(CONSTRAINED));
}

#[test]
fn lines_are_counted() {
    let lines = read(CONSTRAINED).lines;
    assert_eq!(lines.credentials, [5, 6, 7, 8]);
    assert_eq!(lines.cells, []);
    assert_eq!(lines.automata, [10]);
    assert_eq!(lines.edges, [13, 14]);
    assert_eq!(lines.query, Some(16));
    let text = "cell 1 = A.r then 2\n\nA.r <- A.s & A.t\ncell 2 = A.r\n";
    assert_eq!(read(text).lines.cells, [1, 4, 3, 3]);
}

#[test]
fn words_without_a_number_get_the_least_that_is_free() {
    let wallet = read("C.r <- B.s\nprincipals A = 1, B = 3\nA.t <- D\nnames s = 1");
    let number = |word: &str| {
        let both = wallet.names.principals.iter().chain(&wallet.names.roles);
        let found: Vec<Number> = both
            .filter(|(_, name)| *name == word)
            .map(|(n, _)| *n)
            .collect();
        found
    };
    assert_eq!(number("A"), [1]);
    assert_eq!(number("C"), [2]);
    assert_eq!(number("B"), [3]);
    assert_eq!(number("D"), [4]);
    assert_eq!(number("s"), [1]);
    assert_eq!(number("r"), [2]);
    assert_eq!(number("t"), [3]);
    let credentials = [[2, 2, 2, 3, 1, 0], [1, 3, 1, 4, 0, 0]];
    assert_eq!(wallet.table.numbers()[4..], credentials.concat());
}

#[test]
fn all_roles_of_an_owner_are_label_4() {
    let text = "\
principals A = 1, B = 2, C = 3
names r = 1

A.r <- B

constraint c
  start 0
  accept 0
  0 -- any of C --> 0
  0 -- any --> 1
  0 -- any of A --> 2

B in A.r within 1
";
    let wallet = read(text);
    let edges = [[1, 0, 4, 3, 0, 0], [1, 0, 2, 0, 0, 1], [1, 0, 4, 1, 0, 2]];
    let numbers = wallet.table.numbers();
    assert_eq!(numbers[numbers.len() - 18..], edges.concat());
    // An owner whom nothing else names comes back, and has a place in the order
    // of the names where no line gives it a number.
    assert_eq!(print(&wallet), text);
    let (_, unnumbered) = text.split_once("\n\n").expect("a blank line");
    assert_eq!(print(&read(unnumbered)), text);
}

#[test]
fn states_that_are_words_get_the_least_that_is_not_named() {
    let text = "constraint c\naccept b 1\nsome word\nstart a\n a -- any --> b\n b -- any --> z\n\
                constraint d\n x -- any --> a\nedges of c\n 3 -- any --> y\n";
    let wallet = read(text);
    // b, a, z, y around 1 and 3: 0, 2, 4, 5; x and a are 0 and 1.
    let automata = [1 << 2, 1 << 0 | 1 << 1, 1, 0, 0, 0];
    let edges = [
        [1, 2, 2, 0, 0, 0],
        [1, 0, 2, 0, 0, 4],
        [2, 0, 2, 0, 0, 1],
        [1, 3, 2, 0, 0, 5],
    ];
    let expected = [vec![0, 0, 2, 4], automata.to_vec(), edges.concat()].concat();
    assert_eq!(wallet.table.numbers(), expected);
    assert_eq!(wallet.names.state(1, 2), "a");
    assert_eq!(wallet.names.state(1, 3), "3");
    assert_eq!(wallet.names.state(2, 1), "a");
    // `accept` stood first, and must, for the words to have these numbers.
    let expected =
        "constraint c\n  some word\n  accept b 1\n  start a\n  a -- any --> b\n  b -- any --> z\n\
                    \nconstraint d\n  x -- any --> a\n\nedges of c\n  3 -- any --> y\n";
    assert_eq!(print(&wallet), expected);
}

#[test]
fn cells_are_shared_and_own() {
    let text = "A.r <- A.s & A.t & A.s\nA.r <- A.s & A.t at cell 2 under c\n\
                cell 1 = A.r\ncell 2 = A.s then 3\ncell 3 = A.t\nconstraint c\n";
    let wallet = read(text);
    let expected = [
        vec![2, 6, 1, 0],
        vec![1, 1, 4, 4, 0, 0, 1, 1, 4, 2, 0, 1],
        vec![1, 1, 0, 1, 2, 3, 1, 3, 0],
        vec![1, 2, 5, 1, 3, 6, 1, 2, 0],
        vec![0, 0, 0],
    ];
    assert_eq!(wallet.table.numbers(), expected.concat());
    let expected = "principals A = 1\nnames r = 1, s = 2, t = 3\n\n\
                    cell 1 = A.r\ncell 2 = A.s then 3\ncell 3 = A.t\n\n\
                    A.r <- A.s & A.t & A.s\nA.r <- A.s & A.t at cell 2 under c\n\n\
                    constraint c\n";
    assert_eq!(print(&wallet), expected);
}

#[test]
fn spaces_comments_and_line_ends_say_nothing() {
    let wallet = read(CONSTRAINED);
    let same = |text: &str| assert_eq!(read(text), wallet, "{text}");
    same(&CONSTRAINED.replace('\n', "\r\n"));
    same(&CONSTRAINED.replace('\n', " # a.b <- c\n"));
    same(&CONSTRAINED.replace(' ', "\t  "));
    same(&CONSTRAINED.replace("  ", ""));
    same(&CONSTRAINED.replace('.', " . ").replace(',', " ,"));
    same(
        &CONSTRAINED
            .replace(" <- ", "<-")
            .replace(" -- ", "--")
            .replace(" --> ", "-->"),
    );
    same(&CONSTRAINED.replace(", ", ",").replace(" = ", "="));
    same(&format!("\u{FEFF}{CONSTRAINED}"));
    same(CONSTRAINED.trim_end());
    // A blank line or a comment does not end a constraint.
    let wider = CONSTRAINED.replace("  1 --", "\n # the rest\n  1 --");
    assert_eq!(read(&wider).table, wallet.table);
}

#[test]
fn words_of_any_script() {
    let wallet = read("T\u{177}.aelod-1_a <- \u{5e9}\u{5dc}\u{5d5}\u{5dd}\nA.r <- A");
    assert_eq!(wallet.names.principal(1), "T\u{177}");
    assert_eq!(wallet.names.role_name(1), "aelod-1_a");
    assert_eq!(wallet.names.principal(2), "\u{5e9}\u{5dc}\u{5d5}\u{5dd}");
}

#[test]
fn an_empty_text_is_an_empty_wallet() {
    for text in ["", "\n", " \t\n# nothing\n", "\u{FEFF}", "\r\n"] {
        let wallet = read(text);
        assert_eq!(wallet, Wallet::default(), "{text:?}");
        assert_eq!(wallet.table.numbers(), [0, 0, 0, 0]);
    }
}

#[test]
fn the_document_shows_the_example() {
    let document = include_str!("../../../docs/WALLET.md");
    let indented = |line: &str| match line {
        "" => "\n".to_string(),
        line => format!("    {line}\n"),
    };
    let example: String = bare(CONSTRAINED).lines().map(indented).collect();
    assert!(document.contains(&example), "{example}");
}
