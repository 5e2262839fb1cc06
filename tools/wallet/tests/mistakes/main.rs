//! Every kind of mistake in a wallet's text, with its line, its column and its
//! message. Most stand in `cases.txt`, one on a line: a text, and ` :: ` before
//! the mistake that is told.

mod limits;

use wallet::parse::parse;
use wallet::print::print;
use wallet::table::Mark;
use wallet::tokens::{is_name, RESERVED};

/// The endings of messages that `cases.txt` has by a word.
const ENDINGS: [(&str, &str); 7] = [
    (
        "CREDENTIAL",
        "write a line like `A.r <- D`, `A.r <- B.s`, `A.r <- A.s.t` or `A.r <- B.s & C.t`",
    ),
    (
        "EDGE",
        "write a line like `0 -- A.r --> 1`, `0 -- not A.r --> 1`, `0 -- any --> 1` or \
         `0 -- any of A --> 1`",
    ),
    (
        "CELL",
        "write a line like `cell 1 = B.s then 2` or `cell 2 = C.t`",
    ),
    ("DEMAND", "write a line like `every word` or `some word`"),
    ("QUERY", "write a line like `D in A.r within 2`"),
    ("PRINCIPALS", "write a line like `principals A = 1, B = 2`"),
    (
        "KINDS",
        "write a credential like `A.r <- D`, a query like `D in A.r within 2`, an edge like \
         `0 -- any --> 1`, `every word` or `some word`, or begin with `principals`, `names`, \
         `constraint`, `start`, `accept`, `cell` or `edges`",
    ),
];

/// The mistake of a text, after its line and column: `1:5 wrong; instead`.
pub fn told(text: impl AsRef<[u8]>) -> String {
    let mistake = parse(text.as_ref()).expect_err("a mistake");
    format!("{}:{} {}", mistake.line, mistake.column, mistake.message)
}

/// A text with `\n`, `\r` and `\u{e9}` written out.
fn unescaped(text: &str) -> String {
    let text = text.replace("\\n", "\n").replace("\\r", "\r");
    let mut pieces = text.split("\\u{");
    let mut all = pieces.next().unwrap_or_default().to_string();
    for piece in pieces {
        let (code, rest) = piece.split_once('}').expect("a code");
        let code = u32::from_str_radix(code, 16).expect("a code");
        all.extend(char::from_u32(code));
        all += rest;
    }
    all
}

#[test]
fn cases() {
    let lines = include_str!("cases.txt").lines();
    let cases = lines.filter(|line| !line.is_empty() && !line.starts_with("# "));
    for case in cases {
        let (text, mistake) = case.split_once(" :: ").expect("a text and its mistake");
        let (wrong, ending) = mistake.rsplit_once("; ").expect("what to write instead");
        let full = ENDINGS.iter().find(|(short, _)| *short == ending);
        let ending = full.map_or(ending, |(_, full)| full);
        let expected = unescaped(&format!("{wrong}; {ending}"));
        assert_eq!(told(unescaped(text)), expected, "in {text}");
    }
}

#[test]
fn the_document_says_what_is_told_and_what_names_are() {
    let document = include_str!("../../../../docs/WALLET.md");
    let shop = include_str!("../../../../examples/shop.wallet");
    for (right, wrong) in [
        ("discount within", "discounts within"),
        ("Shop.accredited.student", "School.member.student"),
    ] {
        let mistake = parse(shop.replace(right, wrong).as_bytes()).expect_err("a mistake");
        let told = format!("    wallet: shop.wallet: {mistake}\n");
        assert!(document.contains(&told), "{told}");
    }
    let listed = |before: &str, after: &str| {
        let (_, from) = document.split_once(before).expect("a list");
        let (list, _) = from.split_once(after).expect("a list");
        list.split('`').skip(1).step_by(2).collect::<Vec<&str>>()
    };
    assert_eq!(
        listed("reserved and name nothing:", ". `").join(" "),
        RESERVED
    );
    let names = listed("another\nmark. So", "are names.");
    assert!(
        names.len() == 7 && names.iter().all(|name| is_name(name)),
        "{names:?}"
    );
}

#[test]
fn the_words_for_what_is_demanded_may_be_names() {
    let text = "some.word <- every\nevery.word <- some\nconstraint word\nsome word\n\
        start some every\naccept word\nsome -- any --> word\nevery -- some.word --> every\n\
        some in some.word within 1\n";
    let wallet = parse(text.as_bytes()).unwrap_or_else(|mistake| panic!("{mistake}"));
    assert_eq!(wallet.table.credentials.len(), 2);
    assert_eq!(wallet.table.edges.len(), 2);
    assert_eq!(wallet.table.automata[0].mark, Mark::SomeWord);
    let again = parse(print(&wallet).as_bytes()).expect("a printed text");
    assert_eq!(again.table, wallet.table);
}

#[test]
fn bytes_that_are_not_utf_8() {
    let mistake = "the byte 0xE9 is not UTF-8; write the text as UTF-8";
    assert_eq!(told(b"A.r <- Ren\xe9"), format!("1:11 {mistake}"));
    // Columns count characters, not bytes.
    assert_eq!(told(b"\n#\xc3\xa9\xc3\xa9\xe9"), format!("2:4 {mistake}"));
    // A mistake further up is told first.
    assert!(told(b"?\n\xe9").starts_with("1:1 `?` is not used in wallets; "));
}

#[test]
fn long_words_are_shortened() {
    let told = told(format!("A.r <- B {}", "a".repeat(1000)));
    assert!(told.starts_with(&format!("1:10 unexpected `{}...`; ", "a".repeat(40))));
}
