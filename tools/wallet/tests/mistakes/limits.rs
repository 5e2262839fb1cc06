//! More than fits: of records, names and states.

use crate::told;
use wallet::parse::parse;

/// What is right with so many lines below some others, and wrong with one more.
fn assert_limit(above: &str, limit: usize, line: impl Fn(usize) -> String, mistake: &str) {
    let text = |count: usize| {
        let lines = (1..=count).map(|number| line(number) + "\n");
        above.to_string() + &lines.collect::<String>()
    };
    let right = parse(text(limit).as_bytes());
    assert!(right.is_ok(), "{right:?}");
    assert_eq!(told(text(limit + 1)), mistake);
}

#[test]
fn more_records_than_fit() {
    let credential = "21:1 this would be the 21st credential; write at most 20";
    assert_limit("", 20, |_| "A.r <- B".to_string(), credential);
    let constraint = "9:2 `c9` would be the 9th constraint; write at most 8";
    assert_limit("", 8, |number| format!(" constraint c{number}"), constraint);
    let edge = "130:1 this would be the 129th edge; write at most 128";
    assert_limit(
        "constraint c\n",
        128,
        |_| "0 -- any --> 1".to_string(),
        edge,
    );
    let cell = "64:6 `64` is out of range for a part cell; write a number from 1 to 63";
    assert_limit("", 63, |number| format!("cell {number} = A.r"), cell);
    // 15 intersections of four have 60 parts.
    let sixty = "A.r <- A.r & A.r & A.r & A.r\n".repeat(15);
    let full = format!("{sixty}A.r <- A.r & A.r & A.r");
    assert!(parse(full.as_bytes()).is_ok());
    let part = "this would be the 64th part; write at most 63";
    assert_eq!(told(format!("{full} & A.r")), format!("16:26 {part}"));
    assert_eq!(
        told(format!("{full}\ncell 1 = A.r")),
        format!("17:1 {part}")
    );
}

#[test]
fn more_names_than_fit() {
    let principal =
        |place: &str| format!("{place} `A65` would be one of 65 principals; write at most 64");
    let name =
        |place: &str| format!("{place} `r65` would be one of 65 role names; write at most 64");
    let given = |number: usize| (number - 1) % 64 + 1;
    let line = |number| format!("principals A{number} = {}", given(number));
    assert_limit("", 64, line, &principal("65:12"));
    let line = |number| format!("names r{number} = {}", given(number));
    assert_limit("", 64, line, &name("65:7"));
    let constraint = "constraint c\n";
    let edge = |number| format!("0 -- A{number}.r{number} --> 1");
    assert_limit(constraint, 64, edge, &principal("66:6"));
    let edge = |number| format!("0 -- any of A{number} --> 1");
    assert_limit(constraint, 64, edge, &principal("66:13"));
    let edge = |number| format!("0 -- not A.r{number} --> 1");
    assert_limit(constraint, 64, edge, &name("66:12"));
}

#[test]
fn more_states_than_fit() {
    let state = |place: &str| {
        format!("{place} would be the 17th state of its constraint; write at most 16")
    };
    let edge = |number| format!(" s0 -- any --> s{number}");
    assert_limit("constraint c\nstart s0\n", 15, edge, &state("18:16 `s16`"));
    // Words take the numbers that are not named, so a number may be the 17th.
    for (states, other) in [
        ("0 1 2 3 4 5 6 7 8 9 10 11 12 13 14 15", "last"),
        ("a b c d e f g h i j k l m n o p", "15"),
    ] {
        let text = format!("constraint c\nstart {states}\n");
        assert!(parse(text.as_bytes()).is_ok());
        let expected = state(&format!("3:8 `{other}`"));
        assert_eq!(told(format!("{text}accept {other}")), expected);
    }
}
