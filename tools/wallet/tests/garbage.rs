//! Anything may be given as a text: it is read, or its mistake is told at a
//! place that it has; and what is read, the checker accepts. The same holds of
//! a record's text, which the checker then judges.

mod common;

use common::{assert_same, made_up, nameless};
use reference::random::Random;
use wallet::derivation::judge;
use wallet::mistake::Mistake;
use wallet::parse::{parse, record};
use wallet::print::print;
use wallet::proof::numbers;
use wallet::tokens::RESERVED;
use wallet::tree::text;

/// Reads bytes as a text, and tells whether there was no mistake.
fn read(bytes: &[u8]) -> bool {
    match parse(bytes) {
        Ok(wallet) => {
            let numbers = wallet.table.numbers();
            let accepted = match wallet.query {
                Some(query) => bwlchareg::check_query(&numbers, query),
                None => bwlchareg::check(&numbers),
            };
            assert_eq!(accepted, Ok(()), "{:?}", String::from_utf8_lossy(bytes));
            let text = print(&wallet);
            let again = parse(text.as_bytes()).expect("a printed text");
            assert_same(&again, &wallet, &text);
            true
        }
        Err(mistake) => {
            assert_placed(&mistake, bytes);
            false
        }
    }
}

/// A mistake is at a place that the text has, and says what to write instead.
fn assert_placed(mistake: &Mistake, bytes: &[u8]) {
    let lines: Vec<&[u8]> = bytes.split(|byte| *byte == b'\n').collect();
    let line = lines.get(mistake.line.wrapping_sub(1));
    let line = line.unwrap_or_else(|| panic!("{mistake}"));
    assert!((1..=line.len() + 1).contains(&mistake.column), "{mistake}");
    assert!(mistake.message.contains("; "), "{mistake}");
}

/// Reads texts of fewer than so many pieces, some of which are right.
fn assert_often_right(
    mut random: Random,
    texts: usize,
    most: usize,
    pieces: &[&str],
    between: &str,
    read: fn(&[u8]) -> bool,
) {
    let mut right = 0;
    for _ in 0..texts {
        let count = random.below(most);
        let chosen: Vec<&str> = (0..count).map(|_| *random.pick(pieces)).collect();
        right += usize::from(read(chosen.join(between).as_bytes()));
    }
    assert!(right > 500, "{right}");
}

const SHOP: &[u8] = include_bytes!("../../../examples/shop-constrained.wallet");

/// A text with all kinds of lines.
const CELLS: &str = "cell 1 = A.r then 2\ncell 2 = B.s\nA.r <- A.r & B.s at cell 1 under c\n\
    A.r <- A.r & B.s & C.t\nconstraint c\nstart x 0\nsome word\naccept\nx -- not A.r --> y\n\
    constraint d\nevery word\nedges of c\n0 -- C.t --> 15\n0 -- any of E --> x\n0 -- any --> x\n\
    D in A.r within 16\nprincipals D = 64\n";

#[test]
fn random_bytes() {
    let mut random = Random::new(1);
    for _ in 0..4000 {
        let bytes: Vec<u8> = (0..random.below(80)).map(|_| random.bits() as u8).collect();
        read(&bytes);
        let signs = (0..random.below(40)).map(|_| *random.pick(b"Ab1_-.<>&=:,# \t\n\r"));
        read(&signs.collect::<Vec<u8>>());
    }
}

#[test]
fn random_words_of_the_lines() {
    let others = "A B r s c 0 1 2 16 65 99999999999999999999 . . , = & <- <- -- --> -> \u{2190} # \
        A.r B.s e\u{301} \u{e9} \u{200d} every some word";
    let pieces = [
        "\n",
        "\n",
        "\n",
        "A.r <- ",
        "0 -- any --> 1",
        "0 -- any of A --> 1",
    ];
    let lines = ["constraint c\n", "some word\n", "at cell 1"];
    let words: Vec<&str> = [RESERVED, others]
        .iter()
        .flat_map(|text| text.split(' '))
        .collect();
    let words = [&words[..], &pieces, &lines].concat();
    assert_often_right(Random::new(2), 20_000, 14, &words, " ", read);
}

#[test]
fn random_lines_of_right_texts() {
    let mut lines: Vec<&str> = CELLS.lines().collect();
    lines.extend(std::str::from_utf8(SHOP).expect("text").lines());
    assert_often_right(Random::new(3), 10_000, 12, &lines, "\n", read);
}

#[test]
fn texts_cut_anywhere() {
    for text in [SHOP, CELLS.as_bytes()] {
        assert!(read(text));
        for length in 0..text.len() {
            read(&text[..length]);
            read(&text[length..]);
        }
    }
}

#[test]
fn texts_with_one_character_changed() {
    let others = "aZ09_-.,=&<># \t\n\r\u{e9}\u{301}\u{200d}\u{0}%";
    for text in [std::str::from_utf8(SHOP).expect("text"), CELLS] {
        let characters: Vec<char> = text.chars().collect();
        for place in 0..characters.len() {
            for other in others.chars() {
                let mut changed = characters.clone();
                changed[place] = other;
                read(changed.iter().collect::<String>().as_bytes());
                changed.insert(place, characters[place]);
                read(changed.iter().collect::<String>().as_bytes());
            }
            let mut shorter = characters.clone();
            shorter.remove(place);
            read(shorter.iter().collect::<String>().as_bytes());
        }
    }
}

#[test]
fn printed_texts_with_bytes_changed() {
    let mut random = Random::new(4);
    for _ in 0..3000 {
        let (numbers, query) = made_up(&mut random);
        let mut text = print(&nameless(&numbers, Some(query))).into_bytes();
        for _ in 0..random.between(1, 3) {
            let place = random.below(text.len());
            let (known, any) = (*random.pick(&text), random.bits() as u8);
            text[place] = *random.pick(&[known, any, b'\n', b'0', b' ']);
        }
        read(&text);
    }
}

#[test]
fn very_long_lines_and_texts() {
    let million = 1 << 20;
    for piece in ["A", "9", "\n", ".", "-", "e\u{301}", "\u{301}", "\u{ac01}"] {
        read(piece.repeat(million / piece.len()).as_bytes());
    }
    // Names that are the same up to their last letters.
    let long = "\u{e9}".repeat(million / 140);
    let long: Vec<String> = (0..60)
        .map(|number| format!("{long}-{number}.r <- A\n"))
        .collect();
    read(long.concat().as_bytes());
    read("A.r <- ".repeat(million / 7).as_bytes());
    read(&[b"A.r <- B.s".to_vec(), b" & B.s".repeat(100_000)].concat());
    read(&[b"constraint c\nstart".to_vec(), b" 1".repeat(500_000)].concat());
    read(&[b"principals A = 1".to_vec(), b", A = 1".repeat(100_000)].concat());
    assert!(read("# A.r\n".repeat(150_000).as_bytes()));
}

/// Reads bytes as a record about the shop, and tells whether there was no
/// mistake. What is read is the same in numbers again, and is judged.
fn read_record(bytes: &[u8]) -> bool {
    let shop = parse(SHOP).expect("the example");
    match record(&shop, bytes) {
        Ok(read) => {
            let again = record(&shop, numbers(&read).as_bytes());
            assert_eq!(again.as_ref(), Ok(&read));
            let judged = judge(&shop, shop.query.expect("a query"), &read);
            assert!(text(&shop, &judged).contains("\n\n"));
            true
        }
        Err(mistake) => {
            assert_placed(&mistake, bytes);
            false
        }
    }
}

#[test]
fn random_bytes_as_a_record() {
    let mut random = Random::new(5);
    let mut right = 0;
    for _ in 0..4000 {
        let bytes: Vec<u8> = (0..random.below(40)).map(|_| random.bits() as u8).collect();
        read_record(&bytes);
        let signs = (0..random.below(20)).map(|_| *random.pick(b"0123456789, \t\n\r-A"));
        right += usize::from(read_record(&signs.collect::<Vec<u8>>()));
    }
    assert!(right > 200, "{right}");
}

#[test]
fn random_words_as_a_record() {
    let words = [
        "0", "1", "2", "3", "65535", "65536", "School", "Shop", "Ann", "student", "any", ",", "\n",
        "\u{FEFF}", "\u{e9}",
    ];
    assert_often_right(Random::new(6), 10_000, 8, &words, " ", read_record);
}

#[test]
fn very_long_records() {
    let million = 1 << 20;
    assert!(read_record("1 School ".repeat(million / 8).as_bytes()));
    assert!(read_record("1\n0\n".repeat(million / 4).as_bytes()));
    assert!(!read_record("1".repeat(million).as_bytes()));
    assert!(!read_record(",".repeat(million).as_bytes()));
    assert!(!read_record("Ann ".repeat(million / 4).as_bytes()));
    assert!(read_record("\n".repeat(million).as_bytes()));
}
