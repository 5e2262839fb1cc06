//! Queries, in a wallet's text and apart from it: both are in the words that
//! other lines of the wallet have, and whatever is wrong is told with its column.

mod common;

use bwlchareg::Query;
use common::{made_up, nameless};
use reference::random::Random;
use wallet::parse::{parse, query};
use wallet::print::print;
use wallet::Wallet;

/// Has numbers that are given and others that are not. Only the lines of numbers
/// name Eve and seen.
const TEXT: &str = "principals Shop = 3, Eve = 4\nnames student = 2, seen = 3\n\
    Shop.discount <- School.student\nSchool.student <- Ann\n";

fn wallet(text: &str) -> Wallet {
    parse(text.as_bytes()).expect("a wallet")
}

/// The mistake of a query about a wallet, after its column.
fn told(wallet: &Wallet, text: impl AsRef<[u8]>) -> String {
    let mistake = query(wallet, text.as_ref()).expect_err("a mistake");
    assert_eq!(mistake.line, 1, "{mistake}");
    format!("{}: {}", mistake.column, mistake.message)
}

/// The mistake of the same query as the last line of a text.
fn told_on_a_line(text: &str, query: &str) -> String {
    let mistake = parse(format!("{text}{query}").as_bytes()).expect_err("a mistake");
    assert_eq!(mistake.line, text.lines().count() + 1, "{mistake}");
    format!("{}: {}", mistake.column, mistake.message)
}

/// The lines of some cases, each a query, and ` :: ` before its mistake.
fn cases(text: &str) -> impl Iterator<Item = (&str, &str)> {
    let lines = text.lines().skip(1).map(str::trim_start);
    lines.map(|line| line.split_once(" :: ").expect("a mistake"))
}

#[test]
fn queries_in_the_words_of_the_wallet() {
    for (text, [principal, owner, name, depth]) in [
        ("Ann in Shop.discount within 2", [2, 3, 1, 2]),
        ("Shop in School.student within 16", [3, 1, 2, 16]),
        ("Ann in Ann.discount within 1", [2, 2, 1, 1]),
        ("Eve in Shop.seen within 4", [4, 3, 3, 4]),
        (" \tAnn in Shop . discount within 2 # please", [2, 3, 1, 2]),
    ] {
        let expected = Query {
            principal,
            owner,
            name,
            depth,
        };
        assert_eq!(
            query(&wallet(TEXT), text.as_bytes()),
            Ok(expected),
            "{text}"
        );
        let own = wallet(&format!("{TEXT}{text}"));
        assert_eq!(own.query, Some(expected), "{text}");
    }
}

#[test]
fn names_that_the_wallet_does_not_have() {
    // The nearest names come first, and of several mistakes the first is told.
    let unknown = "
        ann in Shop.seen within 2 :: 1: `ann` is not a principal of the wallet; write one of its principals: `Ann`, `Eve`, `Shop`, `School`
        Ann in Shops.seen within 2 :: 8: `Shops` is not a principal of the wallet; write one of its principals: `Shop`, `School`, `Ann`, `Eve`
        Ann in Shop.discounts within 2 :: 13: `discounts` is not a role name of the wallet; write one of its role names: `discount`, `student`, `seen`
        Eva in Shops.x within 2 :: 1: `Eva` is not a principal of the wallet; write one of its principals: `Eve`, `Ann`, `Shop`, `School`";
    for (text, expected) in cases(unknown) {
        assert_eq!(told(&wallet(TEXT), text), expected);
        assert_eq!(told_on_a_line(TEXT, text), expected);
    }
    let of_the_other_sort = "
        student in Shop.seen within 2 :: 1: `student` is a role name of the wallet, not a principal; write one of its principals: `Ann`, `Eve`, `School`, `Shop`
        Ann in seen.seen within 2 :: 8: `seen` is a role name of the wallet, not a principal; write one of its principals: `Ann`, `Eve`, `Shop`, `School`
        Ann in Shop.School within 2 :: 13: `School` is a principal of the wallet, not a role name; write one of its role names: `seen`, `discount`, `student`";
    for (text, expected) in cases(of_the_other_sort) {
        assert_eq!(told(&wallet(TEXT), text), expected);
    }
    let alike = told(&wallet("A.r <- Cafe\u{301}"), "Caf\u{e9} in A.r within 1");
    let words = "looks like another name of the wallet, but has other characters";
    assert_eq!(
        alike,
        format!("1: `Caf\u{e9}` {words}; copy one of them over the other")
    );
}

#[test]
fn long_lists_of_names_are_shortened() {
    let nine: String = (1..=9).map(|n| format!("A.r <- B{n}\n")).collect();
    let nine = told(&wallet(&nine), "B in A.r within 1");
    let offered = "write one of its principals: `A`, `B1`, `B2`, `B3`, `B4`, `B5`, `B6`, `B7`, ...";
    assert_eq!(
        nine,
        format!("1: `B` is not a principal of the wallet; {offered}")
    );
    let none = "1: `B` is not a principal of the wallet; \
        add credentials to the wallet first: it has no principals";
    assert_eq!(told(&wallet(""), "B in A.r within 1"), none);
}

#[test]
fn what_is_no_query() {
    let wrong = r"
        # Ann :: 1: expected a principal, but the query ends; QUERY
        Ann :: 4: expected `in`, but the query ends; QUERY
        Ann in Shop :: 12: expected `.`, but the query ends; QUERY
        Ann in Shop.seen :: 17: expected `within`, but the query ends; QUERY
        Ann in Shop.seen within :: 24: expected a depth, but the query ends; QUERY
        Shop.seen <- Ann :: 5: expected `in`, found `.`; QUERY
        Ann within 2 :: 5: expected `in`, found `within`; QUERY
        Ann in Shop.seen within two :: 25: expected a depth, found `two`; QUERY
        Ann in Shop.seen within 0 :: 25: `0` is out of range for a depth; write a number from 1 to 16
        Ann in Shop.seen within 17 :: 25: `17` is out of range for a depth; write a number from 1 to 16
        Ann in Shop.seen within 2 3 :: 27: unexpected `3`; QUERY
        names in Shop.seen within 2 :: 1: `names` is a reserved word and cannot be a principal; write another word
        Ann in Shop.seen\nwithin 2 :: 17: U+000A is not a plain space; write a space";
    for (text, expected) in cases(wrong) {
        let expected = expected.replace("QUERY", "write a query like `D in A.r within 2`");
        assert_eq!(told(&wallet(TEXT), text.replace("\\n", "\n")), expected);
    }
    assert!(told(&wallet(TEXT), "").starts_with("1: expected a principal, but "));
    let byte = "4: the byte 0xE9 is not UTF-8; write the text as UTF-8";
    assert_eq!(told(&wallet(TEXT), b"Ren\xe9 in Shop.seen within 2"), byte);
}

/// A wallet from a text that gives no numbers, or gives all; with a query's
/// line or without.
fn made_up_wallet(random: &mut Random) -> Wallet {
    let (numbers, query) = made_up(random);
    let text = print(&nameless(&numbers, Some(query)));
    let (given, own) = (random.one_in(2), random.one_in(2));
    let kept = |own: bool| {
        let lines = text.lines().filter(|line| {
            let numbers = line.starts_with("principals ") || line.starts_with("names ");
            (given || !numbers) && (own || !line.contains(" within "))
        });
        lines.map(|line| format!("{line}\n")).collect::<String>()
    };
    // The query may name what no other line has.
    parse(kept(own).as_bytes()).unwrap_or_else(|_| wallet(&kept(false)))
}

/// The words of a made-up query about a wallet, if it has names for one.
fn made_up_words(random: &mut Random, wallet: &Wallet) -> Option<[String; 4]> {
    let principals: Vec<&String> = wallet.names.principals.values().collect();
    let names: Vec<&String> = wallet.names.roles.values().collect();
    if principals.is_empty() || names.is_empty() {
        return None;
    }
    let depth = random.between(1, 16).to_string();
    let (principal, owner) = (random.pick(&principals), random.pick(&principals));
    let words = [*principal, *owner, *random.pick(&names), &depth];
    Some(words.map(String::clone))
}

fn joined([principal, owner, name, depth]: &[String; 4]) -> String {
    format!("{principal} in {owner}.{name} within {depth}")
}

/// The text of a wallet without its query; it gives all numbers.
fn unasked(wallet: &Wallet) -> String {
    print(&Wallet {
        query: None,
        ..wallet.clone()
    })
}

#[test]
fn a_query_comes_back_and_is_that_of_the_line() {
    let mut random = Random::new(31);
    let mut compared = 0;
    for _ in 0..1000 {
        let wallet = made_up_wallet(&mut random);
        let Some(words) = made_up_words(&mut random, &wallet) else {
            continue;
        };
        let words = joined(&words);
        let asked = query(&wallet, words.as_bytes()).expect("a query");
        assert_eq!(wallet.names.query(asked), words);
        let numbers = wallet.table.numbers();
        assert_eq!(bwlchareg::check_query(&numbers, asked), Ok(()));
        let text = format!("{}{words}\n", unasked(&wallet));
        let own = parse(text.as_bytes()).expect("a wallet with this query");
        assert_eq!(
            (own.query, own.table),
            (Some(asked), wallet.table),
            "{text}"
        );
        compared += 1;
    }
    assert!(compared > 800, "{compared}");
}

#[test]
fn a_word_of_another_wallet_is_told_where_it_stands() {
    let mut random = Random::new(32);
    for _ in 0..1000 {
        let wallet = made_up_wallet(&mut random);
        let Some(mut words) = made_up_words(&mut random, &wallet) else {
            continue;
        };
        let wrong = random.below(3);
        // A word that nothing has, or one of the other sort.
        let unknown = random.one_in(2);
        words[wrong] = match (unknown, wrong) {
            (true, _) => "nobody-has-this".to_string(),
            (false, 2) => words[0].clone(),
            (false, _) => words[2].clone(),
        };
        let text = joined(&words);
        let before = match wrong {
            0 => 0,
            1 => words[0].len() + " in ".len(),
            _ => words[0].len() + " in ".len() + words[1].len() + ".".len(),
        };
        let told = told(&wallet, &text);
        let place = format!("{}: `{}` is ", before + 1, words[wrong]);
        assert!(
            told.starts_with(&place) && told.contains("; write one of its "),
            "{told}"
        );
        if unknown {
            assert_eq!(told_on_a_line(&unasked(&wallet), &text), told);
        }
    }
}

#[test]
fn anything_may_be_given_as_a_query() {
    let pieces = "Ann Shop discount student in within names . 2 17 # <- - é 99999999999999999999";
    let pieces: Vec<&str> = pieces.split(' ').chain(["\n", " ", " "]).collect();
    let wallet = wallet(TEXT);
    let mut random = Random::new(33);
    let mut right = 0;
    for round in 0..20_000 {
        let mut text = b"Ann in Shop.discount within 2".to_vec();
        match round % 3 {
            0 => text = (0..random.below(40)).map(|_| random.bits() as u8).collect(),
            1 => {
                let chosen = (0..random.below(9)).flat_map(|_| random.pick(&pieces).bytes());
                text = chosen.collect();
            }
            _ => {
                let place = random.below(text.len());
                let by = random.pick(&pieces).bytes();
                text.splice(place..place + random.below(2), by);
            }
        }
        match query(&wallet, &text) {
            Ok(asked) => {
                right += 1;
                let numbers = wallet.table.numbers();
                assert_eq!(bwlchareg::check_query(&numbers, asked), Ok(()));
            }
            Err(mistake) => {
                assert_eq!(mistake.line, 1);
                assert!((1..=text.len() + 1).contains(&mistake.column), "{mistake}");
                assert!(mistake.message.contains("; "), "{mistake}");
            }
        }
    }
    assert!(right > 200, "{right}");
}
