//! The records of listed sets, on made-up wallets: the verifier accepts each
//! with exactly its set, and what is printed can be read again, in numbers and
//! in names.

mod common;

use bwlchareg::{layout, Number, Query, Refusal};
use common::{made_up, marked, nameless, query};
use reference::generate::{crossed, wallets};
use reference::random::Random;
use wallet::answer::{listed, Answer};
use wallet::derivation::judge;
use wallet::parse::{parse, record};
use wallet::print::print;
use wallet::proof::{block, first_record, numbers, refused};
use wallet::tree::text;
use wallet::Wallet;

/// The most sets of one wallet that are looked at.
const SETS: usize = 12;

/// How many records there were, how many of them had a middle, and how many
/// words were enough for a constraint.
#[derive(Default)]
struct Seen {
    records: usize,
    linked: usize,
    met: usize,
}

/// Looks at the listed sets of a wallet, and at a set that is not listed.
fn check(wallet: &Wallet, seen: &mut Seen) {
    let asked = wallet.query.expect("a query");
    // Printed and read again, every principal has a name.
    let wallet = parse(print(wallet).as_bytes()).expect("a printed text");
    let sets = match listed(&wallet, asked) {
        Answer::Sets(sets) => sets,
        Answer::Refused(_) => Vec::new(),
    };
    for &set in sets.iter().take(SETS) {
        check_set(&wallet, asked, set, seen);
    }
    let all = (1u32 << wallet.table.credentials.len()) - 1;
    for other in [0, all, all + 1] {
        if !sets.contains(&other) {
            check_other(&wallet, asked, other, &sets);
        }
    }
}

/// A listed set has a record, which is printed above its tree.
fn check_set(wallet: &Wallet, asked: Query, set: u32, seen: &mut Seen) {
    let first = first_record(wallet, asked, set).expect("a record");
    let judged = judge(wallet, asked, &first);
    assert_eq!(judged.verdict, Ok(set));
    assert_eq!(layout::NODE * judged.nodes.len(), first.len());
    let line = numbers(&first);
    assert_eq!(record(wallet, line.as_bytes()).as_ref(), Ok(&first));
    let (by_name, names) = named(wallet, &first);
    assert_eq!(record(wallet, by_name.as_bytes()).as_ref(), Ok(&first));
    let block = block(wallet, asked, set);
    assert!(!block.refused);
    let head = format!("\nset {set}, by the record\n{line}");
    let tree = block.text.strip_prefix(&head).expect("the record");
    // The tree and the verdict are those of `verify`.
    let shown = text(wallet, &judged);
    let (verdict, above) = last_line(tree);
    assert_eq!(verdict, last_line(&shown).0);
    // Between them are the words that meet constraints for which one is enough.
    let (nodes, met) = match above.find("\nconstraint ") {
        Some(place) => above.split_at(place),
        None => (above, ""),
    };
    for line in met.trim_start().lines() {
        let (_, word) = line.split_once(" is met by word ").expect("a word");
        let (number, roles) = word.split_once(": ").expect("its roles");
        assert!(shown.contains(&format!(" {number}  {roles}\n")), "{shown}");
        seen.met += 1;
    }
    assert!(
        shown.contains(&format!("\n\n{nodes}\n\nwords\n")),
        "{shown}"
    );
    seen.records += 1;
    seen.linked += usize::from(names > 0);
}

/// A text's last line, and what stands above it.
fn last_line(text: &str) -> (&str, &str) {
    let (above, last) = text.trim_end().rsplit_once('\n').expect("two lines");
    (last, above)
}

/// A record with names for its middles, a node on each line; and how many names
/// it has.
fn named(wallet: &Wallet, record: &[Number]) -> (String, usize) {
    let mut names = 0;
    let mut lines = String::new();
    for node in record.chunks(layout::NODE) {
        let middle = match node[1] {
            0 => "0".to_string(),
            middle => {
                names += 1;
                wallet.names.principals[&middle].clone()
            }
        };
        lines += &format!("{}, {middle}\n", node[0]);
    }
    (lines, names)
}

/// A set that is not listed is refused, and listed ones are named.
fn check_other(wallet: &Wallet, asked: Query, set: u32, sets: &[u32]) {
    let refusal = first_record(wallet, asked, set).expect_err("no record");
    let expected = Refusal {
        number: Refusal::NOT_LISTED,
        position: 0,
    };
    assert_eq!(refusal, expected);
    let words = refused(wallet, asked, set, refusal);
    let begins = format!("refused 15: set {set} is not on the list for ");
    assert!(words.starts_with(&begins), "{words}");
    let offered = match sets {
        [] => "which is empty: there is no minimal set".to_string(),
        [only] => format!("which has {only}"),
        [first, second, ..] => format!(" {first}, {second}"),
    };
    assert!(words.contains(&offered), "{words}");
    let block = block(wallet, asked, set);
    assert!(block.refused);
    assert_eq!(block.text, format!("\nset {set}\n{words}\n"));
}

#[test]
fn wallets_with_lists() {
    let mut random = Random::new(2022);
    let mut seen = Seen::default();
    for round in 0..300 {
        let grown = match round % 2 {
            0 => wallets::made_up(&mut random),
            _ => crossed::made_up(&mut random),
        };
        let numbers = marked(&mut random, grown.records.numbers());
        check(&nameless(&numbers, Some(query(grown.query))), &mut seen);
    }
    let counts = [seen.records, 10 * seen.linked, 10 * seen.met];
    assert!(counts.iter().all(|count| *count > 500), "{counts:?}");
}

#[test]
fn tables_as_they_come() {
    let mut random = Random::new(2023);
    let mut seen = Seen::default();
    for _ in 0..300 {
        let (numbers, query) = made_up(&mut random);
        check(&nameless(&numbers, Some(query)), &mut seen);
    }
    assert!(seen.records > 50, "{}", seen.records);
}
