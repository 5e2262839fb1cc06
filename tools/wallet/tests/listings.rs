//! The listing program and the checker give the same answers, and the words for
//! them have all that they should. `tools/build.sh program` builds the program, as
//! the gate does before.

mod common;
mod tool;

use std::collections::BTreeSet;

use bwlchareg::Number;
use common::{made_up, marked, nameless, query};
use reference::generate::{crossed, wallets};
use reference::random::Random;
use tool::{run_program, PROGRAM};
use wallet::answer::{listed, Answer};
use wallet::explain::{explain, COLUMNS};
use wallet::parse::parse;
use wallet::print::print;
use wallet::table::{Body, Mark, Role};
use wallet::words::{accepts, run as run_of};
use wallet::{program, Wallet};

/// Compares both ways; tells the answer.
fn compare(wallet: &Wallet) -> Answer {
    let query = wallet.query.expect("a query");
    let text = print(wallet);
    let wallet = parse(text.as_bytes()).expect("a printed text");
    let input = program::input(query, &wallet.table.numbers());
    let output = run_program(PROGRAM, &[], &input).text();
    let answer = listed(&wallet, query);
    assert_eq!(answer.difference(&output), None, "{text}");
    assert_words(&explain(&wallet, query, &answer), &wallet, &answer);
    answer
}

/// The words have each set, and each of its credentials with its line.
fn assert_words(words: &str, wallet: &Wallet, answer: &Answer) {
    let Answer::Sets(sets) = answer else {
        assert!(words.starts_with("refused "), "{words}");
        assert_eq!(words.lines().count(), 1);
        return;
    };
    let blocks: Vec<&str> = words.split("\n\n").skip(1).collect();
    assert_eq!(blocks.len(), sets.len());
    for (block, set) in blocks.iter().zip(sets) {
        let mut lines = block.lines();
        assert_eq!(lines.next(), Some(format!("set {set}").as_str()));
        for (index, credential) in wallet.table.credentials.iter().enumerate() {
            if set & (1 << index) == 0 {
                continue;
            }
            let line = lines.next().expect("a credential").trim_start();
            let text = wallet.names.credential(&wallet.table, credential);
            assert!(
                line.starts_with(&format!("{}  {text}  ", index + 1)),
                "{line}"
            );
            let place = wallet.lines.credentials[index];
            assert!(line.ends_with(&format!("  line {place}")), "{line}");
        }
        let rows: Vec<&str> = lines.collect();
        let meets = rows.iter().position(|row| row.starts_with("  meets "));
        let (shown, met) = rows.split_at(meets.unwrap_or(rows.len()));
        assert_shown(shown, wallet, *set);
        assert_met(met, wallet, *set);
    }
}

/// The rows have each constraint of a set's credentials for which one word is
/// enough, with a word that it accepts.
fn assert_met(rows: &[&str], wallet: &Wallet, set: u32) {
    let (table, names) = (&wallet.table, &wallet.names);
    let numbered = table.credentials.iter().enumerate();
    let used = numbered.filter(|(index, _)| set & (1 << index) != 0);
    let automata: BTreeSet<Number> = used.map(|(_, credential)| credential.automaton).collect();
    let lenient = automata.into_iter().filter(|&number| {
        let own = table.automaton(number);
        own.is_some_and(|own| own.mark == Mark::SomeWord)
    });
    let mut rows = rows.iter().peekable();
    for automaton in lenient {
        let before = format!("  meets {} by ", names.constraint(automaton));
        let first = rows.next().expect("a row for each constraint");
        let mut word = first.strip_prefix(&before).expect("its word").to_string();
        while let Some(more) = rows.next_if(|row| row.starts_with("   ")) {
            assert!(word.ends_with(','));
            word = format!("{word} {}", more.trim_start());
        }
        let roles: Vec<Role> = word.split(", ").map(|name| role(wallet, name)).collect();
        let reached = run_of(table, automaton, &roles).last().copied();
        assert!(accepts(table, automaton, reached.unwrap_or(0)), "{word}");
    }
    assert_eq!(rows.next(), None);
}

/// The role with these names.
fn role(wallet: &Wallet, text: &str) -> Role {
    let all = (1..=64).flat_map(|owner| (1..=64).map(move |name| Role { owner, name }));
    let mut all = all.filter(|role| wallet.names.role(*role) == text);
    all.next().unwrap_or_else(|| panic!("no role {text}"))
}

/// The rows have the members that a set's credentials of kind 1 name, each
/// once; they are not too long, and none could have the next one's first.
fn assert_shown(rows: &[&str], wallet: &Wallet, set: u32) {
    let mut shown: Vec<String> = Vec::new();
    for (index, credential) in wallet.table.credentials.iter().enumerate() {
        if let (Body::Member(member), true) = (credential.body, set & (1 << index) != 0) {
            let goal = wallet.names.goal(member, credential.role);
            if !shown.contains(&goal) {
                shown.push(goal);
            }
        }
    }
    let (first, further) = ("  shows ", "        ");
    let before = std::iter::once(first).chain(std::iter::repeat(further));
    let bare: Vec<&str> = rows
        .iter()
        .zip(before)
        .map(|(row, before)| row.strip_prefix(before).expect("what stands before a row"))
        .collect();
    assert_eq!(bare.join(" "), shown.join(", "), "{rows:?}");
    for (row, next) in rows.iter().zip(&rows[1..]) {
        let next = next.trim_start().split(", ").next().unwrap_or_default();
        let next = next.trim_end_matches(',');
        assert!(row.len() <= COLUMNS && row.ends_with(','), "{rows:?}");
        assert!(row.len() + " ,".len() + next.len() > COLUMNS, "{rows:?}");
    }
    let last = rows.last().expect("what it shows");
    assert!(last.len() <= COLUMNS, "{last}");
}

/// Names that are long enough for more than one row of what a set shows.
fn give_long_names(wallet: &mut Wallet) {
    for number in 1..=64 {
        let (principal, role) = (format!("Principal-{number}"), format!("role-name-{number}"));
        wallet.names.principals.insert(number, principal);
        wallet.names.roles.insert(number, role);
    }
}

#[test]
fn wallets_with_lists() {
    let mut random = Random::new(2020);
    let (mut several, mut wrapped, mut met) = (0, 0, 0);
    for round in 0..200 {
        let grown = match round % 2 {
            0 => wallets::made_up(&mut random),
            _ => crossed::made_up(&mut random),
        };
        let numbers = marked(&mut random, grown.records.numbers());
        let mut wallet = nameless(&numbers, Some(query(grown.query)));
        give_long_names(&mut wallet);
        let answer = compare(&wallet);
        let words = explain(&wallet, wallet.query.expect("a query"), &answer);
        wrapped += usize::from(words.contains(",\n"));
        met += usize::from(words.contains("\n  meets "));
        several += usize::from(matches!(answer, Answer::Sets(sets) if sets.len() > 1));
    }
    let counts = [several, wrapped, met];
    assert!(counts.iter().all(|count| *count > 30), "{counts:?}");
}

#[test]
fn tables_as_they_come() {
    let mut random = Random::new(2021);
    for _ in 0..100 {
        let (numbers, query) = made_up(&mut random);
        compare(&nameless(&numbers, Some(query)));
    }
}
