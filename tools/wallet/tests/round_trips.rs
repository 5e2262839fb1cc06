//! Every accepted table has a text, and that text gives the same numbers
//! again: tables of all shapes, without names and with any names.

mod common;

use std::collections::BTreeMap;

use bwlchareg::Number;
use common::{made_up, nameless};
use reference::random::Random;
use wallet::parse::parse;
use wallet::print::print;
use wallet::program;
use wallet::table::{Automaton, Body, Edge, Label, Mark, Table};
use wallet::Wallet;

const TABLES: usize = 6000;
/// So many of them have names: a table has many names, and its shape says little
/// about them.
const NAMED: usize = 2000;

/// Prints a wallet, reads the text, and compares; tells the text.
fn round_trip(wallet: &Wallet) -> String {
    let text = print(wallet);
    let again = parse(text.as_bytes()).unwrap_or_else(|mistake| panic!("{mistake}\n{text}"));
    assert_eq!(again.table.numbers(), wallet.table.numbers(), "{text}");
    assert_eq!(again.query, wallet.query, "{text}");
    assert_eq!(print(&again), text);
    text
}

#[test]
fn tables_of_all_shapes_without_names() {
    let mut random = Random::new(2015);
    let mut seen = Seen::default();
    for _ in 0..TABLES {
        let (numbers, query) = made_up(&mut random);
        let query = (!random.one_in(8)).then_some(query);
        let wallet = nameless(&numbers, query);
        assert_eq!(wallet.table.numbers(), numbers);
        let text = round_trip(&wallet);
        seen.add(&wallet.table, &text);
    }
    seen.assert_all();
}

#[test]
fn tables_of_all_shapes_with_names() {
    let mut random = Random::new(2016);
    for _ in 0..NAMED {
        let (numbers, query) = made_up(&mut random);
        let mut wallet = nameless(&numbers, Some(query));
        give_names(&mut random, &mut wallet);
        let text = round_trip(&wallet);
        let again = parse(text.as_bytes()).expect("it was read before").names;
        let given = &wallet.names;
        for (given, again) in [
            (&given.principals, &again.principals),
            (&given.roles, &again.roles),
            (&given.constraints, &again.constraints),
        ] {
            let same = |(number, name)| again.get(number) == Some(name);
            assert!(given.iter().all(same), "{text}");
        }
    }
}

#[test]
fn names_that_no_text_can_have_are_replaced() {
    let numbers = reference::shop::U;
    let mut wallet = nameless(&numbers, Some(common::query(reference::shop::Q)));
    for name in [
        "", "in", "a b", "a--b", "7", "a.b", "a\nb", "#", "\u{3164}", "\u{301}e",
    ] {
        wallet.names.principals.insert(1, name.to_string());
        wallet.names.roles.insert(1, name.to_string());
        wallet.names.constraints.insert(1, name.to_string());
        wallet.names.states.insert((1, 0), name.to_string());
        let text = round_trip(&wallet);
        assert!(text.contains("P1.r1 <- P1.r3.r2\n"), "{text}");
        assert!(text.contains("constraint constraint-1\n"), "{text}");
        assert!(text.contains("  0 -- not P1.r1 --> 1\n"), "{text}");
    }
    wallet.names.principals = BTreeMap::from([(1, "a".into()), (2, "a".into()), (65, "b".into())]);
    wallet.names.roles = BTreeMap::from([(1, "a".into()), (0, "c".into())]);
    let text = round_trip(&wallet);
    assert!(text.starts_with("principals a = 1, P2 = 2, P4 = 4\nnames r1 = 1, r2 = 2, r3 = 3\n"));
    // Of names that look alike the first is kept.
    wallet.names.principals = BTreeMap::from([(1, "e\u{301}".into()), (2, "\u{e9}".into())]);
    let text = round_trip(&wallet);
    assert!(
        text.starts_with("principals e\u{301} = 1, P2 = 2, P4 = 4\n"),
        "{text}"
    );
}

#[test]
fn made_up_names_make_way_for_given_ones() {
    let mut wallet = nameless(&reference::shop::U, None);
    wallet.names.principals = BTreeMap::from([(1, "P2".into()), (4, "r2".into())]);
    wallet.names.roles = BTreeMap::from([(1, "P2-2".into()), (64, "r3".into())]);
    let text = round_trip(&wallet);
    let heads =
        "principals P2 = 1, P2-3 = 2, r2 = 4\nnames P2-2 = 1, r2-2 = 2, r3-2 = 3, r3 = 64\n";
    assert!(text.starts_with(heads), "{text}");
}

#[test]
fn long_lists_of_numbers_are_wrapped() {
    let mut wallet = nameless(&[0, 0, 0, 0], None);
    let name = |number: Number| (number, format!("principal-number-{number}"));
    wallet.names.principals = (1..=64).map(name).collect();
    let text = round_trip(&wallet);
    let wrapped = |line: &str| line.chars().count() <= 80 && line.starts_with("principals ");
    assert!(text.lines().all(wrapped), "{text}");
    assert_eq!(text.lines().count(), 32);
}

#[test]
fn an_empty_wallet_has_an_empty_text() {
    assert_eq!(round_trip(&nameless(&[0, 0, 0, 0], None)), "");
}

#[test]
fn inputs_come_back() {
    let mut random = Random::new(2017);
    for _ in 0..2000 {
        let (numbers, query) = made_up(&mut random);
        let input = program::input(query, &numbers);
        assert_eq!(program::read(&input), Ok((query, numbers)));
    }
}

/// Gives some numbers names, often such as are made up for others.
fn give_names(random: &mut Random, wallet: &mut Wallet) {
    let mut words = words(random);
    let mut draw = |random: &mut Random, last: Number| {
        let seldom = *random.pick(&[1, 2, 8]);
        let numbers = (1..=last).filter(|_| random.one_in(seldom));
        let named = numbers.map_while(|number| Some((number, words.pop()?)));
        named.collect::<BTreeMap<Number, String>>()
    };
    wallet.names.principals = draw(random, 64);
    wallet.names.roles = draw(random, 64);
    let automata = wallet.table.automata.len() as Number;
    wallet.names.constraints = draw(random, automata);
    for automaton in 1..=automata {
        for state in 0..16 {
            if random.one_in(3) {
                let name = format!("s{}", (state * 7 + automaton) % 16);
                wallet.names.states.insert((automaton, state), name);
            }
        }
    }
}

/// Different words in any order.
fn words(random: &mut Random) -> Vec<String> {
    let mut words: Vec<String> = Vec::new();
    for number in 1..=40 {
        words.extend([format!("P{number}"), format!("r{number}")]);
        words.extend([format!("P{number}-2"), format!("constraint-{number}")]);
        words.push(format!("Ann_{number}-e\u{301}"));
    }
    random.shuffle(&mut words);
    words
}

/// How many tables of which shape there were.
#[derive(Debug, Default)]
struct Seen {
    plain_chains: usize,
    shared_cells: usize,
    unused_cells: usize,
    cells_of_both_sorts: usize,
    edges_in_turn: usize,
    edges_in_order: usize,
    labels_of_an_owner: usize,
    empty_sets: usize,
    mixed_marks: usize,
    full: usize,
}

impl Seen {
    fn add(&mut self, table: &Table, text: &str) {
        let begins = |word: &str| text.lines().any(|line| line.starts_with(word));
        let chains = table.credentials.iter().filter_map(|c| match c.body {
            Body::Parts(first) => Some(chain(table, first)),
            _ => None,
        });
        let mut uses = vec![0; table.cells.len()];
        for cell in chains.flatten() {
            uses[cell as usize - 1] += 1;
        }
        let cells = begins("cell ");
        self.plain_chains += usize::from(text.contains('&') && !cells);
        let plain = |line: &str| line.contains('&') && !line.contains(" at cell ");
        self.cells_of_both_sorts += usize::from(cells && text.lines().any(plain));
        self.shared_cells += usize::from(uses.iter().any(|uses| *uses > 1));
        self.unused_cells += usize::from(uses.contains(&0));
        let turns = begins("edges of ");
        self.edges_in_turn += usize::from(turns);
        self.edges_in_order += usize::from(!turns && !table.edges.is_empty());
        let of_an_owner = |edge: &Edge| matches!(edge.label, Label::Of(_));
        self.labels_of_an_owner += usize::from(table.edges.iter().any(of_an_owner));
        self.empty_sets += usize::from(table.automata.iter().any(|a| a.start == 0));
        let lenient = |automaton: &&Automaton| automaton.mark == Mark::SomeWord;
        let lenient = table.automata.iter().filter(lenient).count();
        assert_eq!(text.matches("\n  some word\n").count(), lenient, "{text}");
        self.mixed_marks += usize::from((1..table.automata.len()).contains(&lenient));
        self.full += usize::from(table.credentials.len() == 20 && table.cells.len() == 63);
    }

    /// Every shape must have come up often enough to mean something.
    fn assert_all(&self) {
        let counts = [
            self.plain_chains,
            self.shared_cells,
            self.unused_cells,
            self.cells_of_both_sorts,
            self.edges_in_turn,
            self.edges_in_order,
            self.labels_of_an_owner,
            self.empty_sets,
            self.mixed_marks,
            self.full,
        ];
        assert!(counts.iter().all(|count| *count >= 40), "{self:?}");
    }
}

/// The cells of a chain.
fn chain(table: &Table, first: Number) -> Vec<Number> {
    let mut cells = Vec::new();
    let mut next = first;
    while next != 0 {
        cells.push(next);
        next = table.cells[next as usize - 1].next;
    }
    cells
}
