//! What is printed for a record that no page of `examples/` shows: each way in which
//! it is stopped, states that are left or not, and very long records.

#[allow(dead_code)]
mod shown;

use bwlchareg::{Number, Query, Refusal};
use reference::generate::wide;
use shown::{constrained_shop, credential, edge, names, role, shop, Q};
use wallet::derivation::{judge, Judged};
use wallet::table::{Automaton, Body, Label, Mark, Role, StateSet, Table};
use wallet::tree::{dead, short, text, DECISIVE_SHOWN, NODES_SHOWN, WORDS_SHOWN};
use wallet::Wallet;

/// Record R of the shop example.
const R: [Number; 6] = [1, 2, 2, 0, 3, 0];

fn refused(number: u32, position: u64) -> Option<Refusal> {
    Some(Refusal { number, position })
}

/// The lines from the first to the last that are given, which begin with a
/// bar so that their indentation is seen.
fn lines(text: &str) -> String {
    let lines = text.lines().map(str::trim_start);
    let lines = lines.filter_map(|line| line.strip_prefix('|'));
    lines.map(|line| format!("{line}\n")).collect()
}

#[track_caller]
fn check(wallet: &Wallet, query: Query, record: &[Number], expected: &str) -> Judged {
    let judged = judge(wallet, query, record);
    assert_eq!(text(wallet, &judged), lines(expected));
    judged
}

#[test]
fn all_roles_of_an_owner_are_read_and_no_other() {
    let mut wallet = constrained_shop();
    wallet.table.automata[0].accept = 1;
    wallet.table.edges = vec![edge(1, 0, Label::Of(1), 0)];
    let runs = |wallet: &Wallet| {
        let text = text(wallet, &judge(wallet, Q, &R));
        let lines = text.lines().filter(|line| line.contains("ed: {"));
        lines
            .map(|line| line.to_string() + "\n")
            .collect::<String>()
    };
    let only_of_the_shop = "
        |   1  accepted: {0} Shop.discount {0} Shop.accredited {0}
        |>> 2  rejected: {0} Shop.discount {0} School.student {}; no state left after School.student";
    assert_eq!(runs(&wallet), lines(only_of_the_shop));
    // States are left, but none that accepts.
    wallet.table.edges.push(edge(1, 0, Label::Of(2), 2));
    let another_state = "
        |   1  accepted: {0} Shop.discount {0} Shop.accredited {0}
        |>> 2  rejected: {0} Shop.discount {0} School.student {2}";
    assert_eq!(runs(&wallet), lines(another_state));
    wallet.table.automata[0].start = 0;
    let none_to_start_in = "
        |>> 1  rejected: {} Shop.discount {} Shop.accredited {}; no state to start in
        |>> 2  rejected: {} Shop.discount {} School.student {}; no state to start in";
    assert_eq!(runs(&wallet), lines(none_to_start_in));
}

#[test]
fn a_record_goes_on_after_the_tree() {
    let judged = check(
        &shop(),
        Q,
        &[4, 0, 9],
        "|Ann in Shop.discount within 2
         |
         |   1  Ann in Shop.discount  credential 4: Shop.discount <- Ann
         |>>    1 number remains after the tree
         |
         |refused 11 at 2: 1 number remains after the tree",
    );
    assert_eq!(judged.refusal(), refused(11, 2));
    let judged = judge(&shop(), Q, &[R.as_slice(), &[4, 0]].concat());
    assert_eq!(judged.refusal(), refused(11, 4));
    let last = "refused 11 at 4: 2 numbers remain after the tree";
    assert_eq!(text(&shop(), &judged).lines().last(), Some(last));
}

#[test]
fn a_record_is_stopped_at_a_node() {
    let cases: [(&[Number], &str); 7] = [
        (&[], "refused 11 at 1: no numbers are left for node 1"),
        (
            &[1, 2, 2, 0, 3],
            "refused 11 at 3: only one number is left for node 3",
        ),
        (&[5, 0], "refused 12 at 1: there is no credential 5"),
        (
            &[1, 2, 3, 0],
            "refused 12 at 2: credential 3 defines another role, School.student",
        ),
        (
            &[1, 0],
            "refused 12 at 1: the middle of credential 1 must be 1 to 64, not 0",
        ),
        (
            &[1, 65],
            "refused 12 at 1: the middle of credential 1 must be 1 to 64, not 65",
        ),
        (
            &[4, 1],
            "refused 12 at 1: the middle of credential 4 must be 0, not 1",
        ),
    ];
    for (record, last) in cases {
        let text = text(&shop(), &judge(&shop(), Q, record));
        assert_eq!(text.lines().last(), Some(last));
        assert_eq!(text.matches("\n>>").count(), 2, "{text}");
    }
}

#[test]
fn nothing_is_read_where_the_table_or_the_query_is_refused() {
    check(
        &shop(),
        Query { depth: 17, ..Q },
        &R,
        "|Ann in Shop.discount within 17
         |
         |refused 8 at 4: the query's depth limit is out of range",
    );
    let mut wallet = shop();
    wallet.table.credentials[2].body = Body::Parts(9);
    check(
        &wallet,
        Q,
        &R,
        "|Ann in Shop.discount within 2
         |
         |refused 4 at 3: a field of credential 3 is outside what its kind allows",
    );
}

#[test]
fn places_in_words_are_counted_role_by_role() {
    let names = names(&[(1, "Club")], &[(1, "door"), (2, "friend")]);
    let (door, friend) = (role(1, 1), role(1, 2));
    let after = |word: &[Role], empty: usize| {
        let sets: Vec<StateSet> = (0..=word.len())
            .map(|place| StateSet::from(place < empty))
            .collect();
        let said = dead(&names, word, &sets).expect("an empty set");
        said.replace("no state left after ", "")
    };
    assert_eq!(after(&[door, friend], 2), "Club.friend");
    assert_eq!(after(&[door, friend, friend], 1), "Club.door");
    assert_eq!(after(&[friend, door, friend], 1), "the 1st Club.friend");
    assert_eq!(after(&[friend, door, friend], 3), "the 2nd Club.friend");
    for (place, which) in [
        (3, "3rd"),
        (4, "4th"),
        (11, "11th"),
        (12, "12th"),
        (13, "13th"),
        (16, "16th"),
    ] {
        assert_eq!(
            after(&[friend; 16], place),
            format!("the {which} Club.friend")
        );
    }
}

/// Levels of which each has the next one four times as its premise.
const LEVELS: Number = 7;

/// A wallet with that many levels, whose last credential has a constraint.
fn wide_wallet() -> Wallet {
    let numbers = wide::records(LEVELS).numbers();
    let mut table = Table::of_numbers(&numbers).expect("an accepted table");
    table.automata = vec![Automaton {
        start: 1,
        accept: 1,
        mark: Mark::EveryWord,
    }];
    table.credentials[LEVELS as usize - 1].automaton = 1;
    Wallet {
        table,
        ..Wallet::default()
    }
}

fn wide_query() -> Query {
    let [principal, owner, name, depth] = wide::query(LEVELS).numbers();
    Query {
        principal,
        owner,
        name,
        depth,
    }
}

#[test]
fn long_records_are_shown_in_part() {
    let mut wallet = wide_wallet();
    wallet.table.edges = vec![edge(1, 0, Label::Any, 0)];
    let judged = judge(&wallet, wide_query(), &wide::record(LEVELS));
    assert_eq!(judged.verdict, Ok(127));
    let text = text(&wallet, &judged);
    let nodes = judged.nodes.len() - NODES_SHOWN;
    let words = 4096 - WORDS_SHOWN;
    assert_eq!(text.lines().count(), NODES_SHOWN + 2 * WORDS_SHOWN + 11);
    assert!(text.contains(&format!("\n   ... and {nodes} more nodes\n")));
    assert!(text.contains(&format!("\n   ... and {words} more words\n")));
    let rejected = format!("\n   ... and {words} more words, 0 of them rejected\n");
    assert!(text.contains(&rejected));
    assert!(!text.contains(">>"));
}

#[test]
fn the_first_rejected_words_of_long_records_are_shown() {
    let mut wallet = wide_wallet();
    // The last part of level 1 is a role that the constraint rejects, and to
    // which the last level belongs as well.
    let detour = role(1, 50);
    wallet.table.cells[3].role = detour;
    let again = Body::Contained(role(1, 2));
    wallet.table.credentials.push(credential(detour, again));
    wallet.table.edges = vec![edge(1, 0, Label::Not(detour), 0)];
    let mut record = wide::record(LEVELS);
    // A quarter of the nodes below the first stand below the detour.
    let quarter = (record.len() - 2) / 4;
    let place = record.len() - quarter;
    record.splice(place..place, [LEVELS + 1, 0]);
    let query = Query {
        depth: LEVELS + 1,
        ..wide_query()
    };
    let judged = judge(&wallet, query, &record);
    assert_eq!(judged.refusal(), refused(14, 1));
    let text = text(&wallet, &judged);
    let expected = "\n   ... and 3096 more words, 1024 of them rejected\n>> 3073  rejected:";
    assert!(text.contains(expected), "{text}");
    assert_eq!(text.matches("\n>> ").count(), DECISIVE_SHOWN);
}

#[test]
fn a_later_word_that_is_enough_is_shown() {
    let mut wallet = wide_wallet();
    wallet.table.automata[0].mark = Mark::SomeWord;
    // The last part of level 1 is another role, which one word in four has.
    let other = role(1, 50);
    wallet.table.cells[3].role = other;
    let again = Body::Contained(role(1, 2));
    wallet.table.credentials.push(credential(other, again));
    wallet.table.automata[0].accept = 2;
    wallet.table.edges = vec![
        edge(1, 0, Label::Any, 0),
        edge(1, 0, Label::Only(other), 1),
        edge(1, 1, Label::Any, 1),
    ];
    let mut record = wide::record(LEVELS);
    let place = record.len() - (record.len() - 2) / 4;
    record.splice(place..place, [LEVELS + 1, 0]);
    let query = Query {
        depth: LEVELS + 1,
        ..wide_query()
    };
    let judged = judge(&wallet, query, &record);
    assert_eq!(judged.verdict, Ok(255));
    let text = text(&wallet, &judged);
    let expected = "\n   ... and 3096 more words, 1024 of them accepted\n   3073  accepted:";
    assert!(text.contains(expected), "{text}");
    let met = text
        .lines()
        .filter(|line| line.ends_with("; met by this word"));
    assert_eq!(met.count(), DECISIVE_SHOWN);
    assert!(!text.contains(">>"));
    let short = short(&wallet, &judged);
    assert!(short.contains("\nconstraint constraint-1 is met by word 3073: "));
}

#[test]
fn the_node_at_fault_in_a_long_record_is_shown_with_those_above() {
    let wallet = wide_wallet();
    let mut record = wide::record(LEVELS);
    record.truncate(record.len() - 1);
    let judged = judge(&wallet, wide_query(), &record);
    let last = wide::nodes(LEVELS);
    assert_eq!(judged.refusal(), refused(11, last));
    let text = text(&wallet, &judged);
    let shown = text
        .lines()
        .position(|line| line.starts_with(">>"))
        .expect("a marked line");
    // The question, an empty line, the first nodes, how many more there are,
    // and five nodes between the first and the last.
    assert_eq!(shown, 2 + NODES_SHOWN + 1 + 5, "{text}");
    let marked = text.lines().nth(shown).unwrap_or_default();
    assert!(marked.starts_with(&format!(">> {last}  ")), "{marked}");
    let more = last as usize - NODES_SHOWN - 6;
    assert!(text.contains(&format!("\n   ... and {more} more nodes\n")));
}
