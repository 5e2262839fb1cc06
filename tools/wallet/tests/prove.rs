//! From sets to records with the tool as it is called: `prove`, and where
//! `verify` and `draw` take a record from.

#[allow(dead_code)]
mod console;
mod tool;

use std::fs;

use bwlchareg::{layout, Number, Query};
use wallet::answer::{listed, Answer};
use wallet::parse::parse;
use wallet::proof::{first_record, numbers, MOST_CELLS};
use wallet::tree::NODES_SHOWN;
use wallet::Wallet;

use tool::{
    accepted, file, fresh, indented, refused, refused_apart, run, wrong, CONSTRAINED, SHOP,
};

#[test]
fn sets_that_are_not_listed() {
    let asked = "Ann in Shop.discount within 2";
    let not_listed = |set: &str, wallet: &str, has: &str| {
        let words = format!("refused 15: set {set} is not on the list for {asked}, which {has}");
        refused(&run(&["prove", wallet, set], b""), &words);
        refused(&run(&["verify", wallet, "--set", set], b""), &words);
        let numbers = run(&["prove", wallet, set, "--numbers"], b"");
        refused_apart(&numbers, &words);
        refused_apart(&run(&["draw", wallet, "--set", set], b""), &words);
    };
    for set in ["0", "1", "15", "16", "1048576", "4294967295"] {
        not_listed(set, SHOP, "has 7, 8");
    }
    not_listed("7", CONSTRAINED, "has 8");
    let nobody = file(
        "prove-nobody.wallet",
        b"Shop.discount <- Bob\nShop.staff <- Ann\nAnn in Shop.discount within 2\n",
    );
    let none = "is empty: there is no minimal set";
    not_listed("1", &nobody, none);
    // Nine ways are too many to name all.
    let lines = "Shop.discount <- Ann\n".repeat(9);
    let many = file("prove-many.wallet", format!("{lines}{asked}\n").as_bytes());
    let begins = "begins with 1, 2, 4, 8, 16, 32, 64, 128, ...";
    not_listed("3", &many, begins);
}

#[test]
fn a_refusal_writes_no_file_of_numbers_and_no_picture() {
    let path = fresh("prove-refused");
    let name = path.to_str().expect("a path in text");
    run(&["prove", SHOP, "15", "--numbers", "-o", name], b"");
    run(&["draw", SHOP, "--set", "15", "-o", name], b"");
    assert!(!path.exists());
    run(&["prove", SHOP, "15", "-o", name], b"");
    let said = fs::read_to_string(&path).expect("the refusal");
    assert!(said.starts_with("refused 15: set 15 is not on"), "{said}");
}

/// The wallets of `examples/` with their queries and lists, by their paths. One
/// has no list for its own query.
fn examples() -> Vec<(String, Wallet, Query, Vec<u32>)> {
    let mut examples = Vec::new();
    for name in console::examples(".wallet") {
        let path = console::root().join("examples").join(name);
        let text = fs::read(&path).expect("an example");
        let wallet = parse(&text).expect("a wallet");
        let query = wallet.query.expect("a query");
        let sets = match listed(&wallet, query) {
            Answer::Sets(sets) => sets,
            Answer::Refused(_) => Vec::new(),
        };
        let path = path.to_str().expect("a path in text").to_string();
        examples.push((path, wallet, query, sets));
    }
    assert!(examples.len() > 8);
    examples
}

#[test]
fn every_listed_set_of_every_example_has_a_record_that_is_accepted() {
    let mut sets_seen = 0;
    for (path, _, _, sets) in examples() {
        for set in sets {
            let name = set.to_string();
            let record = accepted(&["prove", &path, &name, "--numbers"], b"");
            let words: Vec<&str> = record.split_whitespace().collect();
            let typed = accepted(&[&["verify", &path], &words[..]].concat(), b"");
            let last = format!("\naccepted: used set {set} = credential");
            assert!(typed.contains(&last), "{typed}");
            // The record stands on a line of its own in what people read.
            let proved = accepted(&["prove", &path, &name], b"");
            assert!(proved.contains(&format!("\n{record}")), "{proved}");
            assert!(proved.contains(&last), "{proved}");
            assert_eq!(accepted(&["verify", &path, "--set", &name], b""), typed);
            let drawn = accepted(&["draw", &path, &record], b"");
            assert_eq!(accepted(&["draw", &path, "--set", &name], b""), drawn);
            sets_seen += 1;
        }
    }
    assert!(sets_seen > 20, "{sets_seen}");
}

#[test]
fn all_sets_of_an_example_have_the_blocks_that_each_has() {
    for (path, _, _, sets) in examples() {
        let every = run(&["prove", &path], b"");
        assert_eq!(every.code, Some(i32::from(sets.is_empty())));
        let mut blocks = String::new();
        for set in &sets {
            let one = accepted(&["prove", &path, &set.to_string()], b"");
            let (_, block) = one.split_once('\n').expect("the query's line");
            blocks += block;
        }
        assert!(every.text().ends_with(&blocks));
        let headings = every.text().matches("\nset ").count();
        assert_eq!(headings, sets.len());
    }
}

/// A record with the names of its middles.
fn named(wallet: &Wallet, record: &[Number]) -> String {
    let mut words = Vec::new();
    for node in record.chunks(layout::NODE) {
        words.push(node[0].to_string());
        words.push(match node[1] {
            0 => "0".to_string(),
            middle => wallet.names.principal(middle),
        });
    }
    words.join(" ")
}

#[test]
fn names_as_middles_give_the_verdict_that_numbers_give() {
    let mut names = 0;
    for (path, wallet, query, sets) in examples() {
        for set in sets {
            let record = first_record(&wallet, query, set).expect("a record");
            let words = named(&wallet, &record);
            names += usize::from(words.contains(char::is_alphabetic));
            for command in ["verify", "draw"] {
                let by_number = accepted(&[command, &path, &numbers(&record)], b"");
                assert_eq!(accepted(&[command, &path, &words], b""), by_number);
                let typed: Vec<&str> = words.split(' ').collect();
                let typed = [&[command, &path], &typed[..]].concat();
                assert_eq!(accepted(&typed, b""), by_number);
            }
        }
    }
    assert!(names > 10, "{names}");
    // Also where the record is refused.
    for (by_name, by_number) in [("1 Ann 2 0 3 0", "1 4 2 0 3 0"), ("4 Shop", "4 1")] {
        let [one, other] = [by_name, by_number].map(|record| run(&["verify", SHOP, record], b""));
        assert_eq!((one.code, other.code), (Some(1), Some(1)));
        assert_eq!(one.out, other.out);
    }
}

#[test]
fn records_from_files_and_standard_input() {
    let typed = accepted(&["verify", SHOP, "1 2 2 0 3 0"], b"");
    let drawn = accepted(&["draw", SHOP, "1 2 2 0 3 0"], b"");
    for (number, text) in [
        "1 2 2 0 3 0",
        "1 2 2 0 3 0\n",
        "1 School\n2 0\n3 0\n",
        "1, School,\r\n2, 0,\r\n3, 0\r\n",
        "\u{FEFF}1,2,2,0,3,0",
    ]
    .into_iter()
    .enumerate()
    {
        let path = file(&format!("prove-record-{number}"), text.as_bytes());
        for source in [&path[..], "-"] {
            let input = if source == "-" { text.as_bytes() } else { b"" };
            let verified = accepted(&["verify", SHOP, "--record", source], input);
            assert_eq!(verified, typed, "{text:?}");
            let picture = accepted(&["draw", "--record", source, SHOP], input);
            assert_eq!(picture, drawn, "{text:?}");
        }
        // The wallet may come from standard input then.
        let wallet = fs::read(SHOP).expect("the example");
        let other = accepted(&["verify", "-", "--record", &path], &wallet);
        assert_eq!(other, typed);
    }
    // An empty text is an empty record, as no words are.
    let empty = run(&["verify", SHOP, "--record", "-"], b"");
    assert_eq!(empty.code, Some(1));
    assert_eq!(empty.out, run(&["verify", SHOP], b"").out);
}

#[test]
fn numbers_go_through_a_file_and_a_pipe() {
    let path = fresh("prove-numbers");
    let name = path.to_str().expect("a path in text");
    let done = run(&["prove", SHOP, "7", "--numbers", "-o", name], b"");
    assert_eq!((done.code, done.out.len()), (Some(0), 0));
    let from_file = accepted(&["verify", SHOP, "--record", name], b"");
    let numbers = run(&["prove", SHOP, "7", "--numbers"], b"").out;
    assert_eq!(fs::read(&path).expect("the file"), numbers);
    let from_pipe = accepted(&["verify", SHOP, "--record", "-"], &numbers);
    assert_eq!(from_file, from_pipe);
    assert_eq!(from_pipe, accepted(&["verify", SHOP, "--set", "7"], b""));
    // What people read goes to a file as it is.
    let done = run(&["prove", SHOP, "7", "-o", name], b"");
    assert_eq!((done.code, done.out.len()), (Some(0), 0));
    let written = fs::read_to_string(&path).expect("the file");
    assert_eq!(written, accepted(&["prove", SHOP, "7"], b""));
}

#[test]
fn a_query_on_the_command_line() {
    let query = ["--query", "Ann in School.student within 1"];
    let asked = |arguments: &[&str]| accepted(&[arguments, &query].concat(), b"");
    assert_eq!(asked(&["prove", SHOP, "4", "--numbers"]), "3 0\n");
    let every = asked(&["prove", SHOP]);
    let heading = "1 minimal set proves Ann in School.student within 1\n\nset 4, by ";
    assert!(every.starts_with(heading), "{every}");
    let typed = asked(&["verify", SHOP, "3 0"]);
    assert_eq!(asked(&["verify", SHOP, "--set", "4"]), typed);
    let words =
        "refused 15: set 7 is not on the list for Ann in School.student within 1, which has 4";
    refused(
        &run(&[&["prove", SHOP, "7"], &query[..]].concat(), b""),
        words,
    );
}

#[test]
fn mistakes_of_records() {
    let principals = "write one of its principals: `School`, `Shop`, `Ann`";
    let unknown = format!("`Schools` is not a principal of the wallet; {principals}");
    let path = file("prove-mistake", b"1 Schools\n");
    for command in ["verify", "draw"] {
        let told = wrong(&[command, SHOP, "1", "Schools"], b"");
        let words = format!("number 2 of the record, a middle: {unknown}\n");
        assert_eq!(told, format!("wallet: {words}"));
        let told = wrong(&[command, SHOP, "--record", &path], b"");
        let place = "line 1, column 3";
        assert_eq!(told, format!("wallet: {path}: {place}: {words}"));
        let told = wrong(&[command, SHOP, "--record", "-"], b"1\n Schools");
        let place = "standard input: line 2, column 2";
        assert_eq!(told, format!("wallet: {place}: {words}"));
        let told = wrong(&[command, SHOP, "--record", "-"], b"1 0 \xe9");
        let words = "line 1, column 5: the byte 0xE9 is not UTF-8; write the text as UTF-8";
        assert_eq!(told, format!("wallet: standard input: {words}\n"));
        let told = wrong(&[command, SHOP, "School", "2"], b"");
        let words = "number 1 of the record, a credential: `School` is not a number from 0 to \
            65535; write the number of a credential\n";
        assert_eq!(told, format!("wallet: {words}"));
    }
    // A mistake of the wallet comes first.
    let told = wrong(&["verify", "-", "x"], b"A.r <-\n");
    assert!(
        told.starts_with("wallet: standard input: line 1, "),
        "{told}"
    );
}

#[test]
fn records_that_cannot_be_read() {
    let told = wrong(&["verify", SHOP, "--record", "/no/such/file"], b"");
    assert!(told.starts_with("wallet: /no/such/file: "), "{told}");
    wrong(
        &["draw", SHOP, "--record", env!("CARGO_TARGET_TMPDIR")],
        b"",
    );
    let long = b"0 ".repeat(2 * MOST_CELLS + 1);
    let told = wrong(&["verify", SHOP, "--record", "-"], &long);
    assert!(told.contains("longer than 4194304 bytes"), "{told}");
    let told = wrong(
        &["verify", SHOP, "--record", &file("prove-long", &long)],
        b"",
    );
    assert!(told.contains("longer than 4194304 bytes"), "{told}");
    // So many bytes are read, and are a record that is refused.
    let done = run(&["verify", SHOP, "--record", "-"], &long[..4 * MOST_CELLS]);
    assert_eq!(done.code, Some(1));
}

/// So many levels, each of which has the next one four times as its premise.
fn chained(levels: usize) -> String {
    let mut text: String = (1..levels)
        .map(|level| {
            let next = format!("A.r{}", level + 1);
            format!("A.r{level} <- {next} & {next} & {next} & {next}\n")
        })
        .collect();
    text += &format!("A.r{levels} <- B\nB in A.r1 within {levels}\n");
    text
}

#[test]
fn a_long_record_is_written_whole() {
    // 349,525 nodes.
    let text = chained(10);
    let wallet = file("prove-chained-10.wallet", text.as_bytes());
    let path = fresh("prove-chained-10.record");
    let name = path.to_str().expect("a path in text");
    let set = "1023";
    run(&["prove", &wallet, set, "--numbers", "-o", name], b"");
    let record = fs::read_to_string(&path).expect("the record");
    assert_eq!(record.split(' ').count(), 699_050);
    let verified = accepted(&["verify", &wallet, "--record", name], b"");
    let more = format!("\n   ... and {} more nodes\n", 349_525 - NODES_SHOWN);
    assert!(verified.contains(&more));
    assert!(verified.contains("\naccepted: used set 1023 = credentials 1, "));
    assert_eq!(accepted(&["verify", &wallet, "--set", set], b""), verified);
    let proved = accepted(&["prove", &wallet], b"");
    assert!(proved.contains(&format!("\n{record}")));
    assert!(proved.contains(&more));
    assert_eq!(proved.lines().count(), 6 + NODES_SHOWN);
    let told = wrong(&["draw", &wallet, "--set", set], b"");
    let words = "wallet: 349525 nodes are too many for a picture, which has at most 500\n";
    assert_eq!(told, words);
}

#[test]
fn a_record_that_is_too_long_is_told_to_be() {
    for levels in [11, 16] {
        let wallet = file("prove-too-long.wallet", chained(levels).as_bytes());
        let set = ((1 << levels) - 1).to_string();
        let words = format!(
            "refused 16: the record of set {set} has more than 1048576 numbers, and is not printed"
        );
        refused(&run(&["prove", &wallet, &set], b""), &words);
        refused(&run(&["verify", &wallet, "--set", &set], b""), &words);
        refused_apart(&run(&["prove", &wallet, &set, "--numbers"], b""), &words);
        refused_apart(&run(&["draw", &wallet, "--set", &set], b""), &words);
        let heading = format!("1 minimal set proves B in A.r1 within {levels}");
        let every = format!("{heading}\n\nset {set}\n{words}");
        refused(&run(&["prove", &wallet], b""), &every);
        // The list has the set all the same.
        assert!(accepted(&["list", &wallet], b"").starts_with(&heading));
    }
}

#[test]
fn one_record_that_is_too_long_does_not_hide_the_others() {
    // Besides the long way there is a short one, by credential 12.
    let text = format!("{}A.r1 <- B\n", chained(11));
    let done = run(&["prove", "-"], text.as_bytes());
    assert_eq!((done.code, done.err.as_str()), (Some(1), ""));
    let text = done.text();
    assert!(text.starts_with("2 minimal sets prove "), "{text}");
    let long = "\n\nset 2047\nrefused 16: the record of set 2047 has more than ";
    assert!(text.contains(long), "{text}");
    let short = "\n\nset 2048, by the record\n12 0\n";
    assert!(text.contains(short), "{text}");
    assert!(text.ends_with("\naccepted: used set 2048 = credential 12\n"));
}

#[test]
fn the_document_shows_what_is_printed() {
    let document = include_str!("../../../docs/WALLET.md");
    let shown = |text: &str| assert!(document.contains(&indented(text)), "{text}");
    shown(&accepted(&["prove", SHOP, "7"], b""));
    shown(&run(&["prove", SHOP, "15"], b"").text());
    let path = file("ann.record", b"1 Schol\n");
    let told = wrong(&["verify", SHOP, "--record", &path], b"");
    shown(&told.replace(&path, "ann.record"));
    // The four calls that it says are the same.
    let numbers = run(&["prove", SHOP, "7", "--numbers"], b"").out;
    let calls: [(&[&str], &[u8]); 4] = [
        (&["1", "2", "2", "0", "3", "0"], b""),
        (&["1, School, 2, 0, 3, 0"], b""),
        (&["--set", "7"], b""),
        (&["--record", "-"], &numbers),
    ];
    for (given, input) in calls {
        let verified = accepted(&[&["verify", SHOP], given].concat(), input);
        assert_eq!(verified, accepted(&["verify", SHOP, "--set", "7"], b""));
        let call = format!("wallet verify examples/shop.wallet {}", given.join(" "));
        let call = call.replace("1, School, 2, 0, 3, 0", "\"1, School, 2, 0, 3, 0\"");
        assert!(document.contains(&format!("{call}\n")), "{call}");
    }
}
