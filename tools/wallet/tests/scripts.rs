//! What scripts read: JSON, as `docs/JSON.md` promises it, and bare numbers.

#[allow(dead_code)]
mod console;
mod tool;

use std::collections::BTreeSet;

use tool::json::{self, Json};
use tool::{accepted, file, refused_apart, run, run_program, CONSTRAINED, SHOP};

const PAGE: &str = include_str!("../../../docs/JSON.md");

/// What the tool prints for a call with `--json`.
#[track_caller]
fn object(arguments: &[&str]) -> Json {
    let done = run(&[arguments, &["--json"]].concat(), b"");
    let read = json::read(&done.text());
    let status = read["status"].number();
    assert_eq!(done.code, Some(status as i32), "{arguments:?}");
    assert_eq!(read["command"].text(), arguments[0]);
    assert_eq!(read.get("mistake").is_some(), status == 2);
    assert_eq!(done.err.is_empty(), status != 2, "{}", done.err);
    // The status is that of the call in words.
    assert_eq!(run(arguments, b"").code, done.code);
    read
}

#[test]
fn list() {
    let read = object(&["list", CONSTRAINED]);
    assert_eq!(
        read["query"]["text"].text(),
        "Ann in Shop.discount within 2"
    );
    assert_eq!(read["query"]["principal"].text(), "Ann");
    assert_eq!(read["query"]["depth"].number(), 2);
    assert_eq!(read["count"].number(), 1);
    let set = &read["sets"][0];
    assert_eq!(set["set"].number(), 8);
    let credential = &set["credentials"][0];
    assert_eq!(credential["text"].text(), "Shop.discount <- Ann");
    assert_eq!(
        (credential["number"].number(), credential["line"].number()),
        (4, 8)
    );
    assert_eq!(set["shows"][0]["role"].text(), "Shop.discount");
    let none = object(&["list", SHOP, "--query", "School in Shop.discount within 1"]);
    assert_eq!(none["refusal"]["number"].number(), 9);
    assert_eq!((none["count"].number(), none["sets"].items().len()), (0, 0));
    let race = console::root().join("examples/medical.wallet");
    let read = object(&["list", race.to_str().expect("a path in text")]);
    let met = &read["sets"][0]["meets"][0];
    assert_eq!(met["constraint"].text(), "through-centre");
    assert_eq!(met["word"][2].text(), "Centre.passed");
}

#[test]
fn prove_and_verify() {
    let read = object(&["prove", SHOP]);
    let records: Vec<Vec<u64>> = read["sets"]
        .items()
        .iter()
        .map(|set| set["record"].numbers())
        .collect();
    assert_eq!(records, [vec![1, 2, 2, 0, 3, 0], vec![4, 0]]);
    assert_eq!(read["sets"][1]["accepted"], Json::Truth(true));
    let read = object(&["prove", SHOP, "15"]);
    assert_eq!(read["sets"][0]["set"].number(), 15);
    assert_eq!(read["sets"][0]["refusal"]["number"].number(), 15);

    let read = object(&["verify", SHOP, "1 2 2 0 3 0"]);
    assert_eq!(read["accepted"], Json::Truth(true));
    assert_eq!(read["used"]["set"].number(), 7);
    assert_eq!(read["nodes"][0]["middle"].text(), "School");
    assert_eq!(read["nodes"][2]["parent"].number(), 1);
    let read = object(&["verify", CONSTRAINED, "1 2 2 0 3 0"]);
    assert_eq!(read["refusal"]["number"].number(), 14);
    let words = [
        ["Shop.discount", "Shop.accredited"],
        ["Shop.discount", "School.student"],
    ];
    let shown =
        words.map(|word| Json::List(word.map(|role| Json::Text(role.to_string())).to_vec()));
    assert_eq!(read["words"].items(), shown);
    let constraint = &read["constraints"][0];
    assert_eq!(constraint["met"], Json::Truth(false));
    assert_eq!(constraint["credentials"].numbers(), [3]);
    assert_eq!(constraint["runs"][0]["states"][0][0].text(), "0");
    let read = object(&["verify", SHOP, "--set", "15"]);
    assert_eq!(read["refusal"]["number"].number(), 15);
    let read = object(&["verify", SHOP, "1 65 2"]);
    assert_eq!(read["refusal"]["position"].number(), 1);
}

#[test]
fn check() {
    let words = "accepted: 4 credentials, 3 principals, 3 role names, 1 constraint";
    let asked = "query Ann in Shop.discount within 2";
    assert_eq!(
        accepted(&["check", CONSTRAINED], b""),
        format!("{words}; {asked}\n")
    );
    let read = object(&["check", CONSTRAINED]);
    assert_eq!(read["accepted"], Json::Truth(true));
    assert_eq!(read["constraints"].number(), 1);
    // No query is needed.
    let unasked = file("scripts-unasked.wallet", b"A.r <- B\n");
    let words = "accepted: 1 credential, 2 principals, 1 role name, 0 constraints; no query\n";
    assert_eq!(accepted(&["check", &unasked], b""), words);
    assert_eq!(object(&["check", &unasked]).get("query"), None);
    let query = ["check", &unasked, "--query", "B in A.r within 3"];
    assert!(accepted(&query, b"").ends_with("; query B in A.r within 3\n"));
}

#[test]
fn mistakes() {
    let path = file("scripts-mistake.wallet", b"A.r <- B\n\nA.r <-\n");
    for command in ["check", "list", "why", "prove", "verify"] {
        let mistake = &object(&[command, &path])["mistake"];
        assert_eq!(mistake["file"].text(), path);
        let place = (mistake["line"].number(), mistake["column"].number());
        assert_eq!(place, (3, 7));
        let mistake = &object(&[command, SHOP, "--query", "Bob in A.r within 2"])["mistake"];
        assert_eq!(mistake["file"].text(), "--query");
        assert_eq!((mistake["column"].number(), mistake.get("line")), (1, None));
        let mistake = &object(&[command, "/no/such/file"])["mistake"];
        assert_eq!(mistake["file"].text(), "/no/such/file");
        let mistake = &object(&[command, SHOP, "--nonsense"])["mistake"];
        let words = format!("`{command}` has no option `--nonsense`");
        assert_eq!(mistake["message"].text(), words);
        assert_eq!(mistake.get("file"), None);
        let mistake = &object(&[command, SHOP, "-o", "/no/such/file"])["mistake"];
        assert_eq!(mistake["file"].text(), "/no/such/file");
    }
}

#[test]
fn counts_and_numbers_of_sets() {
    assert_eq!(accepted(&["list", SHOP, "--count"], b""), "2\n");
    assert_eq!(accepted(&["list", SHOP, "--sets"], b""), "7\n8\n");
    let asked = "School in Shop.discount within 2";
    let none = ["list", SHOP, "--query", asked];
    let count = run(&[&none[..], &["--count"]].concat(), b"");
    let answer = (count.code, count.text(), count.err);
    assert_eq!(answer, (Some(1), "0\n".to_string(), String::new()));
    let sets = run(&[&none[..], &["--sets"]].concat(), b"");
    let told = format!("refused 9: there is no minimal set for {asked}");
    refused_apart(&sets, &told);
}

/// Calls of every command that has objects, about all examples and about what is
/// not there.
fn calls() -> Vec<Vec<String>> {
    let lone = file(
        "scripts-lone.wallet",
        "\u{c9}cole.membre <- Zo\u{eb}\n\
        \u{c9}cole.acces <- \u{c9}cole.membres\nZo\u{eb} in \u{c9}cole.acces within 1\n"
            .as_bytes(),
    );
    let strange = file("scripts \"strange\"\\\t\u{1}.wallet", b"A.r <-\n");
    let mut wallets = vec![lone, strange, "/no/such/file".to_string()];
    for name in console::examples(".wallet") {
        let path = console::root().join("examples").join(name);
        wallets.push(path.to_str().expect("a path in text").to_string());
    }
    let own = |words: &[&str]| words.iter().map(|word| word.to_string()).collect();
    let mut calls: Vec<Vec<String>> = Vec::new();
    for wallet in &wallets {
        for command in ["check", "list", "why", "prove", "verify"] {
            calls.push(own(&[command, wallet]));
        }
        calls.push(own(&["verify", wallet, "1 2 2 0 3 0"]));
        calls.push(own(&["prove", wallet, "1"]));
        for set in run(&["list", wallet, "--sets"], b"").text().lines() {
            calls.push(own(&["verify", wallet, "--set", set]));
        }
    }
    for depth in ["1", "2"] {
        let query = format!("Ann in Shop.discount within {depth}");
        calls.push(own(&["why", SHOP, "--query", &query]));
        calls.push(own(&[
            "why",
            SHOP,
            "--query",
            &query.replace("Shop", "Ann"),
        ]));
    }
    calls.push(own(&["list", SHOP, "--query", "x"]));
    calls
}

#[test]
fn every_object_has_the_fields_of_the_page_and_python_reads_it() {
    let mut names = BTreeSet::new();
    let mut lines = String::new();
    for call in calls() {
        let call: Vec<&str> = call.iter().map(String::as_str).collect();
        object(&call).add_names(&mut names);
        lines += &run(&[&call[..], &["--json"]].concat(), b"").text();
    }
    // A row of the page names fields in its first column; some sentences name more.
    let known: BTreeSet<String> = PAGE
        .split('`')
        .skip(1)
        .step_by(2)
        .map(str::to_string)
        .collect();
    let unknown: Vec<&String> = names.difference(&known).collect();
    assert!(unknown.is_empty(), "the page does not name {unknown:?}");
    let rows = PAGE
        .lines()
        .filter_map(|line| line.strip_prefix("| `")?.split('|').next());
    for row in rows {
        for name in row.split('`').step_by(2) {
            assert!(names.contains(name), "no object has {name}");
        }
    }
    let again = "import json, sys\n\
        for line in sys.stdin.buffer:\n\
        \x20   line = json.dumps(json.loads(line), ensure_ascii=False, separators=(',', ':'))\n\
        \x20   sys.stdout.buffer.write(line.encode('utf-8') + b'\\n')\n";
    let done = run_program("python3", &["-c", again], lines.as_bytes());
    assert_eq!((done.code, done.err.as_str()), (Some(0), ""));
    // Python has a short escape for a tab.
    assert_eq!(done.text().replace("\\t", "\\u0009"), lines);
}

#[test]
fn the_page_shows_what_is_printed() {
    let call = [
        "list",
        SHOP,
        "--query",
        "Ann in School.student within 1",
        "--json",
    ];
    let shown = format!("    {}", accepted(&call, b""));
    assert!(PAGE.contains(&shown), "{shown}");
}
