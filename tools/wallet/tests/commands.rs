//! The tool as it is called: exit codes, what is written where, and that
//! nothing is written when something is wrong.

mod tool;

use std::fs;
use std::process::Command;

use bwlchareg::Number;
use tool::{
    accepted, file, fresh, refused, refused_apart, run, run_program, wrong, CONSTRAINED, PROGRAM,
    SHOP,
};

/// The commands that ask about a wallet, with nothing more than the wallet.
const ASKING: [&str; 8] = [
    "encode", "list", "why", "explain", "prove", "verify", "draw", "report",
];

#[test]
fn encode() {
    let done = run(&["encode", CONSTRAINED], b"");
    assert_eq!((done.code, done.err.as_str()), (Some(0), ""));
    let numbers = [4, 1, 1, 2].iter().chain(&reference::shop::U);
    let expected: Vec<u8> = numbers
        .flat_map(|number: &Number| number.to_le_bytes())
        .collect();
    assert_eq!(done.out, expected);
    let text = fs::read(CONSTRAINED).expect("the example");
    assert_eq!(run(&["encode", "-"], &text).out, expected);
}

#[test]
fn list_and_explain_say_the_same() {
    let nobody = ["--query", "School in Shop.discount within 2"];
    for call in [&[SHOP][..], &[CONSTRAINED], &[SHOP, nobody[0], nobody[1]]] {
        let input = run(&[&["encode"], call].concat(), b"").out;
        let output = run_program(PROGRAM, &[], &input).out;
        let explained = run(&[&["explain"], call].concat(), &output);
        let listed = run(&[&["list"], call].concat(), b"");
        assert_eq!(explained.text(), listed.text());
        assert_eq!((explained.code, &explained.err), (listed.code, &listed.err));
    }
}

#[test]
fn an_output_that_is_not_the_answer_is_not_explained() {
    for (output, difference) in [
        ("", "line 1 should be `7`, and is missing"),
        ("8\nsets 1\n", "line 1 should be `7`, and is `8`"),
        (
            "7\n8\nsets 3\n",
            "line 3 should be `sets 2`, and is `sets 3`",
        ),
        (
            "refused 9 0\n",
            "line 1 should be `7`, and is `refused 9 0`",
        ),
        ("7\n8\nsets 2\nx\n", "line 4 should be missing, and is `x`"),
    ] {
        let told = wrong(&["explain", SHOP], output.as_bytes());
        let words = "wallet: standard input: this is not the checker's answer";
        assert_eq!(told, format!("{words}: {difference}\n"));
    }
    wrong(&["explain", SHOP], b"\xff\nsets 1\n");
}

#[test]
fn a_list_that_is_refused_says_how_to_see_why() {
    let text = b"A.r <- B\nA.s <- C\nC in A.r within 1\n";
    let asked = "C in A.r within 1";
    let none = format!("refused 9: there is no minimal set for {asked}");
    let hint = "to see what stands in the way: wallet why";
    refused(&run(&["list", "-"], text), &format!("{none}\n{hint} -"));
    for (name, shown) in [("nobody.wallet", ""), ("it's nobody", "'")] {
        let path = file(name, text);
        let pasted = match shown {
            "" => path.clone(),
            _ => format!("'{}'", path.replace('\'', "'\\''")),
        };
        let told = format!("{none}\n{hint} {pasted}");
        for command in ["list", "prove"] {
            refused(&run(&[command, &path], b""), &told);
            let apart = run(&[command, &path, "--query", " C in A . r within 1"], b"");
            refused(&apart, &format!("{told} --query \"{asked}\""));
        }
    }
}

#[test]
fn decode() {
    let input = run(&["encode", CONSTRAINED], b"").out;
    let text = fs::read_to_string(CONSTRAINED).expect("the example");
    let (_, bare) = text.split_once('\n').expect("a comment on the first line");
    assert_eq!(accepted(&["decode", "--names", CONSTRAINED], &input), bare);
    let nameless = accepted(&["decode"], &input);
    assert!(nameless.starts_with("principals P1 = 1, P2 = 2, P4 = 4\n"));
    // What comes after 4,096 bytes does not count.
    let mut long = input.clone();
    long.resize(4096, 0);
    let done = run(&["decode"], &[long, vec![1; 9]].concat());
    assert_eq!(done.code, Some(1));
    assert!(done.err.starts_with("wallet: refused 3: "), "{}", done.err);
}

/// Where the constrained shop's input has the mark of its automaton: after query,
/// head, four credentials, and the automaton's two sets.
const MARK: usize = 2 * (4 + 4 + 4 * 6 + 2);

/// The constrained shop's input in the base layout, whose automaton has no mark.
fn base_input() -> Vec<u8> {
    let mut input = run(&["encode", CONSTRAINED], b"").out;
    assert_eq!(input[MARK..MARK + 2], [0, 0]);
    input.drain(MARK..MARK + 2);
    input
}

#[test]
fn upgrade() {
    let today = run(&["encode", CONSTRAINED], b"").out;
    let done = run(&["upgrade"], &base_input());
    assert_eq!((done.code, done.err.as_str()), (Some(0), ""));
    assert_eq!(done.out, today);
    // Without automata there is nothing to add.
    let shop = run(&["encode", SHOP], b"").out;
    assert_eq!(run(&["upgrade"], &shop).out, shop);
    let base = base_input();
    let over = [&[4, 0, 1, 0, 1, 0, 2, 0, 21, 0][..], &[0; 6]].concat();
    let short = "refused 1: the input has fewer than 16 bytes, or an odd number of them";
    for (input, told) in [
        (&today[..], "refused 3: the table has marks already"),
        (
            &base[..base.len() - 2],
            "refused 3: the table's length is not what its head says in the base layout",
        ),
        (
            &over,
            "refused 2: a count of the table's head is over its limit",
        ),
        (&base[..9], short),
        (b"", short),
    ] {
        refused_apart(&run(&["upgrade"], input), told);
    }
    let told = "refused 3: the table's length is not what its head says; it is that of the base \
        layout, which has no marks: `wallet upgrade` adds them";
    refused_apart(&run(&["decode"], &base), told);
}

#[test]
fn marks() {
    let mut input = run(&["encode", CONSTRAINED], b"").out;
    input[MARK] = 1;
    let text = accepted(&["decode", "--names", CONSTRAINED], &input);
    let head = "constraint not-for-discounts\n  some word\n  start 0\n";
    assert!(text.contains(head), "{text}");
    assert_eq!(run(&["encode", "-"], text.as_bytes()).out, input);
    // That every word is demanded may be said, and need not.
    let every = text.replace("some word", "every word");
    let bare = text.replace("  some word\n", "");
    let usual = run(&["encode", CONSTRAINED], b"").out;
    assert_eq!(run(&["encode", "-"], every.as_bytes()).out, usual);
    assert_eq!(run(&["encode", "-"], bare.as_bytes()).out, usual);
    input[MARK] = 2;
    let told = "refused 17 at 1: automaton 1's mark is neither 0 nor 1";
    refused_apart(&run(&["decode"], &input), told);
}

#[test]
fn an_input_that_is_refused_has_no_text() {
    let mut input = run(&["encode", SHOP], b"").out;
    input[16] = 65;
    let path = fresh("refused.wallet");
    let to_file = ["decode", "-o", path.to_str().expect("a path in text")];
    for arguments in [&to_file[..1], &to_file] {
        let told = "refused 4 at 1: a field of credential 1 is outside what its kind allows";
        refused_apart(&run(arguments, &input), told);
        let short = "refused 1: the input has fewer than 16 bytes, or an odd number of them";
        for input in [&input[..15], &input[..6], b""] {
            refused_apart(&run(arguments, input), short);
        }
    }
    assert!(!path.exists());
}

#[test]
fn verify_and_draw() {
    for command in ["verify", "draw"] {
        let whole = accepted(&[command, SHOP, "1", "2", "2", "0", "3", "0"], b"");
        for record in ["1 2 2 0 3 0", "1,2,2,0,3,0", "1, 2, 2, 0, 3, 0"] {
            assert_eq!(accepted(&[command, SHOP, record], b""), whole);
        }
        for (wallet, record) in [(CONSTRAINED, "1 2 2 0 3 0"), (SHOP, "")] {
            let refused = run(&[command, wallet, record], b"");
            assert_eq!((refused.code, refused.err.as_str()), (Some(1), ""));
            assert!(!refused.out.is_empty());
        }
        for record in ["1 x", "65536", "1,,2"] {
            wrong(&[command, SHOP, record], b"");
        }
        wrong(&[command, SHOP, "--", "-1"], b"");
    }
}

#[test]
fn texts_with_a_mistake_and_without_a_query() {
    let mistake = file("mistake.wallet", b"A.r <- B\nA.r <-\n");
    let unasked = file("unasked.wallet", b"A.r <- B\n");
    let place = format!("wallet: {mistake}: line 2, column 7: expected a principal ");
    for command in ASKING {
        let told = wrong(&[command, &mistake], b"");
        assert!(told.starts_with(&place), "{told}");
        let told = wrong(&[command, &unasked], b"");
        let words = "the wallet has no query; write a line like `D in A.r within 2`, or give one \
            after `--query`";
        assert_eq!(told, format!("wallet: {unasked}: {words}\n"));
    }
    let input = run(&["encode", SHOP], b"").out;
    let told = wrong(&["decode", "--names", &mistake], &input);
    assert!(told.starts_with(&place), "{told}");
    let told = wrong(&["check", "-"], b"A.r <- \xff");
    let place = "wallet: standard input: line 1, column 8: ";
    assert!(told.starts_with(place), "{told}");
}

/// The shop's credentials, without numbers and without a query.
const UNASKED: &[u8] = b"Shop.discount <- Shop.accredited.student\nShop.accredited <- School\n\
    School.student <- Ann\nShop.discount <- Ann\n";

#[test]
fn a_query_on_the_command_line() {
    let own = run(&["encode", SHOP], b"").out;
    let query = ["--query", "Ann in Shop.discount within 1"];
    let asked = |call: &[&str]| run(&[call, &query].concat(), b"");
    let input = asked(&["encode", SHOP]).out;
    assert_eq!(input[..8], [4, 0, 1, 0, 1, 0, 1, 0]);
    assert_eq!(input[8..], own[8..]);
    let words = "1 minimal set proves Ann in Shop.discount within 1\n\nset 8\n   \
        4  Shop.discount <- Ann  line 8\n  shows Ann in Shop.discount\n";
    assert_eq!(asked(&["list", SHOP]).text(), words);
    let judged = asked(&["verify", SHOP, "1", "2", "2", "0", "3", "0"]);
    assert_eq!(judged.code, Some(1));
    let last = "\nrefused 13 at 2: level 2 is deeper than the depth limit, 1\n";
    assert!(judged.text().ends_with(last), "{}", judged.text());
    let drawn = asked(&["draw", SHOP, "4 0"]).text();
    let title = "<title>Ann in Shop.discount within 1: accepted";
    assert!(drawn.contains(title), "{drawn}");
    // Names have their numbers from the wallet alone.
    let encoded = |query| run(&["encode", "-", "--query", query], UNASKED).out;
    let one = encoded("Ann in Shop.discount within 2");
    assert_eq!(one[..8], [3, 0, 1, 0, 1, 0, 2, 0]);
    let other = encoded("School in Ann.student within 16");
    assert_eq!(other[..8], [2, 0, 3, 0, 3, 0, 16, 0]);
    assert_eq!(one[8..], other[8..]);
}

#[test]
fn queries_with_a_mistake() {
    let name = file("unasked-shop.wallet", UNASKED);
    for wallet in [SHOP, &name] {
        for command in ASKING.into_iter().chain(["check"]) {
            let told = |query| wrong(&[command, wallet, "--query", query], b"");
            let unknown = told("Bob in Shop.discount within 2");
            let words = "wallet: --query: column 1: `Bob` is not a principal of the wallet; ";
            assert!(unknown.starts_with(words), "{unknown}");
            let empty = told("");
            assert!(empty.starts_with("wallet: --query: column 1: "), "{empty}");
        }
    }
    // A mistake of the wallet comes first.
    let told = wrong(&["list", "-", "--query", "Bob"], b"A.r <-\n");
    let place = "wallet: standard input: line 1, ";
    assert!(told.starts_with(place), "{told}");
}

#[test]
fn a_query_that_is_not_utf_8() {
    use std::ffi::OsStr;
    use std::os::unix::ffi::OsStrExt;
    let calls: [&[&[u8]]; 2] = [
        &[b"--query", b"Ann in Caf\xe9.discount within 2"],
        &[b"--query=Ann in Caf\xe9.discount within 2"],
    ];
    for call in calls {
        let output = Command::new(env!("CARGO_BIN_EXE_wallet"))
            .args(["list", SHOP])
            .args(call.iter().map(|word| OsStr::from_bytes(word)))
            .output()
            .expect("the tool");
        assert_eq!((output.status.code(), output.stdout.len()), (Some(2), 0));
        let told = String::from_utf8_lossy(&output.stderr);
        let words = "wallet: --query: column 11: the byte 0xE9 is not UTF-8; ";
        assert!(told.starts_with(words), "{told}");
    }
}

#[test]
fn files_that_cannot_be_read() {
    let told = wrong(&["list", "/no/such/file"], b"");
    assert!(told.starts_with("wallet: /no/such/file: "), "{told}");
    assert_eq!(told.lines().count(), 1, "{told}");
    wrong(&["list", env!("CARGO_TARGET_TMPDIR")], b"");
    let comment = vec![b'#'; (1 << 20) + 1];
    let long = file("long.wallet", &comment);
    for (call, input) in [
        (["list", "-"], &comment),
        (["list", &long], &vec![]),
        (["explain", SHOP], &comment),
    ] {
        let told = wrong(&call, input);
        assert!(told.contains("longer than 1048576 bytes"), "{told}");
    }
}

#[test]
fn a_wrong_call_is_told_the_usage_of_its_command_alone() {
    let told = wrong(&["list", SHOP, SHOP], b"");
    let usage = "usage: wallet list WALLET [--query QUERY] [--count] [--sets] [--json] [-o FILE]";
    assert_eq!(
        told,
        format!("wallet: unexpected argument `{SHOP}`\n{usage}\n")
    );
    let help = accepted(&["help", "list"], b"");
    assert!(help.starts_with(usage), "{help}");
    assert_eq!(accepted(&["list", SHOP, "--help"], b""), help);
    let overview = accepted(&["help"], b"");
    assert_eq!(accepted(&["--help"], b""), overview);
    let none = run(&[], b"");
    let told = format!("wallet: a command is missing\n{overview}");
    assert_eq!((none.code, none.err), (Some(2), told));
    let unknown = wrong(&["lists", SHOP], b"");
    let told = "wallet: unknown command `lists`\n`wallet help` lists the commands\n";
    assert_eq!(unknown, told);
    let version = concat!("wallet ", env!("CARGO_PKG_VERSION"), "\n");
    assert_eq!(accepted(&["--version"], b""), version);
}
