//! The stories in `examples/` and the transcript in `README.md` are what the
//! programs print today.
//!
//! With `RENEW=1` in the environment, the pages and the files that their
//! commands write are renewed instead of compared.

mod console;

use std::collections::BTreeSet;
use std::fs;
use std::path::Path;

use console::difference::difference;
use console::page;
use console::{examples, root, Run};

/// The pages, named from the root.
fn pages() -> Vec<String> {
    let stories = examples(".md").into_iter();
    let mut pages: Vec<String> = stories.map(|name| format!("examples/{name}")).collect();
    pages.push("README.md".to_string());
    pages
}

/// A page's text.
fn text(name: &str) -> String {
    fs::read_to_string(root().join(name)).unwrap_or_else(|error| panic!("{name}: {error}"))
}

/// What a run of a page finds otherwise than the page and the stored files
/// say, in words.
fn differences(name: &str, run: &Run) -> Vec<String> {
    let mut found = Vec::new();
    for (command, printed) in run.commands.iter().zip(&run.outputs) {
        if command.output != *printed {
            let told = difference(&command.output, printed);
            let (line, text) = (command.line, &command.text);
            found.push(format!(
                "{name}:{line}: $ {text}\n  the page says -, the command prints +\n{told}"
            ));
        }
    }
    for (place, content) in &run.files {
        let stored = fs::read(root().join(place)).unwrap_or_default();
        if stored != *content {
            let (place, line) = (place.display(), first_other_line(&stored, content));
            found.push(format!(
                "{name}: its commands write another {place}, from line {line} on\n"
            ));
        }
    }
    found
}

/// The first line, from 1, in which two files are not the same.
fn first_other_line(one: &[u8], other: &[u8]) -> usize {
    let pairs = one.iter().zip(other);
    let same = pairs.take_while(|(one, other)| one == other);
    same.filter(|(byte, _)| **byte == b'\n').count() + 1
}

/// Puts what a run has found into the page and into the stored files.
fn renew(name: &str, text: &str, run: &Run) -> Result<(), String> {
    let renewed = page::with_outputs(text, &run.outputs)?;
    let mut files = run.files.clone();
    files.push((name.into(), renewed.into_bytes()));
    for (place, content) in files {
        let place = root().join(place);
        fs::write(&place, content).map_err(|error| format!("{}: {error}", place.display()))?;
    }
    Ok(())
}

#[test]
fn pages_say_what_the_programs_print() {
    let renewing = std::env::var_os("RENEW").is_some_and(|value| value == "1");
    let mut wrong = String::new();
    let mut written = BTreeSet::new();
    for name in pages() {
        let text = text(&name);
        let run = console::run(&name, &text).unwrap_or_else(|error| panic!("{error}"));
        let found = differences(&name, &run);
        written.extend(run.files.iter().map(|(place, _)| place.clone()));
        if renewing && !found.is_empty() {
            renew(&name, &text, &run).unwrap_or_else(|error| panic!("{error}"));
            println!("{name} is renewed");
        } else {
            wrong.extend(found);
        }
    }
    for picture in examples(".svg") {
        if !written.contains(&Path::new("examples").join(&picture)) {
            wrong.push_str(&format!("no command writes examples/{picture}\n"));
        }
    }
    assert!(
        wrong.is_empty(),
        "\n\n{wrong}\nRENEW=1 renews what is stored"
    );
}

#[test]
fn every_page_runs_something_and_every_wallet_is_on_one() {
    let mut named = BTreeSet::new();
    for name in pages() {
        let commands = page::commands(&text(&name)).unwrap_or_else(|error| panic!("{error}"));
        assert!(!commands.is_empty(), "{name} has no command");
        for command in &commands {
            let words = console::pipeline::words(&command.text);
            let words = words.unwrap_or_else(|error| panic!("{name}: {error}"));
            let words = words
                .iter()
                .map(|word| word.trim_start_matches("examples/"));
            named.extend(words.map(str::to_string));
        }
    }
    for name in examples(".wallet") {
        assert!(named.contains(&name), "no command names examples/{name}");
    }
}

#[test]
fn every_file_that_a_page_links_or_shows_is_there() {
    let mut links = 0;
    for name in pages() {
        let page = root().join(&name);
        for after in text(&name).split("](").skip(1) {
            let target = after.split(')').next().unwrap_or_default();
            let found = page.with_file_name(target).is_file();
            assert!(found, "{name} links to {target}, which is not there");
            links += 1;
        }
    }
    assert!(links > 10, "{links}");
}

/// A page whose second command does not print what it says.
const PAGE: &str = "\
Prose with a $ in it.

```console
$ wallet list parking.wallet --query \"Bob in Lot.pk within 2\" > sets
$ minimal_sets
refused 9 9
```

    $ indented, and no command

```
$ a block of another kind
```
";

#[test]
fn a_wrong_output_is_found_and_renewed() {
    let mut run = console::run("examples/made-up.md", PAGE).expect("a page");
    let lines: Vec<usize> = run.commands.iter().map(|command| command.line).collect();
    assert_eq!(lines, [4, 5]);
    assert_eq!(run.outputs, [vec![], vec!["refused 1 0".to_string()]]);
    assert_eq!(run.files.len(), 1);

    let found = differences("made-up.md", &run).concat();
    assert!(found.contains("made-up.md:5: $ minimal_sets"), "{found}");
    assert!(found.contains("    - refused 9 9\n    + refused 1 0\n"));
    assert!(found.contains("its commands write another examples/sets"));

    let renewed = page::with_outputs(PAGE, &run.outputs).expect("a page");
    assert_eq!(renewed, PAGE.replace("refused 9 9", "refused 1 0"));
    run.commands = page::commands(&renewed).expect("a page");
    run.files.clear();
    assert_eq!(differences("made-up.md", &run), Vec::<String>::new());
}

#[test]
fn what_is_no_page_or_no_command_is_told() {
    let run = |text: &str| console::run("examples/no-page.md", text).err();
    let told = |text: &str, message: &str| {
        let error = run(text).unwrap_or_default();
        assert!(error.contains(message), "{error}");
    };
    told("```console\n$ wallet\n", "has no end");
    told("```console\nwallet\n```\n", "line 2: a block begins with");
    told("```console\n$ rm sets\n```\n", ":2: rm is not one of");
    told("```console\n$ wallet; wallet\n```\n", "; is not read here");
    told("```console\n$ wallet <\n```\n", "no file after <");
    told("```console\n$ wallet |\n```\n", "no program");
    told("```console\n$ wallet a|b\n```\n", "| is not read here");
    told("```console\n$ wallet \"a\n```\n", "a quote has no end");
    told(
        "```console\n$ wallet \"a\"b\n```\n",
        "no space between b and",
    );
    told("```console\n$ wallet b\"a\"\n```\n", "no space between");
    told("```console\n$ wallet \"$a\"\n```\n", "$ is not read here");
    told("```console\n$ wallet < nowhere\n```\n", "nowhere: ");
}

#[test]
fn a_difference_is_told_by_its_lines() {
    let lines = |text: &str| -> Vec<String> { text.lines().map(str::to_string).collect() };
    let told = difference(&lines("a\nb\nc\nc"), &lines("a\nx\nc"));
    assert_eq!(told, "      a\n    - b\n    - c\n    + x\n      c\n");
    assert_eq!(difference(&lines("a"), &lines("a")), "      a\n");
    assert_eq!(difference(&lines("a"), &[]), "    - a\n");
    assert_eq!(first_other_line(b"a\nb\nc", b"a\nb\nx"), 3);
}

#[test]
fn words_with_spaces_stand_between_quotes() {
    let words = |command: &str| console::pipeline::words(command);
    let expected = ["wallet", "list", "w", "--query", "A in B.r within 2"].map(str::to_string);
    let quoted = "wallet list  w --query \"A in B.r within 2\"";
    assert_eq!(words(quoted), Ok(expected.to_vec()));
    let within = words("a \"| > b\" | c \"\" < d");
    let expected = ["a", "| > b", "c", "", "d"].map(str::to_string);
    assert_eq!(within, Ok(expected.to_vec()));
}
