//! The page about a wallet: it is well-formed, needs nothing besides, runs
//! nothing, and has all that the library answers.

mod common;
#[allow(dead_code)]
mod shown;
mod tool;

use std::collections::BTreeSet;
use std::fs;
use std::path::PathBuf;

use bwlchareg::Query;
use common::{made_up, nameless};
use reference::random::Random;
use shown::xml::{elements, said, Element};
use tool::{file, fresh, run, SHOP};
use wallet::answer::{listed, Answer};
use wallet::explain::{explain, heading};
use wallet::parse::parse;
use wallet::print::print;
use wallet::proof::{first_record, numbers};
use wallet::report::{report, Report};
use wallet::why::findings;
use wallet::Wallet;

/// Everything of which a page may consist. None of it fetches or runs anything.
const ELEMENTS: &str =
    "html head meta title style body header nav main section h1 h2 h3 h4 p ul li \
    a b i sup code span table caption thead tbody tr th td div figure svg desc rect g line text";

/// A wallet's text, the wallet, and the page about its query.
struct Made {
    text: String,
    wallet: Wallet,
    query: Query,
    page: Report,
}

/// The page about a text, which is what a page has to be.
fn made(text: &str) -> Made {
    let wallet = parse(text.as_bytes()).unwrap_or_else(|wrong| panic!("{wrong}\n{text}"));
    let query = wallet.query.expect("a query");
    let page = report(&wallet, query, text, "some.wallet");
    check(&page.html);
    let made = Made {
        text: text.to_string(),
        wallet,
        query,
        page,
    };
    check_text(&made);
    made
}

/// The document below the line that says that it is HTML.
fn document(html: &str) -> &str {
    html.strip_prefix("<!DOCTYPE html>\n").expect("a page")
}

/// Checks what holds for every page.
fn check(html: &str) {
    let elements = elements(document(html));
    check_head(&elements);
    check_links(&elements);
    check_headings(&elements);
    check_tables(html);
    for element in &elements {
        let known = ELEMENTS.split_whitespace().any(|name| name == element.name);
        assert!(known, "{element:?}");
    }
    let style = elements.iter().find(|element| element.name == "style");
    let style = &style.expect("a style").text;
    for fetching in ["url(", "@import", "@font-face", "expression", "\\"] {
        assert!(!style.contains(fetching), "{fetching}");
    }
}

/// The page says its language, its letters and its width, and that nothing may be
/// fetched or run.
fn check_head(elements: &[Element]) {
    assert_eq!(elements[0].name, "html");
    assert_eq!(elements[0].attributes["lang"], "en");
    let meta = |key: &str, value: &str| {
        let mut own = elements.iter().filter(|element| element.name == "meta");
        let own =
            own.find(|element| element.attributes.get(key).map(String::as_str) == Some(value));
        own.unwrap_or_else(|| panic!("{key} {value}"))
            .attributes
            .clone()
    };
    meta("charset", "utf-8");
    assert!(meta("name", "viewport")["content"].starts_with("width=device-width"));
    let policy = &meta("http-equiv", "Content-Security-Policy")["content"];
    let mut policy: Vec<&str> = policy.split("; ").collect();
    policy.sort_unstable();
    let nothing = "default-src 'none'";
    let style = "style-src 'unsafe-inline'";
    assert_eq!(
        policy,
        ["base-uri 'none'", nothing, "form-action 'none'", style]
    );
    let title = elements.iter().find(|element| element.name == "title");
    assert!(!title.expect("a title").text.is_empty());
}

/// No address is named but places of the page, which are there; and no place twice.
fn check_links(elements: &[Element]) {
    let attributes = |name: &'static str| {
        let all = elements.iter();
        all.filter_map(move |element| element.attributes.get(name))
    };
    let mut places = BTreeSet::new();
    for place in attributes("id") {
        assert!(places.insert(place.as_str()), "{place} twice");
        assert!(!place.contains(char::is_whitespace), "{place}");
    }
    for link in attributes("href") {
        let place = link.strip_prefix('#').expect("a place of the page");
        assert!(places.contains(place), "{place}");
    }
    let allowed = |element: &Element, key: &str| match element.depth {
        0 => ["lang", "xmlns"].contains(&key),
        _ => {
            let fetching = ["src", "srcset", "style", "xlink:href", "action", "data"];
            !fetching.contains(&key) && !key.starts_with("on")
        }
    };
    for element in elements {
        let keys = element.attributes.keys();
        let wrong: Vec<&String> = keys.filter(|key| !allowed(element, key)).collect();
        assert!(wrong.is_empty(), "{element:?}");
    }
}

/// There is one heading of the first level, and none is more than a level below
/// the one before it.
fn check_headings(elements: &[Element]) {
    let levels: Vec<u32> = elements
        .iter()
        .filter_map(|element| element.name.strip_prefix('h')?.parse().ok())
        .collect();
    assert_eq!(levels[0], 1);
    assert_eq!(levels.iter().filter(|level| **level == 1).count(), 1);
    assert!(
        levels.windows(2).all(|pair| pair[1] <= pair[0] + 1),
        "{levels:?}"
    );
}

/// Every table says what it is about, and its rows have as many cells as there are
/// heads of columns; every head says of what it is one.
fn check_tables(html: &str) {
    for table in html.split("<table").skip(1) {
        let (table, _) = table.split_once("</table>").expect("an end");
        let caption = between(table, "<caption>", "</caption>");
        assert!(!caption.is_empty(), "{table}");
        let (head, body) = table.split_once("</thead>").expect("heads");
        let columns = head.matches("<th scope=\"col\"").count();
        assert!(columns > 0, "{table}");
        for row in body.split("<tr>").skip(1) {
            let heads = row.matches("<th scope=\"row\"").count();
            assert_eq!(heads + row.matches("<td").count(), columns, "{row}");
            assert_eq!(heads, row.matches("<th").count(), "{row}");
        }
    }
}

/// What stands between two pieces of a text.
fn between<'a>(text: &'a str, begin: &str, end: &str) -> &'a str {
    let (_, text) = text
        .split_once(begin)
        .unwrap_or_else(|| panic!("{begin} in {text}"));
    let (text, _) = text
        .split_once(end)
        .unwrap_or_else(|| panic!("{end} in {text}"));
    text
}

/// What stands inside the first element whose tag begins so, if it has none of its
/// kind in it.
fn inside<'a>(html: &'a str, tag: &str) -> &'a str {
    let name = tag.split([' ', '>']).next().unwrap_or_default();
    let element = between(html, tag, &format!("</{}>", &name[1..]));
    let (_, inside) = element.split_once('>').expect("the end of a tag");
    inside
}

/// The part of a page with this place, or the beginning of it up to the end of the
/// first part inside it.
fn part<'a>(html: &'a str, place: &str) -> &'a str {
    inside(html, &format!("<section id=\"{place}\""))
}

/// The table of a class in a part of a page.
fn table<'a>(part: &'a str, class: &str) -> &'a str {
    inside(part, &format!("<table class=\"{class}\""))
}

/// The cells of a table's rows, without markup.
fn rows(table: &str) -> Vec<Vec<String>> {
    let rows = table.split("<tr>").skip(2);
    let cells = |row: &str| {
        let row = row.split("<t").skip(1);
        row.map(|cell| {
            said(&format!("<t{cell}"))
                .trim_end_matches('\n')
                .to_string()
        })
        .collect()
    };
    rows.map(cells).collect()
}

/// The wallet's text is on the page as it is written, with its lines' numbers and
/// its credentials'.
fn check_text(made: &Made) {
    let listing = table(part(&made.page.html, "wallet"), "listing");
    let rows = rows(listing);
    let lines: Vec<&str> = made.text.lines().collect();
    assert_eq!(rows.len(), lines.len());
    for ((number, line), row) in (1..).zip(&lines).zip(&rows) {
        let credentials = &made.wallet.lines.credentials;
        let credential = credentials.iter().position(|own| *own == number);
        let mark = match credential {
            Some(index) => (index + 1).to_string(),
            None if made.wallet.lines.query == Some(number) => "?".to_string(),
            None => String::new(),
        };
        assert_eq!(row, &[number.to_string(), mark, line.to_string()]);
    }
}

/// The verdict is the library's, and everything that it lists is there.
fn check_answer(made: &Made) {
    let Made {
        wallet,
        query,
        page,
        ..
    } = made;
    let (verdict, sets) = match listed(wallet, *query) {
        Answer::Sets(sets) => (heading(wallet, *query, sets.len()), sets),
        refused => (
            explain(wallet, *query, &refused).replacen('r', "R", 1),
            Vec::new(),
        ),
    };
    let headline = between(&page.html, "<h1>", "</h1>");
    assert_eq!(said(headline), verdict.trim_end());
    assert_eq!(
        said(between(&page.html, "<title>", "</title>")),
        verdict.trim_end()
    );
    assert_eq!(page.refused, sets.is_empty());
    for set in sets.iter().take(50) {
        check_set(made, *set);
    }
    let has_contents = page.html.contains("<nav ");
    assert_eq!(has_contents, sets.len() > 1);
    let all = said(document(&page.html));
    for finding in findings(wallet, *query) {
        assert!(
            all.contains(&finding.sentence.replace('`', "")),
            "{}",
            finding.sentence
        );
        for line in &finding.details {
            assert!(all.contains(line), "{line}");
        }
    }
}

/// A set that is shown in full has its credentials with their lines, what it shows,
/// its record, a picture of each node, and its words.
fn check_set(made: &Made, set: u32) {
    let Made {
        wallet,
        query,
        page,
        ..
    } = made;
    let part = part(&page.html, &format!("set-{set}"));
    let credentials = table(part, "credentials");
    let expected = bwlchareg::credentials(set).map(|number| {
        let index = number as usize - 1;
        let credential = &wallet.table.credentials[index];
        let text = wallet.names.credential(&wallet.table, credential);
        let line = wallet.lines.credentials[index];
        vec![number.to_string(), text, line.to_string()]
    });
    assert_eq!(rows(credentials), expected.collect::<Vec<Vec<String>>>());
    let record = first_record(wallet, *query, set).expect("a record");
    let shown = between(part, "<p class=\"numbers\"><code>", "</code>");
    assert_eq!(shown, numbers(&record).trim_end());
    let verdict = format!("<b class=\"good\">accepted: used set {set} = credential");
    assert!(part.contains(&verdict), "{part}");
    let figure = inside(part, "<figure");
    for number in 1..=record.len() / 2 {
        let box_number = format!(" text-anchor=\"end\">{number}</text>");
        assert_eq!(figure.matches(&box_number).count(), 1, "{figure}");
    }
    let kind_1 = figure.matches(">word ").count();
    let words = part.matches("<table class=\"words\"").count();
    let runs = part.split("<table class=\"runs\"").skip(1);
    assert_eq!(words, usize::from(runs.clone().count() == 0));
    for table in runs {
        let (table, _) = table.split_once("</table>").expect("an end");
        assert_eq!(rows(table).len(), kind_1);
    }
}

/// The texts of the examples that have a query.
fn examples() -> Vec<String> {
    let folder = PathBuf::from(env!("CARGO_MANIFEST_DIR")).join("../../examples");
    let files = fs::read_dir(folder).expect("the examples");
    let files = files.map(|entry| entry.expect("an entry").path());
    let files = files.filter(|path| path.extension().is_some_and(|end| end == "wallet"));
    let texts = files.map(|path| fs::read_to_string(path).expect("a text"));
    texts.collect()
}

#[test]
fn every_example_has_a_page() {
    let (mut count, mut refused) = (0, 0);
    for text in examples() {
        let made = made(&text);
        check_answer(&made);
        count += 1;
        refused += usize::from(made.page.refused);
    }
    assert!(count > 10 && refused > 0 && refused < count);
}

#[test]
fn made_up_wallets_have_pages() {
    let mut random = Random::new(41);
    let mut refused = 0;
    for _ in 0..120 {
        let (numbers, query) = made_up(&mut random);
        let made = made(&print(&nameless(&numbers, Some(query))));
        refused += usize::from(made.page.refused);
    }
    println!("{refused} of 120 are refused");
    assert!((10..110).contains(&refused));
}

#[test]
fn a_constraint_is_said_with_its_edges_and_its_runs() {
    let text = fs::read_to_string(SHOP.replace("shop.", "medical.")).expect("a text");
    let made = made(&text);
    let all = &made.page.html;
    let some = said(part(all, "constraint-1"));
    assert!(some.contains("Constraint through-centre"), "{some}");
    assert!(some.contains("It begins on line 18. It is attached to credential 3. "));
    assert!(some.contains("It demands some word: "));
    assert!(some.contains("It starts in {before} and accepts in {through}."));
    let edges = rows(table(part(all, "constraint-1"), "edges"));
    let second = ["before", "any role of Centre", "through", "23"];
    assert_eq!(
        (edges.len(), edges[1].as_slice()),
        (3, &second.map(String::from)[..])
    );
    assert!(said(part(all, "constraint-2")).contains("It demands every word: "));
    let set = said(part(all, "set-95"));
    let lenient = "Constraint through-centre demands some word, and accepts 1 of 3 words: met";
    assert!(set.contains(lenient), "{set}");
    let strict = "Constraint for-the-race demands every word, and accepts all 3 words: met";
    assert!(set.contains(strict), "{set}");
    let run = "{before} Race.starter {before} Race.fit {before} Centre.passed {before through}";
    assert!(set.contains(run), "{set}");
}

#[test]
fn a_refusal_is_said_with_its_number() {
    let shop = fs::read_to_string(SHOP).expect("a text");
    let made = made(
        &shop
            .replace("School.student <- Ann", "")
            .replace("discount <- Ann", "x <- Ann"),
    );
    check_answer(&made);
    let none = "<h1>Refused 9: there is no minimal set for Ann in Shop.discount within 2</h1>";
    assert!(made.page.html.contains(none));
    assert!(made.page.refused);
    assert!(!made.page.html.contains("<section id=\"sets\""));
}

#[test]
fn what_stands_in_a_comment_is_no_markup() {
    let trouble = "<script>alert(\"1\")</script> & &amp; ]]> --> '\u{0}\u{1}";
    let text = format!("\u{feff}A.r <- D # {trouble}\r\n#{trouble}\n\tD in A.r within 1");
    let wallet = parse(text.as_bytes()).expect("a wallet");
    let page = report(&wallet, wallet.query.expect("a query"), &text, "<i>&\"name");
    check(&page.html);
    let listing = table(part(&page.html, "wallet"), "listing");
    let shown = trouble.replace(['\u{0}', '\u{1}'], "\u{fffd}");
    let rows = rows(listing);
    assert_eq!(rows[0], ["1", "1", &format!("A.r <- D # {shown}")]);
    assert_eq!(rows[1], ["2", "", &format!("#{shown}")]);
    assert_eq!(rows[2], ["3", "?", "\tD in A.r within 1"]);
    assert!(said(inside(&page.html, "<header")).contains("<i>&\"name"));
}

/// A role for which there are so many ways, times so many others.
fn many_sets() -> String {
    let mut text = "G.open <- G.one & G.two & G.three & G.four\n".to_string();
    for (role, ways) in [("one", 4), ("two", 5), ("three", 5), ("four", 5)] {
        text += &format!("G.{role} <- Zoe\n").repeat(ways);
    }
    text + "Zoe in G.open within 2\n"
}

#[test]
fn a_long_list_is_shown_in_full_at_its_beginning() {
    let made = made(&many_sets());
    check_answer(&made);
    let Answer::Sets(sets) = listed(&made.wallet, made.query) else {
        panic!("a list");
    };
    assert_eq!(sets.len(), 500);
    let html = &made.page.html;
    assert_eq!(html.matches("class=\"set\"").count(), 50);
    assert!(said(part(html, "sets")).contains("The first 50 of 500 sets are shown in full."));
    let others = rows(table(part(html, "others"), "others"));
    let expected = sets[50..].iter().map(|set| {
        let numbers: Vec<u32> = bwlchareg::credentials(*set).collect();
        let numbers: Vec<String> = numbers.iter().map(u32::to_string).collect();
        vec![set.to_string(), numbers.join(", ")]
    });
    assert_eq!(others, expected.collect::<Vec<Vec<String>>>());
    assert!(html.len() < 1 << 20, "{}", html.len());
}

/// A role for which so many levels each need the next one four times, and so many
/// ways to the last.
fn large_records(levels: usize, ways: usize) -> String {
    let mut text = String::new();
    for level in 1..levels {
        let below = format!("A.r{}", level + 1);
        text += &format!("A.r{level} <- {below} & {below} & {below} & {below} under c\n");
    }
    text += &format!("A.r{levels} <- D\n").repeat(ways);
    text += "constraint c\nstart 0\naccept 0\n0 -- any --> 0\n";
    text + &format!("D in A.r1 within {levels}\n")
}

#[test]
fn a_long_record_is_shortened() {
    let made = made(&large_records(6, 1));
    let set = said(part(&made.page.html, "set-63"));
    assert!(set.contains(" \u{2026} and 2330 more numbers"), "{set}");
    assert!(set.contains("It is not drawn: 1365 nodes are too many for a picture"));
    assert!(set.contains("demands every word, and accepts all 1024 words: met"));
    assert!(set.contains("\u{2026} and 924 more words, 0 of them rejected"));
    assert!(made.page.html.len() < 1 << 17, "{}", made.page.html.len());
}

#[test]
fn a_page_does_not_grow_without_bound() {
    // 341 nodes each are drawn until the page is large enough.
    let made = made(&large_records(5, 14));
    let shown = made.page.html.matches("class=\"set\"").count();
    assert!((2..14).contains(&shown), "{shown}");
    assert!(made.page.html.len() < 6 << 20, "{}", made.page.html.len());
    let others = part(&made.page.html, "others");
    assert_eq!(rows(others).len(), 14 - shown);
    // More than a million numbers are not written, and it is said.
    let made = made_large(11, 9);
    assert!(
        said(&made).contains("refused 16: the record of set 2047 has more than 1048576 numbers")
    );
    assert!(made.len() < 1 << 17, "{}", made.len());
}

/// The page about large records.
fn made_large(levels: usize, ways: usize) -> String {
    let made = made(&large_records(levels, ways).replace(" under c", ""));
    assert!(!made.page.refused);
    document(&made.page.html).to_string()
}

#[test]
fn a_long_text_is_shown_where_it_says_something() {
    let many = "# nothing\n".repeat(3_000);
    let text = format!("{many}A.r <- D\n{many}D in A.r within 1\n");
    let wallet = parse(text.as_bytes()).expect("a wallet");
    let page = report(
        &wallet,
        wallet.query.expect("a query"),
        &text,
        "long.wallet",
    );
    check(&page.html);
    let listing = table(part(&page.html, "wallet"), "listing");
    let rows = rows(listing);
    assert_eq!(rows.len(), 1_004);
    assert_eq!(rows[1_000], ["", "", "2000 lines left out"]);
    assert_eq!(rows[1_001], ["3001", "1", "A.r <- D"]);
    assert_eq!(rows[1_002], ["", "", "3000 lines left out"]);
    assert_eq!(rows[1_003], ["6002", "?", "D in A.r within 1"]);
}

#[test]
fn names_of_any_length_and_script_are_shown() {
    let long = "x".repeat(5_000);
    let text = format!("{long}.r <- \u{5927}\u{5b66}\n\u{5927}\u{5b66} in {long}.r within 1\n");
    let made = made(&text);
    let set = said(part(&made.page.html, "set-1"));
    let short = format!("{}\u{2026}{}.r", "x".repeat(70), "x".repeat(40));
    assert!(
        set.contains(&format!("\u{5927}\u{5b66} in {short}")),
        "{set}"
    );
    // The whole name stands in the wallet's text, on both its lines.
    assert_eq!(made.page.html.matches(&long).count(), 2);
}

#[test]
fn the_tool_writes_the_page() {
    let path = fresh("report-shop.html");
    let path_text = path.to_str().expect("a path in text");
    let done = run(&["report", SHOP, "-o", path_text], b"");
    assert_eq!(
        (done.code, done.out.as_slice()),
        (Some(0), &b""[..]),
        "{}",
        done.err
    );
    let page = fs::read_to_string(&path).expect("a page");
    check(&page);
    assert!(said(inside(&page, "<header")).contains(SHOP));
    // A refusal is a page too, and is told by the status.
    let within_1 = "School in Shop.discount within 1";
    let done = run(&["report", SHOP, "--query", within_1], b"");
    assert_eq!(done.code, Some(1), "{}", done.err);
    let page = done.text();
    check(&page);
    assert!(said(document(&page)).contains("The question was given with --query."));
    // A text that is no wallet has no page.
    let wrong = file("report-wrong.wallet", b"A.r <- \n");
    let path = fresh("report-wrong.html");
    let path_text = path.to_str().expect("a path in text");
    assert_eq!(run(&["report", &wrong, "-o", path_text], b"").code, Some(2));
    assert!(!path.exists());
}
