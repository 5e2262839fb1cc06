//! The wallet's text as it is written, with the numbers of its lines and of its
//! credentials.

use std::collections::BTreeMap;

use crate::report::html::{classed, code, element, table, with, Html};
use crate::report::Part;
use crate::tree::counted;
use crate::Wallet;

/// So many lines are shown. Of those below, the ones on which a record of the
/// table or the query stands are shown too.
const LINES_SHOWN: usize = 1_000;

/// The part about the wallet.
pub fn part(wallet: &Wallet, text: &str, name: &str) -> Part {
    let (table, names) = (&wallet.table, &wallet.names);
    let some = |count, one| match count {
        0 => format!("no {one}s"),
        _ => counted(count, one),
    };
    let counts = format!(
        " has {}, {}, {} and {}.",
        some(table.credentials.len(), "credential"),
        some(table.automata.len(), "constraint"),
        some(names.principals.len(), "principal"),
        some(names.roles.len(), "role name")
    );
    Part {
        place: "wallet",
        name: "The wallet",
        inside: [
            element("p", [code(name), counts.into()]),
            listing(wallet, text),
        ]
        .into(),
    }
}

/// The lines of the text.
fn listing(wallet: &Wallet, text: &str) -> Html {
    let about = "The text as it is written; a credential's number stands beside its line";
    let marks = marks(wallet);
    let mut rows = Vec::new();
    let mut hidden = 0;
    for (number, line) in (1..).zip(lines(text)) {
        let mark = marks.get(&number);
        if number > LINES_SHOWN && mark.is_none() {
            hidden += 1;
            continue;
        }
        rows.extend(left_out(&mut hidden));
        rows.push(row(number, mark.unwrap_or(&Html::default()), line));
    }
    rows.extend(left_out(&mut hidden));
    table("listing", about, &["Line", "No.", "Text"], rows.into_iter())
}

/// The lines of a text, without the signs that end them and the one that may
/// begin it.
fn lines(text: &str) -> impl Iterator<Item = &str> {
    text.strip_prefix('\u{feff}').unwrap_or(text).lines()
}

/// The row that stands for lines that are left out, of which it counts none any
/// more.
fn left_out(hidden: &mut usize) -> Option<Html> {
    let count = std::mem::take(hidden);
    let said = format!("{} left out", counted(count, "line"));
    let row = [
        element("td", ""),
        element("td", ""),
        classed("td", "pale", said),
    ];
    (count > 0).then(|| element("tr", row))
}

/// What stands beside each line on which a record of the table or the query is.
fn marks(wallet: &Wallet) -> BTreeMap<usize, Html> {
    let lines = &wallet.lines;
    let others = [&lines.cells, &lines.automata, &lines.edges];
    let others = others.into_iter().flatten();
    let mut marks: BTreeMap<usize, Html> = others.map(|line| (*line, Html::default())).collect();
    marks.extend(
        lines
            .query
            .map(|line| (line, classed("span", "asked", "?"))),
    );
    for (number, line) in (1usize..).zip(&lines.credentials) {
        let id = format!("credential-{number}");
        marks.insert(*line, with("b", &[("id", &id)], number));
    }
    marks
}

/// A line with its number and what stands beside it.
fn row(number: usize, mark: &Html, line: &str) -> Html {
    let head = [("scope", "row"), ("id", &format!("line-{number}"))];
    let cells = [
        with("th", &head, number),
        element("td", mark.clone()),
        element("td", code(coloured(line))),
    ];
    element("tr", cells)
}

/// A line whose comment is set apart.
fn coloured(line: &str) -> Html {
    match line.find('#') {
        None => line.into(),
        Some(place) => [
            line[..place].into(),
            classed("span", "pale", &line[place..]),
        ]
        .into(),
    }
}
