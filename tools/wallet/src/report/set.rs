//! A set in full: its credentials, what it shows, its record, its derivation, and
//! its words with the runs of the constraints.

use bwlchareg::{Number, Query};

use crate::derivation::{judge, Judged};
use crate::explain::shown;
use crate::proof;
use crate::report::html::{classed, code, element, link, row, table, with, Html};
use crate::report::runs;
use crate::report::said::{credential_links, place, tone};
use crate::svg::{pictures, Paper};
use crate::tree::{counted, verdict};
use crate::words::words;
use crate::Wallet;

/// So many numbers of a record are shown.
const NUMBERS_SHOWN: usize = 400;

/// What pictures are drawn on: as wide as a narrow window and a sheet of paper,
/// and no higher than a sheet.
const PAPER: Paper = Paper {
    width: 720,
    height: 900,
    headed: false,
};

/// The section of a set.
pub struct Section {
    /// What it says.
    pub html: Html,
    /// How many numbers the set's record has.
    pub numbers: usize,
    /// Whether the verifier does not accept the record with the set.
    pub refused: bool,
}

impl Section {
    /// The section of a listed set.
    pub fn new(wallet: &Wallet, query: Query, set: u32) -> Section {
        let (proof, numbers, refused) = match proof::first_record(wallet, query, set) {
            Ok(record) => {
                let judged = judge(wallet, query, &record);
                let refused = judged.verdict != Ok(set);
                (proof(wallet, &judged, &record), record.len(), refused)
            }
            Err(refusal) => {
                let said = proof::refused(wallet, query, set, refusal);
                (no_proof(&said), proof::MOST_CELLS, false)
            }
        };
        let inside = [
            element("h3", format!("Set {set}")),
            credentials(wallet, set),
            element("h4", "What it shows"),
            memberships(wallet, set),
            proof,
        ];
        Section {
            html: with("section", &[("id", &place(set)), ("class", "set")], inside),
            numbers,
            refused,
        }
    }
}

/// The credentials of a set, with their lines.
fn credentials(wallet: &Wallet, set: u32) -> Html {
    let table_of = &wallet.table;
    let numbered = (1u32..).zip(&table_of.credentials);
    let own = numbered.filter(|(number, _)| set >> (number - 1) & 1 == 1);
    let rows = own.map(|(number, credential)| {
        let line = wallet.lines.credentials.get(number as usize - 1);
        let text = wallet.names.credential(table_of, credential);
        let line = line.map(|line| link(&format!("line-{line}"), *line));
        row(credential_links([number]), [code(text), line.into()])
    });
    let about = counted(set.count_ones() as usize, "credential");
    table("credentials", about, &["No.", "Credential", "Line"], rows)
}

/// The memberships that a set shows.
fn memberships(wallet: &Wallet, set: u32) -> Html {
    let goals = shown(&wallet.table, set);
    if goals.is_empty() {
        return element("p", "Nobody.");
    }
    let items = goals.into_iter().map(|goal| {
        let text = wallet.names.goal(goal.principal, goal.role);
        element("li", code(text))
    });
    classed("ul", "shows", items.collect::<Html>())
}

/// The record of a set, its derivation, and its words.
fn proof(wallet: &Wallet, judged: &Judged, record: &[Number]) -> Html {
    let said = verdict(wallet, judged, &words(wallet, judged));
    let tone = tone(judged.refusal().is_none());
    let said = ["The verifier says: ".into(), classed("b", tone, said)];
    [
        element("h4", "Record"),
        numbers(record),
        element("p", said),
        element("h4", "Derivation"),
        picture(wallet, judged),
        runs::section(wallet, judged),
    ]
    .into()
}

/// Why there is no record.
fn no_proof(said: &str) -> Html {
    [element("h4", "Record"), element("p", said)].into()
}

/// The numbers of a record, or the first of them and how many there are.
fn numbers(record: &[Number]) -> Html {
    let shown = &record[..record.len().min(NUMBERS_SHOWN)];
    let text = proof::numbers(shown);
    let more = match record.len() - shown.len() {
        0 => None,
        more => Some(classed(
            "span",
            "pale",
            format!(" \u{2026} and {more} more numbers"),
        )),
    };
    classed("p", "numbers", [code(text.trim_end()), more.into()])
}

/// The picture of a derivation, or why there is none.
fn picture(wallet: &Wallet, judged: &Judged) -> Html {
    match pictures(wallet, judged, PAPER) {
        Ok(parts) => element(
            "figure",
            parts.into_iter().map(Html::made).collect::<Html>(),
        ),
        Err(why) => classed("p", "pale", format!("It is not drawn: {why}.")),
    }
}
