//! The listed sets: which credentials each has, the first ones in full, and the
//! others as a table.

use bwlchareg::Query;

use crate::report::html::{classed, element, link, row, table, with, Html};
use crate::report::said::{credential_links, place};
use crate::report::set::Section;
use crate::report::Part;
use crate::Wallet;

/// So many sets are shown in full; fewer, if their sections have more bytes than
/// this or their records more numbers.
const SETS_IN_FULL: usize = 50;
const MOST_BYTES: usize = 2 << 20;
const MOST_NUMBERS: usize = 4 << 20;

/// The first sets, in full.
pub struct InFull {
    /// Their sections.
    pub html: Html,
    /// How many they are.
    pub count: usize,
    /// Whether the verifier does not accept each record with its set.
    pub refused: bool,
}

/// The first sets of a list, as many as a page has room for.
pub fn in_full(wallet: &Wallet, query: Query, sets: &[u32]) -> InFull {
    let mut sections: Vec<Html> = Vec::new();
    let (mut bytes, mut numbers, mut refused) = (0, 0, false);
    for set in sets.iter().take(SETS_IN_FULL) {
        if bytes > MOST_BYTES || numbers > MOST_NUMBERS {
            break;
        }
        let section = Section::new(wallet, query, *set);
        bytes += section.html.size();
        numbers += section.numbers;
        refused |= section.refused;
        sections.push(section.html);
    }
    InFull {
        count: sections.len(),
        html: sections.into_iter().collect(),
        refused,
    }
}

/// The part with the sets in full.
pub fn part(wallet: &Wallet, sets: &[u32], in_full: &InFull) -> Option<Part> {
    let (first, more) = sets.split_at(in_full.count);
    let note = format!(
        "The first {} of {} sets are shown in full. The other {} are listed at the end.",
        first.len(),
        sets.len(),
        more.len()
    );
    let note = (!more.is_empty()).then(|| element("p", note));
    let matrix = (sets.len() > 1).then(|| matrix(wallet, first));
    (!sets.is_empty()).then(|| Part {
        place: "sets",
        name: "The sets",
        inside: [
            how_to_read(),
            note.into(),
            matrix.into(),
            in_full.html.clone(),
        ]
        .into(),
    })
}

/// What the numbers and the pictures mean.
fn how_to_read() -> Html {
    let power = [
        Html::from("2"),
        element("sup", [element("i", "i"), "\u{2212}1".into()]),
    ];
    let set = [
        "A set is a number in which credential ".into(),
        element("i", "i"),
        " counts ".into(),
        power.into(),
        ". Its record says how it proves the answer: two numbers for each node of the \
         derivation, from the question down, the credential and the middle, which is 0 if there \
         is none. In the picture a box is a node: its goal, and the credential through which the \
         goal follows from the boxes below it."
            .into(),
    ];
    element("p", set)
}

/// Which credential is in which of the sets that are shown in full.
fn matrix(wallet: &Wallet, sets: &[u32]) -> Html {
    let count = wallet.table.credentials.len() as u32;
    let heads = (1..=count).map(|number| credential_links([number]));
    let heads = std::iter::once(Html::from("Set")).chain(heads);
    let heads = heads.map(|head| with("th", &[("scope", "col")], head));
    let rows = sets.iter().map(|set| {
        let cells = (0..count).map(|index| match set >> index & 1 {
            1 => Html::from("\u{25cf}"),
            _ => Html::default(),
        });
        row(link(&place(*set), set.to_string()), cells)
    });
    let inside = [
        element("caption", "Which credentials each set has"),
        element("thead", element("tr", heads.collect::<Html>())),
        element("tbody", rows.collect::<Html>()),
    ];
    // A window may be too narrow for it.
    classed("div", "wide", classed("table", "matrix", inside))
}

/// The part with the sets that are not shown in full.
pub fn others(sets: &[u32]) -> Option<Part> {
    let rows = sets.iter().map(|set| {
        let numbers = bwlchareg::credentials(*set).map(|number| number.to_string());
        let numbers: Vec<String> = numbers.collect();
        row(set.to_string(), [numbers.join(", ").into()])
    });
    let about = "Those that are not shown in full";
    (!sets.is_empty()).then(|| Part {
        place: "others",
        name: "Further sets",
        inside: table("others", about, &["Set", "Credentials"], rows),
    })
}
