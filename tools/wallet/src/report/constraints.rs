//! The wallet's constraints: what each demands, of which credentials, and how it
//! reads words.

use bwlchareg::Number;

use crate::report::html::{classed, code, element, link, row, table, with, Html};
use crate::report::said::{credential_links, line_link};
use crate::report::Part;
use crate::table::{Automaton, Edge, Label, Mark, StateSet};
use crate::tree::set;
use crate::Wallet;

/// The part about the constraints; nothing if there are none.
pub fn part(wallet: &Wallet) -> Option<Part> {
    let about = element(
        "p",
        "A constraint reads the words of a proof that uses a credential to which it is attached. \
         A word is the list of roles from the question down to a leaf of the derivation; there is \
         one for each leaf.",
    );
    let numbered = (1..).zip(&wallet.table.automata);
    let all = numbered.map(|(number, automaton)| constraint(wallet, number, automaton));
    let inside = std::iter::once(about).chain(all).collect();
    (!wallet.table.automata.is_empty()).then_some(Part {
        place: "constraints",
        name: "The constraints",
        inside,
    })
}

/// The place of a constraint on the page.
pub fn place(number: Number) -> String {
    format!("constraint-{number}")
}

/// A constraint.
fn constraint(wallet: &Wallet, number: Number, automaton: &Automaton) -> Html {
    let demand = match automaton.mark {
        Mark::EveryWord => "It demands every word: it must accept each word of such a proof.",
        Mark::SomeWord => "It demands some word: it must accept at least one word of such a proof.",
    };
    let name = code(wallet.names.constraint(number));
    let inside = [
        element("h3", ["Constraint ".into(), name]),
        element("p", [attached(wallet, number), demand.into()]),
        element("p", states(wallet, number, automaton)),
        edges(wallet, number),
    ];
    with(
        "section",
        &[("id", &place(number)), ("class", "box")],
        inside,
    )
}

/// Where a constraint stands, and to which credentials it is attached.
fn attached(wallet: &Wallet, number: Number) -> Html {
    let line = wallet.lines.automata.get(number as usize - 1);
    let line = line.map(|line| ["It begins on ".into(), line_link(*line), ". ".into()].into());
    let credentials = (1..).zip(&wallet.table.credentials);
    let own = credentials.filter(|(_, credential)| credential.automaton == number);
    let own: Vec<u32> = own.map(|(credential, _)| credential).collect();
    let said = match own.len() {
        0 => "It is attached to no credential",
        1 => "It is attached to credential ",
        _ => "It is attached to credentials ",
    };
    [line.into(), said.into(), credential_links(own), ". ".into()].into()
}

/// In which states a constraint starts and accepts.
fn states(wallet: &Wallet, number: Number, automaton: &Automaton) -> Html {
    let said = |states: Number| code(set(&wallet.names, number, states as StateSet));
    [
        "It starts in ".into(),
        said(automaton.start),
        " and accepts in ".into(),
        said(automaton.accept),
        ".".into(),
    ]
    .into()
}

/// The edges of a constraint.
fn edges(wallet: &Wallet, number: Number) -> Html {
    let edges = wallet.table.edges.iter().enumerate();
    let own = edges.filter(|(_, edge)| edge.automaton == number);
    let mut rows = own.map(|(index, edge)| {
        let line = wallet.lines.edges.get(index);
        let line = line.map(|line| link(&format!("line-{line}"), *line));
        let state = |state| code(wallet.names.state(number, state));
        row(
            state(edge.from),
            [reads(wallet, edge), state(edge.to), line.into()],
        )
    });
    match rows.next() {
        None => classed("p", "pale", "It has no edges."),
        Some(first) => table(
            "edges",
            "Its edges",
            &["In state", "it reads", "and goes to", "Line"],
            std::iter::once(first).chain(rows),
        ),
    }
}

/// Which roles an edge reads.
fn reads(wallet: &Wallet, edge: &Edge) -> Html {
    let names = &wallet.names;
    match edge.label {
        Label::Only(role) => code(names.role(role)),
        Label::Any => "any role".into(),
        Label::Not(role) => ["any role but ".into(), code(names.role(role))].into(),
        Label::Of(owner) => ["any role of ".into(), code(names.principal(owner))].into(),
    }
}
