//! What stands at the top of a page: the question, the verdict, and what is on the
//! page.

use bwlchareg::Query;

use crate::answer::Answer;
use crate::explain::{explain, heading};
use crate::report::html::{classed, code, element, link, with, Html};
use crate::report::said::{line_link, place, tone};
use crate::report::{Listing, Part};
use crate::table::Role;
use crate::tree::counted;
use crate::Wallet;

/// The verdict, as one line without a full stop.
pub fn verdict(wallet: &Wallet, query: Query, listing: &Listing) -> String {
    let said = match listing.refusal {
        None => heading(wallet, query, listing.sets.len()),
        Some(refusal) => explain(wallet, query, &Answer::Refused(refusal)),
    };
    let said = said.trim_end();
    match said.strip_prefix("refused ") {
        Some(rest) => format!("Refused {rest}"),
        None => said.to_string(),
    }
}

/// The head of the page.
pub fn head(wallet: &Wallet, query: Query, listing: &Listing, name: &str) -> Html {
    let tone = tone(listing.refusal.is_none());
    let inside = [
        classed("p", "pale", ["Report on ".into(), code(name)]),
        element("h1", verdict(wallet, query, listing)),
        element("p", [question(wallet, query), meaning(listing).into()]),
    ];
    classed("header", tone, inside)
}

/// What is asked, and where.
fn question(wallet: &Wallet, query: Query) -> Html {
    let names = &wallet.names;
    let asked = match wallet.lines.query {
        Some(line) => [
            " The question stands on ".into(),
            line_link(line),
            " of the wallet.".into(),
        ]
        .into(),
        None => Html::from(" The question was given with --query."),
    };
    [
        "Is ".into(),
        code(names.principal(query.principal)),
        " in ".into(),
        code(names.role(Role::asked(query))),
        format!(
            ", by a derivation of at most {}?",
            counted(query.depth as usize, "level")
        )
        .into(),
        asked,
    ]
    .into()
}

/// What the verdict says of the sets.
fn meaning(listing: &Listing) -> String {
    match (listing.refusal, listing.sets.len()) {
        (None, 1) => " The set below proves it, and none of its credentials can be left out. \
            There is no other such set."
            .to_string(),
        (None, _) => " Each of the sets below proves it, and none of its credentials can be left \
            out. There is no other such set."
            .to_string(),
        (Some(_), 0) => String::new(),
        (Some(_), count) => format!(" The first {count} of the sets are below."),
    }
}

/// The parts of the page, and the sets that are shown in full, if there are
/// several.
pub fn contents(sets: &[u32], in_full: usize, parts: &[Part]) -> Option<Html> {
    let own = sets.iter().take(in_full);
    let own = own.map(|set| element("li", link(&place(*set), set.to_string())));
    let own = element("ul", own.collect::<Html>());
    let item = |part: &Part| {
        let below = (part.place == "sets").then(|| own.clone());
        element("li", [link(part.place, part.name), below.into()])
    };
    let items: Html = parts.iter().map(item).collect();
    let inside = [classed("p", "pale", "Contents"), element("ul", items)];
    (sets.len() > 1).then(|| with("nav", &[("aria-label", "Contents")], inside))
}
