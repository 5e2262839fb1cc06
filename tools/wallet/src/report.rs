//! A wallet, a query and the answer as one page that a browser shows and a
//! printer prints. The page needs nothing besides: no network, no script, no font.
//!
//! The list, the records and the verdicts are the library's. The page is bounded,
//! however long the list and its records are: it says what it leaves out.

mod about;
mod constraints;
mod html;
mod listing;
mod overview;
mod runs;
mod said;
mod set;
mod sets;

use bwlchareg::{Query, Refusal};

use crate::answer::CELLS;
use crate::shortened::with_short_names;
use crate::why::findings;
use crate::Wallet;
use html::{classed, element, empty, with, Html};

/// What the page looks like.
const STYLE: &str = include_str!("report/page.css");
/// Nothing is fetched, and nothing is run.
const POLICY: &str =
    "default-src 'none'; style-src 'unsafe-inline'; base-uri 'none'; form-action 'none'";

/// A page, and whether the library has refused what it is about.
#[derive(Clone, Debug, PartialEq, Eq)]
pub struct Report {
    /// The page, HTML.
    pub html: String,
    /// Whether the library has refused.
    pub refused: bool,
}

/// The page about a query of the wallet that a text is, with the name of the
/// text's file.
pub fn report(wallet: &Wallet, query: Query, text: &str, name: &str) -> Report {
    let listing = Listing::new(wallet, query, CELLS);
    of_listing(wallet, query, &listing, text, name)
}

/// The same for an answer of the library.
fn of_listing(wallet: &Wallet, query: Query, listing: &Listing, text: &str, name: &str) -> Report {
    let wallet = &with_short_names(wallet);
    let in_full = sets::in_full(wallet, query, &listing.sets);
    let refused = listing.refusal.is_some();
    let findings = findings(wallet, query);
    let parts = [
        about::why_not(&findings).filter(|_| refused),
        Some(listing::part(wallet, text, name)),
        constraints::part(wallet),
        sets::part(wallet, &listing.sets, &in_full),
        sets::others(&listing.sets[in_full.count..]),
        about::why_no_other(&findings).filter(|_| !refused),
        Some(about::page()),
    ];
    let parts: Vec<Part> = parts.into_iter().flatten().collect();
    let head = overview::head(wallet, query, listing, name);
    let contents = overview::contents(&listing.sets, in_full.count, &parts);
    let main = element("main", parts.into_iter().map(Part::html).collect::<Html>());
    let class = if contents.is_some() { "several" } else { "one" };
    let body = classed("body", class, [head, contents.into(), main]);
    Report {
        html: document(&overview::verdict(wallet, query, listing), body),
        refused: refused || in_full.refused,
    }
}

/// The whole page with this title.
fn document(title: &str, body: Html) -> String {
    let width = "width=device-width, initial-scale=1";
    let head = [
        empty("meta", &[("charset", "utf-8")]),
        empty(
            "meta",
            &[
                ("http-equiv", "Content-Security-Policy"),
                ("content", POLICY),
            ],
        ),
        empty("meta", &[("name", "viewport"), ("content", width)]),
        element("title", title),
        element("style", Html::made(STYLE)),
    ];
    let language = [("lang", "en"), ("xmlns", "http://www.w3.org/1999/xhtml")];
    let page = with("html", &language, [element("head", head), body]);
    format!("<!DOCTYPE html>\n{}", page.written())
}

/// A part of the page: its place, its heading, and what stands below that.
pub struct Part {
    place: &'static str,
    name: &'static str,
    inside: Html,
}

impl Part {
    fn html(self) -> Html {
        let heading = element("h2", self.name);
        with("section", &[("id", self.place)], [heading, self.inside])
    }
}

/// What the library lists.
pub struct Listing {
    /// The sets; the first ones, if there are too many.
    sets: Vec<u32>,
    /// The refusal, if there is no list or only its beginning.
    refusal: Option<Refusal>,
}

impl Listing {
    /// The library's answer with so many cells.
    fn new(wallet: &Wallet, query: Query, cells: usize) -> Listing {
        let mut sets = vec![0; cells];
        let answer = bwlchareg::list(&wallet.table.numbers(), query, &mut sets);
        let count = match answer {
            Ok(count) => count,
            // The cells have the first sets.
            Err(refusal) if refusal.number == Refusal::LONGER => cells,
            Err(_) => 0,
        };
        sets.truncate(count);
        Listing {
            sets,
            refusal: answer.err(),
        }
    }
}

#[cfg(test)]
mod tests {
    use super::{of_listing, Listing};
    use crate::parse::parse;
    use bwlchareg::Refusal;

    #[test]
    fn of_too_many_sets_the_first_are_shown() {
        let text = "A.r <- D\nA.r <- D\nA.r <- D\nD in A.r within 1\n";
        let wallet = parse(text.as_bytes()).expect("a wallet");
        let query = wallet.query.expect("a query");
        let listing = Listing::new(&wallet, query, 2);
        assert_eq!(listing.sets, [1, 2]);
        let refusal = listing.refusal.map(|refusal| refusal.number);
        assert_eq!(refusal, Some(Refusal::LONGER));
        let page = of_listing(&wallet, query, &listing, text, "three.wallet");
        assert!(page.refused);
        assert!(page.html.contains("<h1>Refused 10: more than "));
        assert!(page.html.contains("The first 2 of the sets are below."));
        assert!(page.html.contains(" id=\"set-2\"") && !page.html.contains(" id=\"set-4\""));
    }
}
