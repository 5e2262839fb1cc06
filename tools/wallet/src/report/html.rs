//! HTML in the making. Whatever is not made here is text, and has no markup in
//! it. Every element has its end, so that a page is well-formed XML too.

use std::fmt::Write;

use crate::markup::escaped;

/// Markup.
#[derive(Clone, Debug, Default, PartialEq, Eq)]
pub struct Html(String);

impl Html {
    /// Markup that is made elsewhere.
    pub fn made(markup: impl Into<String>) -> Html {
        Html(markup.into())
    }

    /// How many bytes it has.
    pub fn size(&self) -> usize {
        self.0.len()
    }

    /// The markup as it is written.
    pub fn written(self) -> String {
        self.0
    }
}

impl From<&str> for Html {
    fn from(text: &str) -> Html {
        Html(escaped(text))
    }
}

impl From<String> for Html {
    fn from(text: String) -> Html {
        Html(escaped(&text))
    }
}

impl From<usize> for Html {
    fn from(number: usize) -> Html {
        Html(number.to_string())
    }
}

impl<const COUNT: usize> From<[Html; COUNT]> for Html {
    fn from(parts: [Html; COUNT]) -> Html {
        parts.into_iter().collect()
    }
}

impl From<Option<Html>> for Html {
    fn from(part: Option<Html>) -> Html {
        part.unwrap_or_default()
    }
}

impl FromIterator<Html> for Html {
    fn from_iter<Parts: IntoIterator<Item = Html>>(parts: Parts) -> Html {
        let mut all = String::new();
        for part in parts {
            all.push_str(&part.0);
        }
        Html(all)
    }
}

/// An element.
pub fn element(name: &str, inside: impl Into<Html>) -> Html {
    with(name, &[], inside)
}

/// An element of a class.
pub fn classed(name: &str, class: &str, inside: impl Into<Html>) -> Html {
    with(name, &[("class", class)], inside)
}

/// A link to a place of the page.
pub fn link(place: &str, inside: impl Into<Html>) -> Html {
    with("a", &[("href", &format!("#{place}"))], inside)
}

/// A piece of a wallet's language.
pub fn code(text: impl Into<Html>) -> Html {
    element("code", text)
}

/// An element with attributes. Blocks end their line, for whoever reads the
/// source.
pub fn with(name: &str, attributes: &[(&str, &str)], inside: impl Into<Html>) -> Html {
    let begin = begin(name, attributes);
    let end = match name {
        "a" | "b" | "code" | "i" | "span" | "sup" | "td" | "th" => "",
        _ => "\n",
    };
    Html(format!("{begin}>{}</{name}>{end}", inside.into().0))
}

/// An element that has nothing inside.
pub fn empty(name: &str, attributes: &[(&str, &str)]) -> Html {
    Html(begin(name, attributes) + "/>\n")
}

/// The beginning of an element.
fn begin(name: &str, attributes: &[(&str, &str)]) -> String {
    let mut begin = format!("<{name}");
    for (key, value) in attributes {
        // Writing to a string does not fail.
        let _ = write!(begin, " {key}=\"{}\"", escaped(value));
    }
    begin
}

/// A table: what it is about, the heads of its columns, and its rows.
pub fn table(
    class: &str,
    about: impl Into<Html>,
    heads: &[&str],
    rows: impl Iterator<Item = Html>,
) -> Html {
    let head = |name: &&str| with("th", &[("scope", "col")], *name);
    let heads: Html = heads.iter().map(head).collect();
    classed(
        "table",
        class,
        [
            element("caption", about),
            element("thead", element("tr", heads)),
            element("tbody", rows.collect::<Html>()),
        ],
    )
}

/// A row of a table: its head, and its cells.
pub fn row(head: impl Into<Html>, cells: impl IntoIterator<Item = Html>) -> Html {
    let head = with("th", &[("scope", "row")], head);
    let cells = cells.into_iter().map(|cell| element("td", cell));
    element("tr", std::iter::once(head).chain(cells).collect::<Html>())
}
