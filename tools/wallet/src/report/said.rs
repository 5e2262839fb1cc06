//! What several sections say: sets, credentials and lines.

use crate::report::html::{link, Html};

/// The numbers of credentials, each a link to the credential.
pub fn credential_links(numbers: impl IntoIterator<Item = u32>) -> Html {
    let mut links: Vec<Html> = Vec::new();
    for number in numbers {
        if !links.is_empty() {
            links.push(", ".into());
        }
        links.push(link(&format!("credential-{number}"), number.to_string()));
    }
    links.into_iter().collect()
}

/// A line of the wallet, as a link to it.
pub fn line_link(line: usize) -> Html {
    link(&format!("line-{line}"), format!("line {line}"))
}

/// The class of something good or bad.
pub fn tone(is_good: bool) -> &'static str {
    if is_good {
        "good"
    } else {
        "bad"
    }
}

/// The place of a set on the page.
pub fn place(set: u32) -> String {
    format!("set-{set}")
}
