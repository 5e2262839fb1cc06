//! Why there is no set, or no other; and what made the page, and what of it is
//! proved.

use crate::report::html::{classed, code, element, Html};
use crate::report::Part;
use crate::tree::FAULT;
use crate::why::Finding;

/// The part with what was found out about a refusal.
pub fn why_not(findings: &[Finding]) -> Option<Part> {
    part("Why not", findings)
}

/// The part with what was found out about sets that are missing.
pub fn why_no_other(findings: &[Finding]) -> Option<Part> {
    part("Why no other set", findings)
}

/// The part with what was found out; nothing if nothing was.
fn part(name: &'static str, findings: &[Finding]) -> Option<Part> {
    let items = findings.iter().map(finding).collect::<Html>();
    (!findings.is_empty()).then(|| Part {
        place: "why",
        name,
        inside: classed("ul", "findings", items),
    })
}

/// A sentence and what belongs below it.
fn finding(finding: &Finding) -> Html {
    let lines = finding.details.iter().map(|line| {
        let line = line.as_str();
        match line.starts_with(FAULT) {
            true => classed("li", "bad", code(line)),
            false => element("li", code(line)),
        }
    });
    let details = (!finding.details.is_empty()).then(|| element("ul", lines.collect::<Html>()));
    element("li", [quoted(&finding.sentence), details.into()])
}

/// A sentence in which everything between two backticks is of the wallet's
/// language.
fn quoted(sentence: &str) -> Html {
    let pieces = sentence.split('`').enumerate();
    let pieces = pieces.map(|(index, piece)| match index % 2 {
        0 => piece.into(),
        _ => code(piece),
    });
    pieces.collect()
}

/// The part about the page itself.
pub fn page() -> Part {
    let made = concat!(
        "Made by ",
        env!("CARGO_PKG_NAME"),
        " ",
        env!("CARGO_PKG_VERSION")
    );
    let proved = "The verdict, the list of sets, each record and the verifier's answer to it come \
        from the library. That its answers are right is proved, and the proof is checked by machine.";
    let shown = "Everything else is the work of the tool, which is tested and not proved: it reads \
        the wallet's text, and makes the pictures, words, runs and sentences that show the answers.";
    let verify = [
        "Whoever has the wallet can verify a record again: ".into(),
        code("wallet verify WALLET RECORD"),
        ".".into(),
    ];
    Part {
        place: "about",
        name: "About this page",
        inside: [
            element("p", format!("{made}, the tool of Bwlchareg.")),
            element("p", [element("b", "Proved. "), proved.into()]),
            element("p", [element("b", "Shown. "), shown.into()]),
            element("p", verify),
        ]
        .into(),
    }
}

#[cfg(test)]
mod tests {
    use super::why_not;
    use crate::why::Finding;

    #[test]
    fn sentences_and_their_lines_are_there() {
        let finding = |sentence: &str, details: &[&str]| Finding {
            sentence: sentence.to_string(),
            details: details.iter().map(|line| line.to_string()).collect(),
        };
        let found = [
            finding("With `a<b` for `c` there is one.", &[]),
            finding("Set 7 & others:", &["   1  A.r <- D", ">> 1  rejected"]),
        ];
        let part = why_not(&found).expect("a part");
        assert_eq!(part.name, "Why not");
        let expected = "<ul class=\"findings\">\
            <li>With <code>a&lt;b</code> for <code>c</code> there is one.</li>\n\
            <li>Set 7 &amp; others:<ul><li><code>   1  A.r &lt;- D</code></li>\n\
            <li class=\"bad\"><code>&gt;&gt; 1  rejected</code></li>\n</ul>\n</li>\n</ul>\n";
        assert_eq!(part.inside.written(), expected);
        assert!(why_not(&[]).is_none());
    }
}
