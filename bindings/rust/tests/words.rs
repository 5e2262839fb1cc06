//! The conditions of refusals stand in one table, that of docs/DEFINITION.md,
//! "Where each input is stopped". This crate, the C header and the Python module
//! tell them in its words, and have one name for each.

use std::fs;
use std::path::Path;

use bwlchareg::{Reason, Refusal};

/// A text of the repository.
fn text(name: &str) -> String {
    let root = Path::new(env!("CARGO_MANIFEST_DIR")).join("../..");
    fs::read_to_string(root.join(name)).unwrap_or_else(|error| panic!("{name}: {error}"))
}

/// What stands in a text from one place to the next of another.
fn section<'a>(text: &'a str, from: &str, to: &str) -> &'a str {
    let (_, rest) = text.split_once(from).unwrap_or_else(|| panic!("{from}"));
    rest.split_once(to).unwrap_or_else(|| panic!("{to}")).0
}

/// A row of the definition's table.
struct Row {
    number: u32,
    condition: String,
    position: String,
}

/// The rows, in the definition's order.
fn definition() -> Vec<Row> {
    let text = text("docs/DEFINITION.md");
    let table = section(&text, "## Where each input is stopped", "**Order.**");
    let rows = table.lines().filter_map(|line| {
        let cells: Vec<&str> = line.split('|').map(str::trim).collect();
        let &["", _, number, condition, position, ""] = &cells[..] else {
            return None;
        };
        Some(Row {
            number: number.parse().ok()?,
            condition: condition.to_string(),
            position: position.to_string(),
        })
    });
    rows.collect()
}

/// Numbers of refusals, each with something said of it, by number.
fn by_number(all: impl Iterator<Item = (u32, String)>) -> Vec<(u32, String)> {
    let mut all: Vec<_> = all.collect();
    all.sort();
    all
}

/// The conditions of the definition.
fn conditions() -> Vec<(u32, String)> {
    let rows = definition().into_iter();
    by_number(rows.map(|row| (row.number, row.condition)))
}

/// The sorts of places that positions count.
const SORTS: [&str; 6] = [
    "credential",
    "part cell",
    "edge",
    "automaton",
    "node",
    "field",
];

impl Row {
    /// What the position counts, if it is not 0.
    fn sort(&self) -> Option<&'static str> {
        let named = |sort: &&str| self.position.contains(*sort);
        let sort = SORTS.into_iter().find(named);
        assert_eq!(sort.is_none(), self.position == "0", "{}", self.position);
        sort
    }
}

/// What positions count, where they are not 0.
fn sorts() -> Vec<(u32, String)> {
    let rows = definition().into_iter();
    by_number(rows.filter_map(|row| Some((row.number, format!("the {}", row.sort()?)))))
}

/// The names of the crate's reasons, as constants have them.
fn names() -> Vec<(u32, String)> {
    let constant = |reason: &Reason| {
        let mut name = String::new();
        for (place, sign) in format!("{reason:?}").char_indices() {
            if sign.is_uppercase() && place > 0 {
                name.push('_');
            }
            name.push(sign.to_ascii_uppercase());
        }
        (reason.number(), name)
    };
    by_number(Reason::ALL.iter().map(constant))
}

#[test]
fn the_definition_has_a_row_for_each_of_17_numbers() {
    let numbers = conditions().into_iter().map(|(number, _)| number);
    assert!(numbers.eq(1..=17));
}

#[test]
fn the_crate_has_the_words_of_the_definition_in_its_order() {
    let rows = definition();
    assert_eq!(rows.len(), Reason::ALL.len());
    for (row, reason) in rows.iter().zip(Reason::ALL) {
        assert_eq!(
            (row.number, &*row.condition),
            (reason.number(), reason.words())
        );
        assert_eq!(Reason::try_from(row.number), Ok(*reason));
    }
}

#[test]
fn a_refusal_is_told_in_the_words_of_its_condition_with_its_position() {
    for row in definition() {
        let told = |position| {
            let number = row.number;
            Refusal { number, position }.to_string()
        };
        match row.sort() {
            None => assert_eq!(told(0), row.condition),
            Some("field") => {
                let (_, fields) = row.position.split_once(": ").expect("the fields");
                for field in fields.split(", ") {
                    let (position, name) = field.split_once(' ').expect(field);
                    let words = format!("the query's {name} is out of range");
                    assert_eq!(told(position.parse().expect(field)), words);
                }
                assert_eq!(told(5), row.condition);
            }
            Some(sort) => {
                // The sort gets its number, and loses its article.
                let (before, after) = row.condition.split_once(sort).expect(sort);
                let (before, kind) = before.rsplit_once("the ").expect("an article");
                assert_eq!(told(713), format!("{before}{kind}{sort} 713{after}"));
            }
        }
    }
}

/// The strings of a text in C or Python, each for the numbers before it. Strings
/// with nothing between them are one, as in both languages.
fn told(text: &str) -> Vec<(u32, String)> {
    let pieces: Vec<&str> = text.split('"').collect();
    let (mut told, mut numbers) = (Vec::new(), 0);
    for pair in pieces.chunks_exact(2) {
        let (code, string) = (pair[0], pair[1]);
        if !code.trim().is_empty() {
            let before = told.len();
            let tokens = code.split(|sign: char| !sign.is_alphanumeric() && sign != '_');
            let found = tokens.filter_map(|token| token.parse::<u32>().ok());
            told.extend(found.map(|number| (number, String::new())));
            numbers = told.len() - before;
        }
        let first = told.len() - numbers;
        for (_, words) in &mut told[first..] {
            words.push_str(string);
        }
    }
    by_number(told.into_iter())
}

/// The constants of a text in C or Python whose names begin so, without that.
fn named(text: &str, begin: &str) -> Vec<(u32, String)> {
    by_number(text.lines().filter_map(|line| {
        let (name, number) = line.trim().strip_prefix(begin)?.split_once(" = ")?;
        let number = number.trim_end_matches(',').parse().ok()?;
        Some((number, name.to_string()))
    }))
}

#[test]
fn the_c_header_has_the_words_and_names() {
    let header = text("bindings/c/bwlchareg.h");
    let words = told(section(&header, "bwlchareg_refusal_words(", "\n}"));
    assert_eq!(words[0], (0, "accepted".to_string()));
    assert_eq!(words[1..], conditions());
    let positions = told(section(&header, "bwlchareg_position_words(", "\n}"));
    assert_eq!(positions, sorts());
    assert_eq!(named(&header, "BWLCHAREG_REFUSED_"), names());
}

#[test]
fn the_python_module_has_the_words_and_names() {
    let module = text("bindings/python/bwlchareg.py");
    let words = told(section(&module, "\n_WORDS", "\n}"));
    assert_eq!(words, conditions());
    let positions = told(section(&module, "\n_POSITION_WORDS", "\n}"));
    assert_eq!(positions, sorts());
    let reasons = section(&module, "\nclass Reason(", "\n\n\n");
    assert_eq!(named(reasons, ""), names());
}
