//! Long lists in rows, so that no line is too long to read, and texts in columns.

use crate::tokens::{is_joiner, is_mark};

/// The items in order, separated by commas, in rows of at most so many
/// characters; a row has more only where a single item does.
pub fn rows(items: impl IntoIterator<Item = String>, most: usize) -> Vec<String> {
    let mut rows: Vec<String> = Vec::new();
    for item in items {
        match rows.last_mut() {
            Some(row) if width(row) + ", ".len() + width(&item) <= most => {
                row.push_str(", ");
                row.push_str(&item);
            }
            _ => rows.push(item),
        }
    }
    rows
}

/// How many columns a text takes, as far as its characters tell: marks and joiners
/// take none.
pub fn width(text: &str) -> usize {
    let takes_one = |letter: &char| !is_mark(*letter) && !is_joiner(*letter);
    text.chars().filter(takes_one).count()
}

/// A text with as many spaces after it as it lacks columns.
pub fn padded(text: &str, columns: usize) -> String {
    let lacking = columns.saturating_sub(width(text));
    format!("{text}{:lacking$}", "")
}

#[cfg(test)]
mod tests {
    use super::{padded, rows, width};

    #[test]
    fn rows_are_filled_and_not_beyond() {
        let filled = |most| {
            rows(
                ["ab", "c", "d\u{e9}f", "ghijklmn", "o"].map(String::from),
                most,
            )
        };
        assert_eq!(filled(5), ["ab, c", "d\u{e9}f", "ghijklmn", "o"]);
        assert_eq!(filled(6), ["ab, c", "d\u{e9}f", "ghijklmn", "o"]);
        assert_eq!(filled(10), ["ab, c, d\u{e9}f", "ghijklmn", "o"]);
        assert_eq!(filled(11), ["ab, c, d\u{e9}f", "ghijklmn, o"]);
        assert_eq!(filled(100), ["ab, c, d\u{e9}f, ghijklmn, o"]);
        assert_eq!(filled(0).len(), 5);
        assert!(rows([], 5).is_empty());
    }
    #[test]
    fn marks_take_no_column() {
        for (text, columns) in [("", 0), ("Cafe\u{301}", 4), ("\u{928}\u{94d}", 1)] {
            assert_eq!(width(text), columns, "{text}");
            assert_eq!(padded(text, 5), format!("{text}{:1$}", "", 5 - columns));
        }
        assert_eq!(padded("Caf\u{e9}s", 3), "Caf\u{e9}s");
    }
}
