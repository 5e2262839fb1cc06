//! Lines of text in a fixed-width font: how wide they are, and how a long one
//! is broken.

use crate::tokens;

/// A line that continues the one above is indented by this.
pub const FURTHER: &str = "  ";
/// These words stay on a line with the word after them.
const TIED: [&str; 6] = ["<-", "&", "under", "in", "node", "the"];
/// A word that is too long for a line is broken after one of these.
const JOINTS: [char; 4] = ['-', '_', '.', ' '];

/// How many columns a text takes in a fixed-width font.
pub fn columns(text: &str) -> usize {
    text.chars().map(column).sum()
}

/// How many columns a character takes. Fixed-width fonts have the Latin, Greek
/// and Cyrillic letters, which end at U+052F; those of other scripts come from
/// fonts whose letters may be twice as wide, and so may the sign that stands for
/// a control.
fn column(letter: char) -> usize {
    match letter {
        _ if is_mark(letter) => 0,
        '\u{530}'.. => 2,
        _ if letter.is_control() => 2,
        _ => 1,
    }
}

/// Whether a character is written upon the letter before it or joins it to the
/// next. The vowel signs of the Indian scripts are too, though they are letters of
/// their own to `tokens`; they have the same place in each of their blocks.
fn is_mark(letter: char) -> bool {
    let vowel = |letter: char| (0x3e..=0x4d).contains(&(u32::from(letter) % 0x80));
    match letter {
        '\u{900}'..='\u{d7f}' if vowel(letter) => true,
        _ => tokens::is_mark(letter) || tokens::is_joiner(letter),
    }
}

/// The columns of the widest piece of a line that need not be broken.
pub fn widest_piece(line: &str) -> usize {
    let pieces = pieces(line).into_iter();
    pieces.map(|piece| columns(&piece)).max().unwrap_or(0)
}

/// A line as lines of at most so many columns.
pub fn broken(line: &str, limit: usize) -> Vec<String> {
    let mut lines: Vec<String> = Vec::new();
    let mut present = String::new();
    for piece in pieces(line) {
        if !present.is_empty() && columns(&present) + 1 + columns(&piece) <= limit {
            present = format!("{present} {piece}");
            continue;
        }
        if !present.is_empty() {
            lines.push(present);
        }
        let mut parts = parts(&piece, lines.is_empty(), limit);
        present = parts.pop().unwrap_or_default();
        lines.extend(parts);
    }
    lines.push(present);
    lines
}

/// A piece that begins a line, the first one or a further one, as lines of at
/// most so many columns.
fn parts(piece: &str, is_first: bool, limit: usize) -> Vec<String> {
    let mut lines = Vec::new();
    let mut rest = piece;
    loop {
        let indent = match is_first && lines.is_empty() {
            true => "",
            false => FURTHER,
        };
        let (part, further) = rest.split_at(fitting(rest, limit.saturating_sub(indent.len())));
        lines.push(format!("{indent}{}", part.trim_end()));
        rest = further;
        if rest.is_empty() {
            return lines;
        }
    }
}

/// How many bytes of a text stand on a line of so many columns: all of them if
/// they have room; or else those up to the last joint, if they fill a third of
/// the line; or else as many letters as have room, with their marks.
fn fitting(text: &str, room: usize) -> usize {
    let mut used = 0;
    let over = text.char_indices().find(|&(place, letter)| {
        used += column(letter);
        place > 0 && used > room && !is_mark(letter)
    });
    let Some((end, _)) = over else {
        return text.len();
    };
    match text[..end].rfind(JOINTS) {
        Some(joint) if 3 * columns(&text[..=joint]) >= room => joint + 1,
        _ => end,
    }
}

/// The pieces of a line that stay whole where they can: its words, but the tied
/// ones and what begins with a digit, `2:` or `2nd`, together with the word after
/// them.
fn pieces(line: &str) -> Vec<String> {
    let mut pieces: Vec<String> = Vec::new();
    let mut tied = false;
    for word in line.split_whitespace() {
        match pieces.last_mut() {
            Some(piece) if tied => *piece = format!("{piece} {word}"),
            _ => pieces.push(word.to_string()),
        }
        tied = TIED.contains(&word) || word.starts_with(|sign: char| sign.is_ascii_digit());
    }
    pieces
}

#[cfg(test)]
mod tests {
    use super::{broken, columns};

    #[test]
    fn marks_take_no_column_and_wide_letters_two() {
        assert_eq!(columns("Caf\u{e9}"), 4);
        assert_eq!(columns("Cafe\u{301}"), 4);
        assert_eq!(columns("\u{5927}\u{5b66}"), 4);
        // Three letters, each with a sign.
        assert_eq!(columns("\u{939}\u{93f}\u{928}\u{94d}\u{926}\u{940}"), 6);
        assert_eq!(columns("\u{fffd}\u{1}"), 4);
    }

    #[test]
    fn lines_are_broken_at_spaces_then_joints_then_anywhere() {
        let line = "1: Shop.discount <- Shop.accredited.student";
        let two = ["1: Shop.discount", "  <- Shop.accredited.student"];
        assert_eq!(broken(line, 28), two);
        let at_joint = ["1: Shop.discount", "  <- Shop.accredited.", "  student"];
        assert_eq!(broken(line, 27), at_joint);
        assert_eq!(broken("abcdefgh", 5), ["abcde", "  fgh"]);
        assert_eq!(broken("ab-cdefgh", 6), ["ab-", "  cdef", "  gh"]);
        // A joint near the front would leave the line empty.
        assert_eq!(broken("a-bcdefghij", 9), ["a-bcdefgh", "  ij"]);
        assert_eq!(
            broken("abcd e\u{301}e\u{301}e\u{301}", 4),
            ["abcd", "  e\u{301}e\u{301}", "  e\u{301}"]
        );
        assert_eq!(broken("", 5), [""]);
    }
}
