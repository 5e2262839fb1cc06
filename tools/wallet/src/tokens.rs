//! A line of a wallet's text as words, numbers and signs, each with its
//! column. Comments and spaces are left out here.

mod letters;

use crate::mistake::{quoted, Mistake, Place};
use letters::{is_inner, name_width};

pub use letters::{alike, is_joiner, is_mark, is_seen};

/// The words that cannot be names.
pub const RESERVED: &str =
    "not any in within under principals names constraint start accept edges cell at then of";

/// A word, a number or a sign.
#[derive(Clone, Debug, PartialEq, Eq)]
pub enum Sign {
    /// A name or a reserved word.
    Word(String),
    /// Digits.
    Number(String),
    /// Any other sign.
    Other(&'static str),
}

/// The other signs.
const OTHERS: [&str; 7] = [".", ",", "=", "&", "<-", "--", "-->"];

impl Sign {
    /// The sign as it is written.
    pub fn text(&self) -> &str {
        match self {
            Sign::Word(text) | Sign::Number(text) => text,
            Sign::Other(text) => text,
        }
    }
}

/// A sign and its place in the line.
#[derive(Clone, Debug, PartialEq, Eq)]
pub struct Token {
    /// The sign.
    pub sign: Sign,
    /// The column of its first character, from 1.
    pub column: usize,
    /// How many characters it has.
    pub width: usize,
}

/// What is wrong, and what to write instead.
type Wrong = (String, &'static str);

/// The tokens of a line, or the first character that begins none.
pub fn tokens(line: usize, text: &str) -> Result<Vec<Token>, Mistake> {
    let characters: Vec<char> = text.chars().collect();
    let mut tokens = Vec::new();
    let mut rest = &characters[..];
    while let Some(&first) = rest.first().filter(|first| **first != '#') {
        let column = characters.len() - rest.len() + 1;
        let mut width = 1;
        if !matches!(first, ' ' | '\t') {
            let sign = sign(rest, &tokens)
                .map_err(|(wrong, instead)| Place { line, column }.mistake(wrong, instead))?;
            width = sign.text().chars().count();
            tokens.push(Token {
                sign,
                column,
                width,
            });
        }
        rest = &rest[width..];
    }
    Ok(tokens)
}

/// Whether a text can be the name of a principal, a role, a constraint or a
/// state.
pub fn is_name(text: &str) -> bool {
    let characters: Vec<char> = text.chars().collect();
    let width = name_width(&characters);
    width > 0 && width == characters.len() && !is_reserved(text)
}

/// Whether a word cannot be a name.
pub fn is_reserved(word: &str) -> bool {
    RESERVED.split(' ').any(|reserved| reserved == word)
}

/// The sign that some characters begin with, after these tokens of the line; or
/// what is wrong with them, and what to write instead.
fn sign(characters: &[char], before: &[Token]) -> Result<Sign, Wrong> {
    let count = |is: fn(char) -> bool| characters.iter().take_while(|c| is(**c)).count();
    let text = |width: usize| characters[..width].iter().collect::<String>();
    let (name, digits) = (name_width(characters), count(|c| c.is_ascii_digit()));
    if name > 0 {
        return Ok(Sign::Word(text(name)));
    }
    if digits > 0 && count(is_inner) > digits {
        let wrong = format!("{} begins with a digit", quoted(&text(count(is_inner))));
        return Err((wrong, "begin a name with a letter"));
    }
    if digits > 0 {
        return Ok(Sign::Number(text(digits)));
    }
    let text = text(count(is_stroke).max(1));
    if let Some(other) = OTHERS.into_iter().find(|other| *other == text) {
        return Ok(Sign::Other(other));
    }
    Err(match (text.as_str(), characters[0]) {
        ("-", _) => (
            "a single `-` only joins the parts of a name".to_string(),
            "write `--`, or a letter or digit on both sides of `-`",
        ),
        (text, first) if is_stroke(first) && text != ":" => (not_used(text), arrow(before)),
        (_, first) => unknown(first),
    })
}

/// Whether a character may be part of an arrow, as some people write them.
fn is_stroke(character: char) -> bool {
    matches!(
        character,
        '<' | '>' | '-' | '=' | ':' | '\u{2010}'..='\u{2015}' | '\u{2190}'..='\u{21FF}' | '\u{2212}'
            | '\u{2264}' | '\u{27F0}'..='\u{27FF}' | '\u{2900}'..='\u{297F}' | '\u{2B00}'..='\u{2B4F}'
    )
}

/// What to write instead of an arrow after these tokens of a line.
fn arrow(before: &[Token]) -> &'static str {
    let has = |sign: &str| before.iter().any(|token| token.sign.text() == sign);
    match before.first().map(|token| &token.sign) {
        Some(Sign::Word(word)) if matches!(word.as_str(), "principals" | "names") => "write `=`",
        _ if has("--") => "write `-->`",
        Some(Sign::Number(_)) => "write an edge like `0 -- any --> 1`",
        _ if has(".") => "write `<-`",
        _ => "write `<-`, or an edge like `0 -- any --> 1`",
    }
}

/// What is wrong with a character that begins no sign.
fn unknown(first: char) -> Wrong {
    let comment = "leave it out, or write `#` before a comment";
    let code = format!("U+{:04X}", u32::from(first));
    match first {
        '_' => (
            "a name cannot begin with `_`".to_string(),
            "begin it with a letter",
        ),
        _ if first.is_ascii_graphic() => (not_used(&first.to_string()), comment),
        _ if first.is_whitespace() => (format!("{code} is not a plain space"), "write a space"),
        _ if is_mark(first) => (
            format!("the mark {code} does not follow a letter"),
            "write it after a letter, or leave it out",
        ),
        _ if is_seen(first) => (
            format!("`{first}` ({code}) is not used in wallets"),
            comment,
        ),
        _ => (
            format!("the character {code} cannot be seen"),
            "leave it out",
        ),
    }
}

/// What is wrong with characters that mean nothing.
fn not_used(text: &str) -> String {
    format!("{} is not used in wallets", quoted(text))
}

#[cfg(test)]
mod tests {
    use super::{is_name, tokens, RESERVED};

    /// The signs of a line with their columns, as `3:word`.
    fn read(text: &str) -> String {
        let tokens = tokens(1, text).expect("no mistake");
        let said = tokens.iter();
        let said = said.map(|token| format!("{}:{}", token.column, token.sign.text()));
        said.collect::<Vec<String>>().join(" ")
    }

    #[test]
    fn signs_and_their_columns() {
        assert_eq!(read("A.r <- B_1-c # C"), "1:A 2:. 3:r 5:<- 8:B_1-c");
        let edge = "2:0 3:-- 5:not 9:A 10:. 11:r 12:--> 15:s";
        assert_eq!(read("\t0--not A.r-->s"), edge);
        assert_eq!(read("éé.e\u{301}.r"), "1:éé 3:. 4:e\u{301} 6:. 7:r");
        assert_eq!(read("a--b"), "1:a 2:-- 4:b");
        assert_eq!(read(" \t # A.r"), "");
    }

    #[test]
    fn names_are_whole_words_that_are_not_reserved() {
        for name in ["A", "a1", "not-for", "x_", "x__y", "été"] {
            assert!(is_name(name), "{name}");
        }
        let others = [
            "", "1a", "_a", "a-", "-a", "a--b", "a b", "a.b", "a#", "a\n",
        ];
        for other in others.into_iter().chain(RESERVED.split(' ')) {
            assert!(!is_name(other), "{other}");
        }
    }
}
