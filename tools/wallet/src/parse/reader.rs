//! Going through the tokens of one line, from left to right.

use std::ops::RangeInclusive;

use bwlchareg::Number;

use crate::mistake::{quoted, Mistake, Place};
use crate::tokens::{alike, is_reserved, Sign, Token};

/// A name, and where it stands.
#[derive(Clone, Debug, PartialEq, Eq)]
pub struct Word {
    /// The name.
    pub text: String,
    /// Its place.
    pub place: Place,
}

impl Word {
    /// A mistake if one of these names looks the same but has other characters.
    pub fn check_spelling<'a>(
        &self,
        mut names: impl Iterator<Item = &'a String>,
    ) -> Result<(), Mistake> {
        match names.find(|name| alike(name, &self.text)) {
            None => Ok(()),
            Some(_) => Err(self.place.mistake(
                format_args!(
                    "{} looks like another name of the wallet, but has other characters",
                    quoted(&self.text)
                ),
                "copy one of them over the other",
            )),
        }
    }
}

/// A number, and where it stands.
#[derive(Clone, Copy, Debug, PartialEq, Eq)]
pub struct Numeral {
    /// The number.
    pub value: Number,
    /// Its place.
    pub place: Place,
}

/// The tokens of a line that are still to be read.
pub struct Reader<'a> {
    line: usize,
    /// The column after the last token that has been read.
    end: usize,
    rest: &'a [Token],
    /// What is read, for messages: a line, or a query by itself.
    whole: &'static str,
    /// What such lines or queries look like, for messages.
    shape: &'static str,
}

impl<'a> Reader<'a> {
    /// At the beginning of a line that should have this shape.
    pub fn new(line: usize, tokens: &'a [Token], shape: &'static str) -> Reader<'a> {
        Reader {
            line,
            end: 1,
            rest: tokens,
            whole: "line",
            shape,
        }
    }

    /// At the beginning of a query that stands by itself, not on a line of a
    /// text.
    pub fn of_query(tokens: &'a [Token], shape: &'static str) -> Reader<'a> {
        Reader {
            whole: "query",
            ..Reader::new(1, tokens, shape)
        }
    }

    /// The place of the next token, or after the last one.
    pub fn place(&self) -> Place {
        let column = self.rest.first().map_or(self.end, |token| token.column);
        Place {
            line: self.line,
            column,
        }
    }

    /// The next sign.
    pub fn next(&self) -> Option<&'a Sign> {
        self.rest.first().map(|token| &token.sign)
    }

    /// Whether the next sign, or reserved word, is this one.
    pub fn is_at(&self, sign: &str) -> bool {
        self.next().is_some_and(|next| next.text() == sign)
    }

    /// Goes past the next token.
    pub fn pass(&mut self) {
        if let Some((first, rest)) = self.rest.split_first() {
            self.end = first.column + first.width;
            self.rest = rest;
        }
    }

    /// Goes past a sign or reserved word if it is next, and tells whether it was.
    pub fn passes(&mut self, sign: &str) -> bool {
        let is_next = self.is_at(sign);
        if is_next {
            self.pass();
        }
        is_next
    }

    /// Goes past a sign or reserved word, which must be next.
    pub fn expect(&mut self, sign: &str) -> Result<(), Mistake> {
        match self.passes(sign) {
            true => Ok(()),
            false => Err(self.expected(&quoted(sign))),
        }
    }

    /// Reads a name; `what` it names is for the message.
    pub fn name(&mut self, what: &str) -> Result<Word, Mistake> {
        let place = self.place();
        match self.next() {
            Some(Sign::Word(text)) if is_reserved(text) => Err(place.mistake(
                format_args!("{} is a reserved word and cannot be {what}", quoted(text)),
                "write another word",
            )),
            Some(Sign::Word(text)) => {
                self.pass();
                Ok(Word {
                    text: text.clone(),
                    place,
                })
            }
            _ => Err(self.expected(what)),
        }
    }

    /// Reads a number, which must lie in a range.
    pub fn number(
        &mut self,
        what: &str,
        range: RangeInclusive<Number>,
    ) -> Result<Numeral, Mistake> {
        let place = self.place();
        let Some(Sign::Number(digits)) = self.next() else {
            return Err(self.expected(what));
        };
        self.pass();
        match digits.parse() {
            Ok(value) if range.contains(&value) => Ok(Numeral { value, place }),
            _ => Err(place.mistake(
                format_args!("{} is out of range for {what}", quoted(digits)),
                format_args!("write a number from {} to {}", range.start(), range.end()),
            )),
        }
    }

    /// Ends the line: nothing may follow.
    pub fn end(&self) -> Result<(), Mistake> {
        match self.next() {
            None => Ok(()),
            Some(sign) => Err(self.wrong(format!("unexpected {}", quoted(sign.text())))),
        }
    }

    /// The mistake that `what` is expected, and is not next.
    fn expected(&self, what: &str) -> Mistake {
        self.wrong(match self.next() {
            None => format!("expected {what}, but the {} ends", self.whole),
            Some(sign) => format!("expected {what}, found {}", quoted(sign.text())),
        })
    }

    /// A mistake at the next token, where a line of this shape is to be written.
    fn wrong(&self, wrong: String) -> Mistake {
        let instead = format_args!("write a {} like {}", self.whole, self.shape);
        self.place().mistake(wrong, instead)
    }
}
