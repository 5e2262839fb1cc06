//! A reader of JSON for tests: RFC 8259, as far as the tool writes it.

use std::collections::BTreeSet;
use std::iter::Peekable;
use std::ops::Index;
use std::str::Chars;

/// A value.
#[derive(Clone, Debug, PartialEq)]
pub enum Json {
    Truth(bool),
    Number(u64),
    Text(String),
    List(Vec<Json>),
    Object(Vec<(String, Json)>),
}

/// Reads a value that is a whole line.
#[track_caller]
pub fn read(line: &str) -> Json {
    let text = line.strip_suffix('\n').expect("a newline at the end");
    assert!(!text.contains('\n'), "{text}");
    let mut rest = text.chars().peekable();
    let read = value(&mut rest);
    assert_eq!(rest.next(), None, "{text}");
    read
}

fn value(rest: &mut Peekable<Chars>) -> Json {
    match rest.next().expect("a value") {
        '{' => {
            let field = |rest: &mut Peekable<Chars>| {
                assert_eq!(rest.next(), Some('"'));
                let name = text(rest);
                assert_eq!(rest.next(), Some(':'));
                (name, value(rest))
            };
            Json::Object(items(rest, '}', field))
        }
        '[' => Json::List(items(rest, ']', value)),
        '"' => Json::Text(text(rest)),
        't' => word(rest, "rue", Json::Truth(true)),
        'f' => word(rest, "alse", Json::Truth(false)),
        digit => {
            let mut number = digit.to_string();
            number.extend(std::iter::from_fn(|| rest.next_if(char::is_ascii_digit)));
            assert!(number == "0" || !number.starts_with('0'), "{number}");
            Json::Number(number.parse().expect("a whole number"))
        }
    }
}

fn items<Item>(
    rest: &mut Peekable<Chars>,
    end: char,
    item: impl Fn(&mut Peekable<Chars>) -> Item,
) -> Vec<Item> {
    let mut items = Vec::new();
    if rest.next_if_eq(&end).is_some() {
        return items;
    }
    loop {
        items.push(item(rest));
        match rest.next() {
            Some(',') => {}
            next => {
                assert_eq!(next, Some(end));
                return items;
            }
        }
    }
}

fn word(rest: &mut Peekable<Chars>, word: &str, value: Json) -> Json {
    assert!(word.chars().all(|sign| rest.next() == Some(sign)));
    value
}

/// A text whose first quote has been read.
fn text(rest: &mut Peekable<Chars>) -> String {
    let mut text = String::new();
    loop {
        match rest.next().expect("a quote") {
            '"' => return text,
            '\\' => text.push(match rest.next().expect("an escape") {
                'n' => '\n',
                'u' => {
                    let digits: String = rest.take(4).collect();
                    let number = u32::from_str_radix(&digits, 16).expect("four digits");
                    char::from_u32(number).expect("a character")
                }
                sign => sign,
            }),
            sign => {
                assert!(sign >= ' ', "a control character");
                text.push(sign);
            }
        }
    }
}

impl Json {
    /// The value of a field, if it is there.
    pub fn get(&self, name: &str) -> Option<&Json> {
        match self {
            Json::Object(fields) => fields.iter().find(|(own, _)| own == name).map(|own| &own.1),
            _ => None,
        }
    }

    /// The items of a list.
    #[track_caller]
    pub fn items(&self) -> &[Json] {
        match self {
            Json::List(items) => items,
            other => panic!("{other:?} is no list"),
        }
    }

    /// The numbers of a list.
    pub fn numbers(&self) -> Vec<u64> {
        self.items().iter().map(Json::number).collect()
    }

    /// The number.
    #[track_caller]
    pub fn number(&self) -> u64 {
        match self {
            Json::Number(number) => *number,
            other => panic!("{other:?} is no number"),
        }
    }

    /// The text.
    #[track_caller]
    pub fn text(&self) -> &str {
        match self {
            Json::Text(text) => text,
            other => panic!("{other:?} is no text"),
        }
    }

    /// Adds the names of all fields.
    pub fn add_names(&self, names: &mut BTreeSet<String>) {
        match self {
            Json::Object(fields) => {
                for (name, value) in fields {
                    names.insert(name.clone());
                    value.add_names(names);
                }
            }
            Json::List(items) => items.iter().for_each(|item| item.add_names(names)),
            _ => {}
        }
    }
}

impl Index<&str> for Json {
    type Output = Json;

    #[track_caller]
    fn index(&self, name: &str) -> &Json {
        self.get(name)
            .unwrap_or_else(|| panic!("no {name} in {self:?}"))
    }
}

impl Index<usize> for Json {
    type Output = Json;

    #[track_caller]
    fn index(&self, index: usize) -> &Json {
        &self.items()[index]
    }
}
