//! JSON, as far as it is written here: objects, lists, texts, whole numbers and
//! truth values (RFC 8259). `docs/JSON.md` says what is in the objects.

use std::fmt::{self, Write};

/// A value.
#[derive(Clone, Debug, PartialEq, Eq)]
pub enum Value {
    /// `true` or `false`.
    Truth(bool),
    /// A whole number.
    Number(u64),
    /// A text.
    Text(String),
    /// A list.
    List(Vec<Value>),
    /// An object.
    Object(Object),
}

/// An object: its fields in the order in which they are written.
#[derive(Clone, Debug, Default, PartialEq, Eq)]
pub struct Object(Vec<(&'static str, Value)>);

impl Object {
    /// The object with one field more.
    pub fn with(mut self, name: &'static str, value: impl Into<Value>) -> Object {
        self.0.push((name, value.into()));
        self
    }

    /// The object with one field more if there is a value for it.
    pub fn with_some(self, name: &'static str, value: Option<impl Into<Value>>) -> Object {
        match value {
            Some(value) => self.with(name, value),
            None => self,
        }
    }

    /// The object as one line.
    pub fn line(&self) -> String {
        format!("{self}\n")
    }
}

impl fmt::Display for Object {
    fn fmt(&self, out: &mut fmt::Formatter<'_>) -> fmt::Result {
        let field = |out: &mut fmt::Formatter<'_>, (name, value): &(&str, Value)| {
            text(out, name)?;
            write!(out, ":{value}")
        };
        separated(out, '{', &self.0, field, '}')
    }
}

impl fmt::Display for Value {
    fn fmt(&self, out: &mut fmt::Formatter<'_>) -> fmt::Result {
        match self {
            Value::Truth(truth) => write!(out, "{truth}"),
            Value::Number(number) => write!(out, "{number}"),
            Value::Text(content) => text(out, content),
            Value::List(items) => {
                separated(out, '[', items, |out, item| write!(out, "{item}"), ']')
            }
            Value::Object(object) => write!(out, "{object}"),
        }
    }
}

/// Items with commas between them.
fn separated<Item>(
    out: &mut fmt::Formatter<'_>,
    before: char,
    items: &[Item],
    write: impl Fn(&mut fmt::Formatter<'_>, &Item) -> fmt::Result,
    after: char,
) -> fmt::Result {
    out.write_char(before)?;
    for (index, item) in items.iter().enumerate() {
        if index > 0 {
            out.write_char(',')?;
        }
        write(out, item)?;
    }
    out.write_char(after)
}

/// A text in quotes. Quotes, backslashes and control characters are escaped, and
/// everything else stands as it is.
fn text(out: &mut fmt::Formatter<'_>, content: &str) -> fmt::Result {
    out.write_char('"')?;
    for character in content.chars() {
        match character {
            '"' | '\\' => write!(out, "\\{character}")?,
            '\n' => out.write_str("\\n")?,
            '\u{0}'..='\u{1f}' => write!(out, "\\u{:04x}", u32::from(character))?,
            _ => out.write_char(character)?,
        }
    }
    out.write_char('"')
}

impl From<bool> for Value {
    fn from(truth: bool) -> Value {
        Value::Truth(truth)
    }
}

/// Whole numbers of some sorts are values.
macro_rules! numbers {
    ($($sort:ty),*) => {$(
        impl From<$sort> for Value {
            fn from(number: $sort) -> Value {
                Value::Number(number as u64)
            }
        }
    )*};
}

numbers!(u16, u32, u64, usize);

impl From<&str> for Value {
    fn from(content: &str) -> Value {
        Value::Text(content.to_string())
    }
}

impl From<String> for Value {
    fn from(content: String) -> Value {
        Value::Text(content)
    }
}

impl From<Object> for Value {
    fn from(object: Object) -> Value {
        Value::Object(object)
    }
}

impl<Item: Into<Value>> FromIterator<Item> for Value {
    fn from_iter<Items: IntoIterator<Item = Item>>(items: Items) -> Value {
        Value::List(items.into_iter().map(Into::into).collect())
    }
}

impl<Item: Into<Value>> From<Vec<Item>> for Value {
    fn from(items: Vec<Item>) -> Value {
        items.into_iter().collect()
    }
}

#[cfg(test)]
mod tests {
    use super::{Object, Value};

    #[test]
    fn values_are_written_on_one_line() {
        let inner = Object::default().with("line", 5usize);
        let object = Object::default()
            .with("accepted", true)
            .with_some("set", Some(u32::MAX))
            .with_some("refusal", None::<&str>)
            .with("empty", Vec::<u16>::new())
            .with("nothing", Object::default())
            .with("items", vec![inner.clone(), inner]);
        let line = "{\"accepted\":true,\"set\":4294967295,\"empty\":[],\"nothing\":{},\
            \"items\":[{\"line\":5},{\"line\":5}]}\n";
        assert_eq!(object.line(), line);
    }

    #[test]
    fn texts_are_escaped() {
        let written = |text: &str| Value::from(text).to_string();
        assert_eq!(written(""), "\"\"");
        assert_eq!(written("a\"b\\c"), r#""a\"b\\c""#);
        assert_eq!(
            written("\n\t\r\u{0}\u{1f}"),
            r#""\n\u0009\u000d\u0000\u001f""#
        );
        // Everything else is allowed as it is.
        let other = "\u{7f}\u{2028}/T\u{177} \u{5e9} \u{1f600}";
        assert_eq!(written(other), format!("\"{other}\""));
    }
}
