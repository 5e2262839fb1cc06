//! A reader of the little XML that pictures and pages are written in. It takes
//! nothing that is not well-formed.

use std::collections::BTreeMap;

/// An element: its name, its attributes, the text in it and how deep it is.
#[derive(Clone, Debug)]
pub struct Element {
    pub name: String,
    pub attributes: BTreeMap<String, String>,
    pub text: String,
    pub depth: usize,
}

impl Element {
    /// An attribute that is a number.
    pub fn number(&self, name: &str) -> i64 {
        let value = self.attributes.get(name);
        let value = value.unwrap_or_else(|| panic!("{name} of {self:?}"));
        value.parse().expect("a number")
    }
}

/// The elements of a document in the order in which they begin.
pub fn elements(document: &str) -> Vec<Element> {
    let mut elements: Vec<Element> = Vec::new();
    let mut open: Vec<usize> = Vec::new();
    let mut rest = document;
    while let Some(begin) = rest.find('<') {
        text(&rest[..begin], &mut elements, &open);
        let end = tag_end(&rest[begin..]) + begin;
        let tag = &rest[begin + 1..end];
        rest = &rest[end + 1..];
        if let Some(name) = tag.strip_prefix('/') {
            let index = open.pop().expect("a tag that is open");
            assert_eq!(elements[index].name, name);
            continue;
        }
        assert!(elements.is_empty() || !open.is_empty(), "a second root");
        let whole = tag.strip_suffix('/');
        elements.push(element(whole.unwrap_or(tag), open.len()));
        if whole.is_none() {
            open.push(elements.len() - 1);
        }
    }
    text(rest, &mut elements, &open);
    assert!(open.is_empty(), "tags that are left open");
    elements
}

/// The text of a document in its order, without its tags.
pub fn said(document: &str) -> String {
    let mut said = String::new();
    let mut rest = document;
    while let Some(begin) = rest.find('<') {
        said += &plain(&rest[..begin]);
        rest = &rest[begin + tag_end(&rest[begin..]) + 1..];
    }
    said + &plain(rest)
}

/// Where a tag ends. An end in quotes is none.
fn tag_end(rest: &str) -> usize {
    let mut quoted = false;
    for (place, letter) in rest.char_indices() {
        match letter {
            '"' => quoted = !quoted,
            '<' => assert!(place == 0, "a bare < in {}", &rest[..place]),
            '>' if !quoted => return place,
            _ => {}
        }
    }
    panic!("a tag without an end");
}

/// The element of a tag.
fn element(tag: &str, depth: usize) -> Element {
    let (name, mut rest) = tag.split_once(' ').unwrap_or((tag, ""));
    assert!(!name.is_empty() && name.chars().all(|letter| letter.is_ascii_alphanumeric()));
    let mut attributes = BTreeMap::new();
    while !rest.is_empty() {
        let (key, behind) = rest.split_once("=\"").expect("a quoted attribute");
        let (value, behind) = behind.split_once('"').expect("an end of the quotes");
        assert!(!key.is_empty() && !key.contains([' ', '"', '\'']), "{key}");
        let twice = attributes.insert(key.to_string(), plain(value));
        assert_eq!(twice, None, "{key} twice");
        assert!(behind.is_empty() || behind.starts_with(' '), "{tag}");
        rest = behind.trim_start();
    }
    Element {
        name: name.to_string(),
        attributes,
        text: String::new(),
        depth,
    }
}

/// Adds the text that stands before a tag to the element that is open.
fn text(text: &str, elements: &mut [Element], open: &[usize]) {
    match open.last() {
        Some(&index) => elements[index].text += &plain(text),
        None => assert_eq!(text.trim(), "", "text beside the root"),
    }
}

/// A text without its escapes. There is no other use of `&`.
fn plain(text: &str) -> String {
    assert!(!text.contains('>'), "a bare > in {text}");
    let allowed = |letter: char| matches!(letter, '\n' | '\t') || !letter.is_control();
    assert!(text.chars().all(allowed), "{text:?}");
    let mut plain = String::new();
    let mut rest = text;
    while let Some((before, behind)) = rest.split_once('&') {
        let (name, behind) = behind.split_once(';').expect("an end of the escape");
        plain += before;
        plain.push(match name {
            "amp" => '&',
            "lt" => '<',
            "gt" => '>',
            "quot" => '"',
            "apos" => '\'',
            other => panic!("&{other};"),
        });
        rest = behind;
    }
    plain + rest
}
