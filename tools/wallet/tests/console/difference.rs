//! The difference of two texts, for people to read.

/// The lines of both texts: those they share with two spaces before them,
/// those of the first alone after `- `, those of the second alone after `+ `.
/// Only what they share at the beginning and at the end counts as shared.
pub fn difference(first: &[String], second: &[String]) -> String {
    let shared = |pairs: &mut dyn Iterator<Item = (&String, &String)>| {
        pairs.take_while(|(one, other)| one == other).count()
    };
    let head = shared(&mut first.iter().zip(second));
    let (first_rest, second_rest) = (&first[head..], &second[head..]);
    let tail = shared(&mut first_rest.iter().rev().zip(second_rest.iter().rev()));
    let mut told = String::new();
    let mut tell = |sign: &str, lines: &[String]| {
        for line in lines {
            told.push_str(&format!("    {sign} {line}\n"));
        }
    };
    tell(" ", &first[..head]);
    tell("-", &first_rest[..first_rest.len() - tail]);
    tell("+", &second_rest[..second_rest.len() - tail]);
    tell(" ", &first[first.len() - tail..]);
    told
}
