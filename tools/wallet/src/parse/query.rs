//! A query about a wallet, in its own text or apart from it. It is in the words
//! of the wallet and adds none: a name that no other line of the wallet has is
//! a mistake, since nothing could be proved of it.

use std::collections::BTreeMap;

use bwlchareg::{Number, Query};

use crate::mistake::{quoted, Mistake};
use crate::names::{distance, Names};
use crate::parse::numbering::Sort;
use crate::parse::reader::{Reader, Word};
use crate::parse::statement::QueryWords;
use crate::parse::{decoded, line};
use crate::tokens::tokens;
use crate::Wallet;

/// The most names that a message offers.
const OFFERED: usize = 8;

/// Reads a query that is given apart from a wallet's text, or tells its first
/// mistake, with 1 as its line.
pub fn query(wallet: &Wallet, text: &[u8]) -> Result<Query, Mistake> {
    let tokens = tokens(1, decoded(1, text)?)?;
    let words = line::query(Reader::of_query(&tokens, line::QUERY))?;
    let [principal, owner, name] = find(&wallet.names, &words)?;
    Ok(Query {
        principal,
        owner,
        name,
        depth: words.depth.value,
    })
}

/// The numbers of a query's names: the principal, the role's owner, its name.
pub fn find(names: &Names, words: &QueryWords) -> Result<[Number; 3], Mistake> {
    let [principal, owner, name] = words.names();
    let number = |(sort, word)| number(names, sort, word);
    Ok([number(principal)?, number(owner)?, number(name)?])
}

/// The number of the principal or role name that a word is.
pub fn number(names: &Names, sort: Sort, word: &Word) -> Result<Number, Mistake> {
    let known = of_sort(names, sort);
    if let Some((number, _)) = known.iter().find(|(_, name)| **name == word.text) {
        return Ok(*number);
    }
    word.check_spelling(known.values())?;
    let (one, other) = (sort.one(), sort.other());
    let text = quoted(&word.text);
    let mut others = of_sort(names, other).values();
    let wrong = match others.any(|name| *name == word.text) {
        true => format!("{text} is {} of the wallet, not {one}", other.one()),
        false => format!("{text} is not {one} of the wallet"),
    };
    Err(word.place.mistake(wrong, offer(known, sort, &word.text)))
}

/// What to write where a word of this sort is expected: one of the known names,
/// of which the nearest come first.
fn offer(known: &BTreeMap<Number, String>, sort: Sort, word: &str) -> String {
    let many = sort.many();
    let mut nearest: Vec<&String> = known.values().collect();
    nearest.sort_by_key(|name| distance(name, word));
    let offered = nearest.iter().take(OFFERED).map(|name| quoted(name));
    let offered = offered.collect::<Vec<String>>().join(", ");
    match known.len() {
        0 => format!("add credentials to the wallet first: it has no {many}"),
        count if count > OFFERED => format!("write one of its {many}: {offered}, ..."),
        _ => format!("write one of its {many}: {offered}"),
    }
}

/// The names of a sort, by number.
fn of_sort(names: &Names, sort: Sort) -> &BTreeMap<Number, String> {
    match sort {
        Sort::Principal => &names.principals,
        Sort::Name => &names.roles,
    }
}
