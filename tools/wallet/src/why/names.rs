//! Names that stand on one line only, which may be misspelt.

use std::collections::{BTreeMap, BTreeSet};

use bwlchareg::{Number, Query};

use crate::answer::Answer;
use crate::names::distance;
use crate::why::changed::{names, renamed, Place};
use crate::why::{Asker, Least};
use crate::Wallet;

/// The most names that are tried in the place of others.
const MOST_TRIED: usize = 64;
/// Names with more characters are like no other.
const LONGEST: usize = 100;

/// A sort of names.
#[derive(Clone, Copy, Debug, PartialEq, Eq, PartialOrd, Ord)]
pub enum Sort {
    /// Principals.
    Principal,
    /// Role names.
    RoleName,
}

/// A name that stands on one line only.
#[derive(Clone, Debug, PartialEq, Eq)]
pub struct Lone {
    /// Its sort.
    pub sort: Sort,
    /// Its number.
    pub number: Number,
    /// The line; none if it stands in a query that is given apart.
    pub line: Option<usize>,
    /// The name that is most like it, if one is much like it.
    pub near: Option<Near>,
}

/// A name that is much like another.
#[derive(Clone, Debug, PartialEq, Eq)]
pub struct Near {
    /// Its number.
    pub number: Number,
    /// What is asked with this name in the place of the other, at times within a
    /// higher depth limit, and the answer; nothing if that was not asked.
    pub answer: Option<(Query, Answer)>,
}

/// A line of the text, or a place that has none.
#[derive(Clone, Copy, PartialEq, Eq, PartialOrd, Ord)]
enum Line {
    Number(usize),
    None(Place),
}

/// The lines on which each name stands.
type Stands = BTreeMap<(Sort, Number), BTreeSet<Line>>;

/// The names of a wallet and a query that stand on one line only, in the order of
/// the lines.
pub fn lone(asker: &mut Asker, wallet: &Wallet, query: Query) -> Vec<Lone> {
    let mut stands = Stands::new();
    let (mut table, mut asked) = (wallet.table.clone(), query);
    for name in names(&mut table, &mut asked) {
        let own = stands.entry((name.sort, *name.number)).or_default();
        own.insert(line(wallet, name.place));
    }
    let alone = stands.iter().filter(|(_, lines)| lines.len() == 1);
    let mut alone: Vec<(Line, Sort, Number)> = alone
        .flat_map(|(&(sort, number), lines)| lines.first().map(|line| (*line, sort, number)))
        .collect();
    alone.sort_unstable();
    let mut left = MOST_TRIED;
    let lone = alone.into_iter().map(|(line, sort, number)| {
        let near = nearest(wallet, &stands, sort, number).map(|other| {
            let answer = left.checked_sub(1).and_then(|less| {
                left = less;
                with(asker, wallet, query, sort, number, other)
            });
            Near {
                number: other,
                answer,
            }
        });
        Lone {
            sort,
            number,
            line: match line {
                Line::Number(line) => Some(line),
                Line::None(_) => None,
            },
            near,
        }
    });
    lone.collect()
}

/// The line of a place.
fn line(wallet: &Wallet, place: Place) -> Line {
    let lines = &wallet.lines;
    let line = match place {
        Place::Credential(index) => lines.credentials.get(index).copied(),
        Place::Cell(index) => lines.cells.get(index).copied(),
        Place::Edge(index) => lines.edges.get(index).copied(),
        Place::Query => lines.query,
    };
    line.map_or(Line::None(place), Line::Number)
}

/// The answer with one name in the place of another; within the least depth limit
/// at which there is a set, if there is none within that of the query.
fn with(
    asker: &mut Asker,
    wallet: &Wallet,
    query: Query,
    sort: Sort,
    old: Number,
    new: Number,
) -> Option<(Query, Answer)> {
    let (table, asked) = renamed(&wallet.table, query, sort, old, new);
    let changed = Wallet {
        table,
        ..wallet.clone()
    };
    let answer = asker.list(&changed, asked)?;
    if answer.refusal().is_none() {
        return Some((asked, answer));
    }
    match asker.least(&changed.table, asked)? {
        Least::At(depth) if depth > asked.depth => {
            let deeper = Query { depth, ..asked };
            Some((deeper, asker.list(&changed, deeper)?))
        }
        _ => Some((asked, answer)),
    }
}

/// The name that is most like one that stands on one line only: one that stands on
/// more lines, or on one further up. A third of the characters may be wrong, or the
/// case of all. Of several the one with the most lines is taken.
fn nearest(wallet: &Wallet, stands: &Stands, sort: Sort, number: Number) -> Option<Number> {
    let own_lines = &stands[&(sort, number)];
    let own = name(wallet, sort, number);
    let others = stands.iter().filter(|((other, _), _)| *other == sort);
    let others = others.filter(|(_, lines)| lines.len() > 1 || lines.first() < own_lines.first());
    let near = others.filter_map(|((_, other), lines)| {
        let text = name(wallet, sort, *other);
        let length = own.chars().count().max(text.chars().count());
        if length > LONGEST {
            return None;
        }
        let distance = distance(&own.to_lowercase(), &text.to_lowercase());
        (3 * distance <= length).then_some((distance, usize::MAX - lines.len(), *other))
    });
    near.min().map(|(_, _, other)| other)
}

/// A name by its number.
pub fn name(wallet: &Wallet, sort: Sort, number: Number) -> String {
    match sort {
        Sort::Principal => wallet.names.principal(number),
        Sort::RoleName => wallet.names.role_name(number),
    }
}
