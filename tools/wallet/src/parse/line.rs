//! A line of a wallet's text by itself: which kind of line it is, and what it
//! says in words. What the words stand for is found by the other files here.

use bwlchareg::Number;

use crate::limits::{CELLS, DEPTH, NAMES, STATES};
use crate::mistake::{quoted, Mistake, Place};
use crate::parse::credential;
use crate::parse::numbering::Sort;
use crate::parse::reader::{Numeral, Reader, Word};
use crate::parse::statement::{LabelWords, QueryWords, RoleWords, StateWord, Statement};
use crate::table::Mark;
use crate::tokens::{Sign, Token};

/// What each kind of line looks like.
const CREDENTIAL: &str = "`A.r <- D`, `A.r <- B.s`, `A.r <- A.s.t` or `A.r <- B.s & C.t`";
const EDGE: &str =
    "`0 -- A.r --> 1`, `0 -- not A.r --> 1`, `0 -- any --> 1` or `0 -- any of A --> 1`";
const DEMAND: &str = "`every word` or `some word`";
pub const QUERY: &str = "`D in A.r within 2`";

/// Reads a line that has at least one token.
pub fn statement(line: usize, tokens: &[Token]) -> Result<Statement, Mistake> {
    let reader = |shape| Reader::new(line, tokens, shape);
    let texts: Vec<&str> = tokens.iter().map(|token| token.sign.text()).collect();
    match kind(&texts) {
        "every" => demand(reader(DEMAND), Mark::EveryWord),
        "some" => demand(reader(DEMAND), Mark::SomeWord),
        "principals" => {
            let shape = "`principals A = 1, B = 2`";
            numbered(reader(shape), Sort::Principal).map(Statement::Principals)
        }
        "names" => {
            let shape = "`names r = 1, s = 2`";
            numbered(reader(shape), Sort::Name).map(Statement::Names)
        }
        "constraint" => constraint(reader("`constraint c`")),
        "start" => states(reader("`start 0 2`")).map(Statement::Start),
        "accept" => states(reader("`accept 1`")).map(Statement::Accept),
        "cell" => cell(reader("`cell 1 = B.s then 2` or `cell 2 = C.t`")),
        "edges" => edges_of(reader("`edges of c`")),
        "<-" => credential::read(reader(CREDENTIAL)),
        "--" => edge(reader(EDGE)),
        "in" => query(reader(QUERY)).map(Statement::Query),
        _ => Err(unknown(line, tokens)),
    }
}

/// The word or sign by which a line's kind is known, empty if it is of none. The
/// word at its beginning decides, unless the line goes on as after a name.
fn kind<'a>(texts: &[&'a str]) -> &'a str {
    let beginnings = "every some principals names constraint start accept cell edges";
    let first = texts.first().copied().unwrap_or_default();
    let is_name = match texts {
        [_, "." | "<-" | "--" | "-->", ..] | [_, "in", _, "." | "within", ..] => true,
        ["every" | "some", second, ..] => ["in", "within", "=", "&", ","].contains(second),
        _ => false,
    };
    if !is_name && beginnings.split(' ').any(|word| word == first) {
        return first;
    }
    let has = |text: &str| texts.contains(&text);
    match texts.iter().find(|text| ["<-", "--", "-->"].contains(text)) {
        Some(&"<-") => "<-",
        Some(_) => "--",
        None if has("within") => "in",
        None if texts.get(1) == Some(&".") => "<-",
        None if has("in") => "in",
        None if first.starts_with(|digit: char| digit.is_ascii_digit()) => "--",
        None => "",
    }
}

/// A line of no known kind.
fn unknown(line: usize, tokens: &[Token]) -> Mistake {
    let column = tokens.first().map_or(1, |token| token.column);
    Place { line, column }.mistake(
        "cannot tell what kind of line this is",
        format_args!(
            "write a credential like `A.r <- D`, a query like {QUERY}, an edge like \
             `0 -- any --> 1`, {DEMAND}, or begin with `principals`, `names`, `constraint`, \
             `start`, `accept`, `cell` or `edges`"
        ),
    )
}

/// `principals A = 1, B = 2`, or `names` with role names.
fn numbered(mut reader: Reader, sort: Sort) -> Result<Vec<(Word, Numeral)>, Mistake> {
    let mut all = Vec::new();
    let number = format!("{}'s number", sort.one());
    reader.pass();
    loop {
        let word = reader.name(sort.one())?;
        reader.expect("=")?;
        all.push((word, reader.number(&number, 1..=NAMES)?));
        if !reader.passes(",") {
            break;
        }
    }
    reader.end()?;
    Ok(all)
}

/// `constraint c`
fn constraint(mut reader: Reader) -> Result<Statement, Mistake> {
    reader.pass();
    let word = reader.name("a constraint")?;
    reader.end()?;
    Ok(Statement::Constraint(word))
}

/// `every word` or `some word`
fn demand(mut reader: Reader, mark: Mark) -> Result<Statement, Mistake> {
    reader.pass();
    reader.expect("word")?;
    reader.end()?;
    Ok(Statement::Demand(mark))
}

/// `edges of c`
fn edges_of(mut reader: Reader) -> Result<Statement, Mistake> {
    reader.pass();
    reader.expect("of")?;
    let word = reader.name("a constraint")?;
    reader.end()?;
    Ok(Statement::EdgesOf(word))
}

/// `start 0 2`, or `accept`.
fn states(mut reader: Reader) -> Result<Vec<StateWord>, Mistake> {
    let mut all = Vec::new();
    reader.pass();
    while reader.next().is_some() {
        all.push(state(&mut reader)?);
    }
    Ok(all)
}

/// A state: a number or a word.
fn state(reader: &mut Reader) -> Result<StateWord, Mistake> {
    match reader.next() {
        Some(Sign::Number(_)) => {
            let number = reader.number("a state", 0..=STATES - 1)?;
            Ok(StateWord::Number(number))
        }
        _ => Ok(StateWord::Word(reader.name("a state")?)),
    }
}

/// `0 -- A.r --> 1`
fn edge(mut reader: Reader) -> Result<Statement, Mistake> {
    let from = state(&mut reader)?;
    reader.expect("--")?;
    let label = label(&mut reader)?;
    reader.expect("-->")?;
    let to = state(&mut reader)?;
    reader.end()?;
    Ok(Statement::Edge(from, label, to))
}

/// `A.r`, `not A.r`, `any` or `any of A`
fn label(reader: &mut Reader) -> Result<LabelWords, Mistake> {
    if reader.passes("any") {
        return match reader.passes("of") {
            true => owner(reader).map(LabelWords::Of),
            false => Ok(LabelWords::Any),
        };
    }
    if reader.passes("not") {
        return match reader.is_at("any") {
            true => Err(not_any(reader)),
            false => role(reader).map(LabelWords::Not),
        };
    }
    role(reader).map(LabelWords::Only)
}

/// The principal after `any of`.
fn owner(reader: &mut Reader) -> Result<Word, Mistake> {
    let owner = reader.name("a principal")?;
    if reader.is_at(".") {
        let all = quoted(&format!("any of {}", owner.text));
        return Err(owner.place.mistake(
            "`any of` takes a principal, not a role",
            format_args!("write {all} for all its roles, or leave out `any of` for one role"),
        ));
    }
    Ok(owner)
}

/// The mistake that `any` follows `not`.
fn not_any(reader: &mut Reader) -> Mistake {
    let place = reader.place();
    reader.pass();
    match reader.passes("of") {
        true => place.mistake(
            "there is no label `not any of`",
            "write an edge like `0 -- any of A --> 1` for every other owner A",
        ),
        false => place.mistake("`not any` would match no role", "leave out this edge"),
    }
}

/// `D in A.r within 2`
pub fn query(mut reader: Reader) -> Result<QueryWords, Mistake> {
    let principal = reader.name("a principal")?;
    reader.expect("in")?;
    let role = role(&mut reader)?;
    reader.expect("within")?;
    let depth = reader.number("a depth", 1..=DEPTH)?;
    reader.end()?;
    Ok(QueryWords {
        principal,
        role,
        depth,
    })
}

/// `cell 1 = B.s then 2`
fn cell(mut reader: Reader) -> Result<Statement, Mistake> {
    reader.pass();
    let number = cell_number(&mut reader)?;
    reader.expect("=")?;
    let role = role(&mut reader)?;
    let next = match reader.passes("then") {
        true => Some(cell_number(&mut reader)?),
        false => None,
    };
    reader.end()?;
    Ok(Statement::Cell(number, role, next))
}

/// The number of a part cell.
pub fn cell_number(reader: &mut Reader) -> Result<Numeral, Mistake> {
    reader.number("a part cell", 1..=CELLS as Number)
}

/// `A.r`
pub fn role(reader: &mut Reader) -> Result<RoleWords, Mistake> {
    let owner = reader.name("a role's owner")?;
    reader.expect(".")?;
    let name = reader.name("a role name")?;
    Ok(RoleWords { owner, name })
}
