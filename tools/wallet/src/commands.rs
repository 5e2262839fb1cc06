//! The commands: what each reads, and what it writes.

use std::cell::Cell;
use std::fs::File;
use std::io::{self, Read};
use std::iter;
use std::rc::Rc;

use bwlchareg::{Number, Query, Refusal};
use wallet::answer::{listed, Answer};
use wallet::derivation::judge;
use wallet::explain::{explain, heading};
use wallet::json::Object;
use wallet::parse::{parse, query, record};
use wallet::print::print;
use wallet::table::Table;
use wallet::tree::counted;
use wallet::{objects, program, proof, refusal, svg, tree, why, Wallet};

use crate::arguments::{Arguments, Asked, Command, Form, Given, Source};
use crate::failure::{Failure, Wrong};
use crate::usage::overview;

/// The most bytes of a text that are read.
const MOST_BYTES: u64 = 1 << 20;
/// The most bytes of a record's text: enough for every record that is written,
/// whose numbers have two digits at most.
const MOST_RECORD_BYTES: u64 = 4 * proof::MOST_CELLS as u64;

/// A piece of what a command writes, and whether the checker has refused what
/// it is about.
pub struct Piece {
    /// The bytes.
    pub bytes: Vec<u8>,
    /// Whether the checker has refused.
    pub refused: bool,
}

impl Piece {
    /// A text about something that the checker has refused, or has not.
    fn new(text: impl Into<Vec<u8>>, refused: bool) -> Piece {
        Piece {
            bytes: text.into(),
            refused,
        }
    }
}

/// What a command writes, piece by piece: the records of a list can be long, and
/// are made when they are to be written.
pub type Pieces = Box<dyn Iterator<Item = Piece>>;

/// Runs a command.
pub fn run(arguments: &Arguments) -> Result<Pieces, Failure> {
    let form = arguments.form;
    let piece = match &arguments.command {
        Command::Check(asked) => check(asked, form)?,
        Command::List(asked) => list(asked, form)?,
        Command::Why(asked) => why(asked, form)?,
        Command::Prove(asked, set) => return prove(asked, *set, form),
        Command::Verify(asked, given) => verify(asked, given, form)?,
        Command::Draw(asked, given) => draw(asked, given)?,
        Command::Report(asked) => report(asked)?,
        Command::Encode(asked) => {
            let (wallet, query) = read_asked(asked)?;
            Piece::new(program::input(query, &wallet.table.numbers()), false)
        }
        Command::Explain(asked) => explained(asked)?,
        Command::Decode(names) => decode(names.as_ref())?,
        Command::Upgrade => upgrade()?,
        Command::Help(known) => {
            Piece::new(known.map_or_else(overview, |known| known.help()), false)
        }
        Command::Version => Piece::new(concat!("wallet ", env!("CARGO_PKG_VERSION"), "\n"), false),
    };
    Ok(alone(piece))
}

/// One piece.
fn alone(piece: Piece) -> Pieces {
    Box::new(iter::once(piece))
}

/// The beginning of a command's object.
fn object(command: &str, refused: bool) -> Object {
    Object::default()
        .with("command", command)
        .with("status", u64::from(refused))
}

/// Checks a wallet, and its query if it has one.
fn check(asked: &Asked, form: Form) -> Result<Piece, Failure> {
    let wallet = read_wallet(asked, &text(&asked.wallet, MOST_BYTES)?)?;
    let numbers = wallet.table.numbers();
    let answer = match wallet.query {
        Some(query) => bwlchareg::check_query(&numbers, query),
        None => bwlchareg::check(&numbers),
    };
    let text = match answer {
        _ if form == Form::Json => {
            objects::checked(&wallet, answer, object("check", answer.is_err())).line()
        }
        Err(refusal) => refusal::told(refusal, refusal) + "\n",
        Ok(()) => accepted(&wallet),
    };
    Ok(Piece::new(text, answer.is_err()))
}

/// What an accepted wallet has.
fn accepted(wallet: &Wallet) -> String {
    let Wallet { table, names, .. } = wallet;
    let has = [
        counted(table.credentials.len(), "credential"),
        counted(names.principals.len(), "principal"),
        counted(names.roles.len(), "role name"),
        counted(table.automata.len(), "constraint"),
    ];
    let query = match wallet.query {
        Some(query) => format!("query {}", names.query(query)),
        None => "no query".to_string(),
    };
    format!("accepted: {}; {query}\n", has.join(", "))
}

/// Lists all minimal sets.
fn list(asked: &Asked, form: Form) -> Result<Piece, Failure> {
    let (wallet, query) = read_asked(asked)?;
    let answer = listed(&wallet, query);
    let refused = answer.refusal().is_some();
    let lines = match (form, &answer) {
        (Form::Json, _) => objects::listed(&wallet, query, &answer, object("list", refused)).line(),
        (Form::Words, _) => return Ok(answered(asked, &wallet, query, &answer)),
        (Form::Count, Answer::Sets(sets)) => format!("{}\n", sets.len()),
        (_, Answer::Sets(sets)) => sets.iter().map(|set| format!("{set}\n")).collect(),
        (Form::Count, Answer::Refused(refusal)) if refusal.number == Refusal::NONE => {
            "0\n".to_string()
        }
        (_, Answer::Refused(_)) => {
            return Err(Failure::Refused(explain(&wallet, query, &answer)));
        }
    };
    Ok(Piece::new(lines, refused))
}

/// Writes an answer in words. Where there is no set, it is said how to see why.
fn answered(asked: &Asked, wallet: &Wallet, query: Query, answer: &Answer) -> Piece {
    let mut text = explain(wallet, query, answer);
    let refusal = answer.refusal();
    if refusal.is_some_and(|refusal| refusal.number == Refusal::NONE) {
        let file = match &asked.wallet {
            Source::Standard => "-".to_string(),
            Source::File(path) => for_shell(&path.display().to_string()),
        };
        text += &format!("to see what stands in the way: wallet why {file}");
        if asked.query.is_some() {
            text += &format!(" --query \"{}\"", wallet.names.query(query));
        }
        text += "\n";
    }
    Piece::new(text, refusal.is_some())
}

/// A file's name as a word that a shell takes, and that is no option.
fn for_shell(name: &str) -> String {
    let is_plain = |sign: char| sign.is_alphanumeric() || "_./-+,:@%".contains(sign);
    let here = if name.starts_with('-') { "./" } else { "" };
    match name.chars().all(is_plain) {
        true => format!("{here}{name}"),
        false => format!("'{here}{}'", name.replace('\'', "'\\''")),
    }
}

/// Says what stands in the way.
fn why(asked: &Asked, form: Form) -> Result<Piece, Failure> {
    let (wallet, query) = read_asked(asked)?;
    let why = why::why(&wallet, query);
    let refused = why.answer.refusal().is_some();
    let text = match form {
        Form::Json => why::object(&wallet, &why, object("why", refused)).line(),
        _ => why::text(&wallet, &why),
    };
    Ok(Piece::new(text, refused))
}

/// Says in words what the listing program has printed, if it is the checker's
/// answer.
fn explained(asked: &Asked) -> Result<Piece, Failure> {
    let (wallet, query) = read_asked(asked)?;
    let output = text(&Source::Standard, MOST_BYTES)?;
    let answer = listed(&wallet, query);
    match answer.difference(&String::from_utf8_lossy(&output)) {
        None => Ok(answered(asked, &wallet, query, &answer)),
        Some(difference) => {
            let message = format!("this is not the checker's answer: {difference}");
            Err(Wrong::of(&Source::Standard, message).into())
        }
    }
}

/// Writes the record of a set, or of every listed set.
fn prove(asked: &Asked, wanted: Option<u32>, form: Form) -> Result<Pieces, Failure> {
    let (wallet, query) = read_asked(asked)?;
    let answer = match wanted {
        Some(set) if form != Form::Json => {
            return Ok(alone(prove_one(&wallet, query, set, form)?));
        }
        Some(set) => Answer::Sets(vec![set]),
        None => listed(&wallet, query),
    };
    Ok(match (answer, form) {
        (Answer::Sets(sets), Form::Json) => proved_objects(wallet, query, sets),
        (refused @ Answer::Refused(_), Form::Json) => {
            let told = objects::listed(&wallet, query, &refused, object("prove", true));
            alone(Piece::new(told.line(), true))
        }
        (refused @ Answer::Refused(_), _) => alone(answered(asked, &wallet, query, &refused)),
        (Answer::Sets(sets), _) => {
            let heading = Piece::new(heading(&wallet, query, sets.len()), false);
            let blocks = sets.into_iter().map(move |set| {
                let block = proof::block(&wallet, query, set);
                Piece::new(block.text, block.refused)
            });
            Box::new(iter::once(heading).chain(blocks))
        }
    })
}

/// Writes the record of a set below the query, or its numbers alone.
fn prove_one(wallet: &Wallet, query: Query, set: u32, form: Form) -> Result<Piece, Failure> {
    let refused = |refusal| proof::refused(wallet, query, set, refusal);
    Ok(match (form, proof::first_record(wallet, query, set)) {
        (Form::Numbers, Ok(record)) => Piece::new(proof::numbers(&record), false),
        (Form::Numbers, Err(refusal)) => return Err(Failure::Refused(refused(refusal))),
        (_, Ok(record)) => {
            let block = proof::proved(wallet, query, set, &record);
            let text = format!("{}\n{}", wallet.names.query(query), block.text);
            Piece::new(text, block.refused)
        }
        (_, Err(refusal)) => Piece::new(refused(refusal) + "\n", true),
    })
}

/// The object of `prove`, whose records are made when they are to be written. Only
/// then it is known whether one is refused.
fn proved_objects(wallet: Wallet, query: Query, sets: Vec<u32>) -> Pieces {
    let head = Object::default()
        .with("command", "prove")
        .with("query", objects::query(&wallet, query))
        .with("count", sets.len())
        .to_string();
    let head = format!("{},\"sets\":[", head.strip_suffix('}').unwrap_or(&head));
    let any_refused = Rc::new(Cell::new(false));
    let seen = Rc::clone(&any_refused);
    let entries = sets.into_iter().enumerate().map(move |(index, set)| {
        let (entry, refused) = objects::proved(&wallet, query, set);
        seen.set(seen.get() | refused);
        let comma = if index > 0 { "," } else { "" };
        Piece::new(format!("{comma}{entry}"), refused)
    });
    let head = iter::once(Piece::new(head, false));
    let tail = iter::once_with(move || {
        let status = u8::from(any_refused.get());
        Piece::new(format!("],\"status\":{status}}}\n"), false)
    });
    Box::new(head.chain(entries).chain(tail))
}

/// Verifies a record.
fn verify(asked: &Asked, given: &Given, form: Form) -> Result<Piece, Failure> {
    let (wallet, query) = read_asked(asked)?;
    let record = match read_record(&wallet, query, given)? {
        Ok(record) => record,
        Err(Unwritten { refusal, words }) => {
            let text = match form {
                Form::Json => object("verify", true)
                    .with("query", objects::query(&wallet, query))
                    .with("accepted", false)
                    .with("refusal", objects::refusal(refusal, words))
                    .line(),
                _ => refusal::told(refusal, words) + "\n",
            };
            return Ok(Piece::new(text, true));
        }
    };
    let judged = judge(&wallet, query, &record);
    let refused = judged.refusal().is_some();
    let text = match form {
        Form::Json => objects::verified(&wallet, record, &judged, object("verify", refused)).line(),
        _ => tree::text(&wallet, &judged),
    };
    Ok(Piece::new(text, refused))
}

/// Draws a record.
fn draw(asked: &Asked, given: &Given) -> Result<Piece, Failure> {
    let (wallet, query) = read_asked(asked)?;
    let record = read_record(&wallet, query, given)?.map_err(|unwritten| {
        let Unwritten { refusal, words } = unwritten;
        Failure::Refused(refusal::told(refusal, words))
    })?;
    let judged = judge(&wallet, query, &record);
    let picture = svg::picture(&wallet, &judged).map_err(Wrong::new)?;
    Ok(Piece::new(picture, judged.refusal().is_some()))
}

/// Writes the page about a query.
fn report(asked: &Asked) -> Result<Piece, Failure> {
    let bytes = text(&asked.wallet, MOST_BYTES)?;
    let (wallet, query) = of_text(asked, &bytes)?;
    let (text, name) = (String::from_utf8_lossy(&bytes), asked.wallet.to_string());
    let page = wallet::report::report(&wallet, query, &text, &name);
    Ok(Piece::new(page.html, page.refused))
}

/// That the library does not write the record of a set, and why.
struct Unwritten {
    refusal: Refusal,
    words: String,
}

/// The record that is given, in the names of the wallet.
fn read_record(
    wallet: &Wallet,
    query: Query,
    given: &Given,
) -> Result<Result<Vec<Number>, Unwritten>, Failure> {
    let record = match given {
        // Words on the command line have no lines and columns to tell.
        Given::Words(words) => {
            record(wallet, words.as_bytes()).map_err(|mistake| Wrong::new(mistake.message))?
        }
        Given::Text(source) => record(wallet, &text(source, MOST_RECORD_BYTES)?)
            .map_err(|mistake| Wrong::mistake(source, mistake))?,
        Given::Set(set) => match proof::first_record(wallet, query, *set) {
            Ok(record) => record,
            Err(refusal) => {
                let words = proof::reason(wallet, query, *set, refusal);
                return Ok(Err(Unwritten { refusal, words }));
            }
        },
    };
    Ok(Ok(record))
}

/// Writes the text of the input on standard input.
fn decode(names: Option<&Source>) -> Result<Piece, Failure> {
    let names = match names {
        None => Default::default(),
        Some(source) => {
            let wallet = parse(&text(source, MOST_BYTES)?);
            wallet
                .map_err(|mistake| Wrong::mistake(source, mistake))?
                .names
        }
    };
    let (query, numbers) = read_input()?;
    let refused = |refusal: Refusal| {
        Failure::Refused(refusal::told(refusal, refusal::of_table(&numbers, refusal)))
    };
    bwlchareg::check_query(&numbers, query).map_err(refused)?;
    let wallet = Wallet {
        table: Table::of_numbers(&numbers).map_err(refused)?,
        query: Some(query),
        names,
        ..Wallet::default()
    };
    Ok(Piece::new(print(&wallet), false))
}

/// Writes the input of the base layout on standard input with marks.
fn upgrade() -> Result<Piece, Failure> {
    let (query, numbers) = read_input()?;
    let refused = |refusal: Refusal| {
        Failure::Refused(refusal::told(refusal, refusal::of_base(&numbers, refusal)))
    };
    let table = bwlchareg::upgraded(&numbers).map_err(refused)?;
    Ok(Piece::new(program::input(query, &table), false))
}

/// The query and the table of the input on standard input, as far as the listing
/// program would read it.
fn read_input() -> Result<(Query, Vec<Number>), Failure> {
    let mut input = Vec::new();
    io::stdin()
        .take(program::MOST_BYTES as u64)
        .read_to_end(&mut input)
        .map_err(|error| Wrong::of(&Source::Standard, error))?;
    program::read(&input)
        .map_err(|refusal| Failure::Refused(refusal::told(refusal, refusal::of_program(refusal))))
}

/// The wallet of a text, and what is asked about it, which must be there.
fn read_asked(asked: &Asked) -> Result<(Wallet, Query), Failure> {
    of_text(asked, &text(&asked.wallet, MOST_BYTES)?)
}

/// The same of a text that has been read.
fn of_text(asked: &Asked, bytes: &[u8]) -> Result<(Wallet, Query), Failure> {
    let wallet = read_wallet(asked, bytes)?;
    match wallet.query {
        Some(query) => Ok((wallet, query)),
        None => {
            let message = "the wallet has no query; write a line like `D in A.r within 2`, \
                or give one after `--query`";
            Err(Wrong::of(&asked.wallet, message).into())
        }
    }
}

/// The wallet of a text, with the query that is given apart in the place of its own.
fn read_wallet(asked: &Asked, bytes: &[u8]) -> Result<Wallet, Failure> {
    let mut wallet = parse(bytes).map_err(|mistake| Wrong::mistake(&asked.wallet, mistake))?;
    if let Some(text) = &asked.query {
        let given = query(&wallet, text.as_encoded_bytes());
        wallet.query = Some(given.map_err(Wrong::query)?);
        // It stands on no line.
        wallet.lines.query = None;
    }
    Ok(wallet)
}

/// The bytes of a text that has no more than so many.
fn text(source: &Source, most: u64) -> Result<Vec<u8>, Failure> {
    let mut bytes = Vec::new();
    let read = match source {
        Source::Standard => io::stdin().take(most + 1).read_to_end(&mut bytes),
        Source::File(path) => {
            File::open(path).and_then(|file| file.take(most + 1).read_to_end(&mut bytes))
        }
    };
    read.map_err(|error| Wrong::of(source, error))?;
    if bytes.len() as u64 > most {
        let message = format!("the text is longer than {most} bytes");
        return Err(Wrong::of(source, message).into());
    }
    Ok(bytes)
}
