//! One call in a process of its own. A call cannot be stopped, and a process can:
//! so whoever does not know whether a call ends in time has it made there first.
//!
//! The process is this program, started with the call as its arguments. It reads
//! the four numbers of a query and those of a table, and prints those that the
//! call gives.

use std::env;
use std::io::{self, Read};
use std::process::Command;
use std::time::{Duration, Instant};

use reference::query::Query;

use crate::listing::Listing;
use crate::pipe::{Ended, Pipe};
use crate::writing::record;

/// So many cells are lent for a list, which are enough for any: of 20 credentials
/// there are 184,756 sets of which none is a part of another, and not more.
pub const SETS: usize = 1 << 18;

/// A call, by its side.
#[derive(Clone, Copy, Debug, PartialEq, Eq)]
pub enum Call {
    /// The library's list.
    Library,
    /// The reference's list.
    Reference,
    /// The library's record of a set.
    Write(u32),
}

impl Call {
    /// The arguments that ask for it.
    fn arguments(self) -> Vec<String> {
        let words = match self {
            Call::Library => "library".to_string(),
            Call::Reference => "reference".to_string(),
            Call::Write(set) => format!("write {set}"),
        };
        let all = format!("single {words}");
        all.split(' ').map(String::from).collect()
    }

    /// What it gives: the sets of a list, or the length of a record; nothing if
    /// it is refused.
    fn answer(self, listing: &Listing) -> Vec<u32> {
        match self {
            Call::Library => {
                let mut sets = vec![0; SETS];
                let count = listing.library(&mut sets).unwrap_or(0);
                sets[..count].to_vec()
            }
            Call::Reference => listing.reference(u64::MAX).unwrap_or_default(),
            Call::Write(set) => {
                let length = listing.write(set, &mut vec![0; record::CELLS]);
                length.map(|length| length as u32).into_iter().collect()
            }
        }
    }

    /// What it gives, if it ends in time. It is made in a process of its own, and
    /// one that does not end by itself ends the benchmark.
    pub fn within(self, limit: Duration, listing: &Listing) -> Option<Vec<u32>> {
        let mut program = Command::new(env::current_exe().expect("this program's file"));
        program.args(self.arguments());
        ended(program, limit, listing)
    }
}

/// Makes a call for what is on standard input, and prints what it gives.
pub fn run(call: Call) -> io::Result<()> {
    let mut text = String::new();
    io::stdin().read_to_string(&mut text)?;
    let numbers = numbers(&text).filter(|numbers| numbers.len() >= 4);
    let numbers = numbers.ok_or(io::Error::other("no query with a table"))?;
    let (query, table) = numbers.split_at(4);
    let query = Query::from_numbers([query[0], query[1], query[2], query[3]]);
    let listing = Listing::new(table.to_vec(), query);
    println!("{}", words(&call.answer(&listing)));
    Ok(())
}

/// The numbers that a program prints for a listing, if it ends in time.
fn ended(program: Command, limit: Duration, listing: &Listing) -> Option<Vec<u32>> {
    let input = words(&[&listing.query.numbers(), &listing.table[..]].concat());
    let end = Instant::now().checked_add(limit);
    let ended = Pipe::alone(program).and_then(|pipe| pipe.run(&input, end));
    match ended.expect("a program that can be started") {
        Ended::OutOfTime => None,
        Ended::ByItself(text, Some(0)) => Some(numbers(&text).expect("numbers")),
        Ended::ByItself(_, code) => panic!("{listing:?} ended with {code:?}"),
    }
}

/// Numbers as text.
fn words(numbers: &[impl ToString]) -> String {
    let words: Vec<String> = numbers.iter().map(ToString::to_string).collect();
    words.join(" ")
}

/// The numbers that are in a text, if nothing else is.
fn numbers<Value: std::str::FromStr>(text: &str) -> Option<Vec<Value>> {
    let words = text.split_whitespace();
    words.map(|word| word.parse().ok()).collect()
}

#[cfg(test)]
mod tests {
    use super::{ended, Call};
    use crate::families;
    use crate::listing::Listing;
    use reference::shop;
    use std::process::Command;
    use std::time::Duration;

    fn listing() -> Listing {
        Listing::of(&families::shop(&shop::T))
    }

    #[test]
    fn a_call_gives_sets_or_a_length_or_nothing() {
        let answer = |call: Call| call.answer(&listing());
        assert_eq!(answer(Call::Library), [7, 8]);
        assert_eq!(answer(Call::Reference), [7, 8]);
        assert_eq!(answer(Call::Write(7)), [6]);
        assert_eq!(answer(Call::Write(15)), []);
    }

    #[cfg(unix)]
    #[test]
    fn a_program_is_given_the_query_and_the_table() {
        let given = ended(Command::new("cat"), Duration::from_secs(60), &listing());
        let expected = [&shop::Q.numbers(), &shop::T[..]].concat();
        let expected = expected.into_iter().map(u32::from).collect();
        assert_eq!(given, Some(expected));
    }

    #[cfg(unix)]
    #[test]
    fn a_program_that_takes_too_long_gives_nothing() {
        let mut sleep = Command::new("sleep");
        sleep.arg("60");
        let given = ended(sleep, Duration::from_millis(50), &listing());
        assert_eq!(given, None);
    }
}
