//! The minimal sets by an answer set solver, in the way of the 2012 paper
//! (docs/SOURCES.md): gringo and clasp, with the program in
//! `bench/asp/minimal.lp`.
//!
//! Each listing starts both programs anew, joined by a pipe. Nothing is written
//! to files.

use std::env;
use std::path::PathBuf;
use std::process::Command;
use std::time::{Duration, Instant};

use reference::records::Records;

use super::facts::facts;
use super::Unfinished;
use crate::listing::Listing;
use crate::pipe::{Ended, Pipe};

/// The program, which has no facts.
const PROGRAM: &str = include_str!("../../asp/minimal.lp");
/// All answer sets that are minimal in what they show; the program's comments
/// say how. Nothing but the answer sets and one last line is printed.
const CLASP: [&str; 6] = [
    "--models=0",
    "--heuristic=Domain",
    "--dom-mod=false,show",
    "--enum-mode=domRec",
    "--verbose=0",
    "--quiet=0",
];
/// How clasp ends when it has gone through all answer sets, and found some or
/// found none.
const WENT_THROUGH: [i32; 2] = [30, 20];

/// The two programs.
pub struct Solver {
    gringo: PathBuf,
    clasp: PathBuf,
}

impl Solver {
    /// The programs on the path, or the name of one that is not there.
    pub fn find() -> Result<Solver, &'static str> {
        let path = env::var_os("PATH").unwrap_or_default();
        let folders: Vec<PathBuf> = env::split_paths(&path).collect();
        Ok(Solver {
            gringo: program(&folders, "gringo").ok_or("gringo")?,
            clasp: program(&folders, "clasp").ok_or("clasp")?,
        })
    }

    /// The minimal sets, ascending, if both programs end in time.
    pub fn minimal_sets(&self, listing: &Listing, limit: Duration) -> Result<Vec<u32>, Unfinished> {
        let end = Instant::now().checked_add(limit);
        let records = Records::read(&listing.table).expect("an accepted table");
        let input = PROGRAM.to_string() + &facts(&records, listing.query);
        Ok(sets(&self.answers(&input, end)?))
    }

    /// Has both programs go through a program with nothing in it.
    pub fn idle(&self, limit: Duration) -> Result<String, Unfinished> {
        self.answers("", Instant::now().checked_add(limit))
    }

    /// What is printed about the answer sets of a program, if both programs
    /// have gone through them all in time.
    fn answers(&self, input: &str, end: Option<Instant>) -> Result<String, Unfinished> {
        let failed = |error: std::io::Error| Unfinished::Failed(error.to_string());
        let ended = self.start().and_then(|pipe| pipe.run(input, end));
        match ended.map_err(failed)? {
            Ended::OutOfTime => Err(Unfinished::OutOfTime),
            Ended::ByItself(text, Some(code)) if WENT_THROUGH.contains(&code) => Ok(text),
            Ended::ByItself(_, code) => {
                Err(Unfinished::Failed(format!("clasp ended with {code:?}")))
            }
        }
    }

    /// Starts both programs.
    fn start(&self) -> std::io::Result<Pipe> {
        let mut gringo = Command::new(&self.gringo);
        gringo.args(["--warn=none", "-"]);
        let mut clasp = Command::new(&self.clasp);
        clasp.args(CLASP);
        Pipe::start(gringo, clasp)
    }
}

/// The program with this name in the first of some folders that has one.
fn program(folders: &[PathBuf], name: &str) -> Option<PathBuf> {
    let mut places = folders.iter().map(|folder| folder.join(name));
    places.find(|place| place.is_file())
}

/// The sets that clasp prints, ascending: a line for each, with `in(I)` for
/// each credential I. Other lines have no such words.
fn sets(printed: &str) -> Vec<u32> {
    let mut sets: Vec<u32> = printed.lines().filter_map(set).collect();
    sets.sort();
    sets
}

/// The set of credentials in a line, if there is one in it.
fn set(line: &str) -> Option<u32> {
    let words = line.split_whitespace();
    let numbers = words.map(|word| word.strip_prefix("in(")?.strip_suffix(')')?.parse().ok());
    let numbers: Option<Vec<u32>> = numbers.collect();
    let set = numbers?.into_iter().try_fold(0, |set, number| {
        let index = number.checked_sub(1)?;
        Some(set | 1u32.checked_shl(index)?)
    });
    set.filter(|&set| set > 0)
}

#[cfg(test)]
mod tests {
    use super::{program, sets};
    use std::path::PathBuf;

    #[test]
    fn every_line_of_credentials_is_a_set() {
        let printed = "in(4)\nin(1) in(3) in(2)\nSATISFIABLE\n";
        assert_eq!(sets(printed), [7, 8]);
        assert_eq!(sets("in(20)\nin(1)\n"), [1, 1 << 19]);
        assert_eq!(sets("UNSATISFIABLE\n"), []);
        assert_eq!(sets("\nin(0)\nin(33)\nin(x)\nin(1) out(2)\n"), []);
    }

    #[test]
    fn a_program_that_is_in_no_folder_is_not_found() {
        let folders: Vec<PathBuf> = ["/no/such/folder", env!("CARGO_MANIFEST_DIR")]
            .map(PathBuf::from)
            .to_vec();
        let found = program(&folders, "Cargo.toml");
        assert_eq!(found, Some(folders[1].join("Cargo.toml")));
        assert_eq!(program(&folders, "no-such-program"), None);
        // A folder is no program.
        assert_eq!(program(&folders, "src"), None);
        assert_eq!(program(&[], "Cargo.toml"), None);
    }
}
