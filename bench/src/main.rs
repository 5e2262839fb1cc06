//! Times the calls of the library and of the reference, side by side, and
//! several ways of listing minimal sets.
//!
//! Without an argument it prints the time of one check, as the median of
//! several rounds, for the shop's table, for the largest table, and for 1,000
//! valid tables made up at random; the time of one verdict for the shop's
//! records and for 1,000 grown ones; the nodes per second for records of very
//! many nodes; and the time of one list for several families of tables, where a
//! family of several tables has its median, 99th percentile and worst. Where
//! the reference takes too long it gives up. It says how long things take and
//! judges nothing.
//!
//! With `writing` it times the writing of records beside verifying and listing,
//! and the refusals of writing. With `dead` it times tables whose constraint dies
//! early, and, if asked, an older build of the library beside a newer one. With
//! `clubs` it times clubs whose friends are the friends of their friends. With
//! `moves` it times the moving of state sets along roles, beside a loop in C, and
//! by two builds too, if asked. With `marks` it times automata that demand every
//! word or some word, and by two builds too, if asked.
//! With `peers` it times the library's list, the reference's, an enumeration of
//! proofs and an answer set solver on the same wallets, and compares what they
//! list. With `page` it does all this, and its tables are those of
//! docs/PERFORMANCE.md. With `climb` it looks for tables on which one list of the
//! library, or the writing of a record, takes long. With `single` it makes one
//! call.

#![deny(unsafe_code)]
#![warn(missing_docs)]

mod arguments;
mod builds;
mod calls;
mod climb;
mod clubs;
mod dead;
mod families;
mod listing;
mod lists;
mod machine;
mod marks;
mod moves;
mod peers;
mod pipe;
mod plot;
mod sheet;
mod single;
mod timing;
mod within;
mod words;
mod writing;

use std::env;
use std::fs::{self, File};
use std::io;
use std::path::{Path, PathBuf};
use std::process::ExitCode;
use std::time::Duration;

use reference::random::Random;

use arguments::{Options, Task};
use builds::{Build, Pair};
use moves::Limit;
use sheet::Form;

/// The seed of the tables and records.
const SEED: u64 = 2015;
/// How the program is called from the repository's root.
const COMMAND: &str = "cargo run --release --offline -p bench --";
/// The head of the page's section about constraints that die early.
const DEAD: &str = "### Constraints that die early";
/// The head of the page's section about clubs.
const CLUBS: &str = "### Clubs";
/// The head of the page's section about moves.
const MOVES: &str = "### Moves";
/// The head of the page's section about marks.
const MARKS: &str = "### Marks";
/// The code for wrong arguments.
const WRONG_ARGUMENTS: u8 = 2;

fn main() -> ExitCode {
    match arguments::task(env::args_os().skip(1)) {
        Ok(task) => done(task),
        Err(wrong) => {
            eprintln!("{wrong}\n{}", arguments::USAGE);
            ExitCode::from(WRONG_ARGUMENTS)
        }
    }
}

/// Does what there is to do.
fn done(task: Task) -> ExitCode {
    match task {
        Task::Help => println!("{}", arguments::USAGE),
        Task::Calls => {
            time_calls(Form::Columns);
            writing::time(Form::Columns);
        }
        Task::Writing => print_writing(),
        Task::Dead(builds) => return time_dead(&builds),
        Task::Clubs(limit) => print_clubs(limit),
        Task::Moves(builds) => return time_moves(&builds),
        Task::Marks(options) => return time_marks(&options),
        Task::Peers(options) => return time_peers(&options, false),
        Task::Page(options) => return time_peers(&options, true),
        Task::Climb(climb) => climb::run(climb),
        Task::Single(call) => return make(call),
    }
    ExitCode::SUCCESS
}

/// Times the calls of the library and of the reference.
fn time_calls(form: Form) {
    let mut random = Random::new(SEED);
    calls::time_checks(&mut random, form);
    calls::time_verdicts(&mut random, form);
    calls::time_nodes(form);
    lists::time_lists(&mut random, form);
}

/// Times the ways of listing, prints the tables and writes the plot. For the
/// page there are tables of the machine, of the calls, of writing, of constraints
/// that die early, of clubs, of moves and of marks beside them. It fails if two ways list
/// different sets, if the plot cannot be written, or if a build or the loop in C
/// cannot be loaded.
fn time_peers(options: &Options, page: bool) -> ExitCode {
    let plot = options.plot.as_deref();
    if let Some(Err(error)) = plot.map(can_be_written) {
        return unwritten(&error);
    }
    let pairs = match loaded(&options.builds) {
        Ok(pairs) => pairs,
        Err(code) => return code,
    };
    let moves_limit = match page.then(made).transpose() {
        Ok(moves_limit) => moves_limit,
        Err(code) => return code,
    };
    if page {
        print_heading();
    }
    let comparison = peers::compare(options.limit);
    print!("{}", peers::tables::all(&comparison));
    let drawn = plot.map(|file| fs::write(file, peers::curves::drawn(&comparison)));
    if let Some(moves_limit) = moves_limit {
        println!("\n### Calls of the library and of the reference");
        time_calls(Form::Markdown);
        println!();
        print_writing();
        println!("\n{DEAD}");
        dead::time(Form::Markdown, &pairs);
        println!("\n{CLUBS}");
        clubs::time(options.limit);
        println!("\n{MOVES}");
        moves::time(Form::Markdown, &pairs, &moves_limit);
        println!("\n{MARKS}");
        marks::time(Form::Markdown, options.limit, &pairs);
    }
    match drawn {
        Some(Err(error)) => unwritten(&error),
        _ if comparison.faults > 0 => ExitCode::FAILURE,
        _ => ExitCode::SUCCESS,
    }
}

/// Times constraints that die early, by two builds too if they are given. It fails
/// if one of them cannot be loaded.
fn time_dead(builds: &[[PathBuf; 2]]) -> ExitCode {
    let pairs = match loaded(builds) {
        Ok(pairs) => pairs,
        Err(code) => return code,
    };
    println!("{DEAD}\n\nThis section was printed by\n");
    print_command();
    machine::print();
    dead::time(Form::Markdown, &pairs);
    ExitCode::SUCCESS
}

/// Times moves, by two builds if they are given. It fails if one of them or the
/// loop in C cannot be loaded.
fn time_moves(builds: &[[PathBuf; 2]]) -> ExitCode {
    let (pairs, limit) = match (loaded(builds), made()) {
        (Ok(pairs), Ok(limit)) => (pairs, limit),
        (Err(code), _) | (_, Err(code)) => return code,
    };
    println!("{MOVES}\n\nThis section was printed by\n");
    print_command();
    machine::print();
    moves::time(Form::Markdown, &pairs, &limit);
    ExitCode::SUCCESS
}

/// Times marks, by two builds too if they are given. It fails if one of them cannot
/// be loaded.
fn time_marks(options: &Options) -> ExitCode {
    let pairs = match loaded(&options.builds) {
        Ok(pairs) => pairs,
        Err(code) => return code,
    };
    println!("{MARKS}\n\nThis section was printed by\n");
    print_command();
    machine::print();
    marks::time(Form::Markdown, options.limit, &pairs);
    ExitCode::SUCCESS
}

/// Makes one call. It fails if it is not given the numbers of a query and a table.
fn make(call: single::Call) -> ExitCode {
    let made = single::run(call);
    if let Err(error) = &made {
        eprintln!("no call is made: {error}");
    }
    made.map_or(ExitCode::FAILURE, |()| ExitCode::SUCCESS)
}

/// Prints the section about clubs by itself.
fn print_clubs(limit: Duration) {
    println!("{CLUBS}\n\nThis section was printed by\n");
    print_command();
    machine::print();
    clubs::time(limit);
}

/// Prints the page's section about writing.
fn print_writing() {
    println!("### Writing records");
    writing::time(Form::Markdown);
}

/// Prints what comes first on the page: the command and the machine.
fn print_heading() {
    println!("## Figures\n\nThis section was printed by\n");
    print_command();
    println!("### Machine\n");
    machine::print();
    println!("\n### Ways of listing\n");
}

/// Prints how the program was called.
fn print_command() {
    let arguments: Vec<String> = env::args_os()
        .skip(1)
        .map(|argument| argument.display().to_string())
        .collect();
    println!("    {COMMAND} {}\n", arguments.join(" "));
}

/// The builds that are to be loaded, or the code for one that cannot be, which is
/// said.
fn loaded(builds: &[[PathBuf; 2]]) -> Result<Vec<Pair>, ExitCode> {
    let load = |[before, after]: &[PathBuf; 2]| Ok([Build::load(before)?, Build::load(after)?]);
    let pairs: Result<Vec<Pair>, String> = builds.iter().map(load).collect();
    pairs.map_err(|error| {
        eprintln!("a build cannot be loaded: {error}");
        ExitCode::FAILURE
    })
}

/// The loop in C, or the code for why it cannot be loaded, which is said.
fn made() -> Result<Limit, ExitCode> {
    Limit::make().map_err(|error| {
        eprintln!("bench/limit.c cannot be compiled and loaded: {error}");
        ExitCode::FAILURE
    })
}

/// Says that the plot cannot be written.
fn unwritten(error: &io::Error) -> ExitCode {
    eprintln!("the plot cannot be written: {error}");
    ExitCode::FAILURE
}

/// Whether a file can be written, asked before minutes go by. What it holds
/// stays.
fn can_be_written(file: &Path) -> io::Result<()> {
    File::options().append(true).create(true).open(file)?;
    Ok(())
}
