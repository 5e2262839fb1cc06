//! What the program is asked to do.

use std::ffi::OsString;
use std::path::PathBuf;
use std::str::FromStr;
use std::time::Duration;

use crate::climb::{Call, Climb};
use crate::single;

/// How the program is called.
pub const USAGE: &str = "\
usage: bench
       bench writing
       bench dead [--before FILE --after FILE]...
       bench clubs [--limit SECONDS]
       bench moves [--before FILE --after FILE]...
       bench marks [--limit SECONDS] [--before FILE --after FILE]...
       bench peers [--limit SECONDS] [--plot FILE]
       bench page [--limit SECONDS] [--plot FILE] [--before FILE --after FILE]...
       bench climb [--writing] [--steps NUMBER] [--seed NUMBER] [--limit SECONDS]
       bench single library | reference | write SET

Without a word the calls of the library and of the reference are timed, then the
writing of records, and the lines are in columns. With `writing` the latter is
timed alone, and the tables are Markdown. With `dead` tables whose constraint
dies early are timed, beside twins whose constraint does not, and the tables are
Markdown. With `clubs` the lists and records of clubs are timed, whose friends are
the friends of their friends, and the tables are Markdown. With `moves` the moving
of state sets along roles is timed, on long records beside a loop in C and on short
ones, and the tables are Markdown. With `marks` wallets are timed whose automata
demand every word, some word, or the one here and the other there, and tables in
which many automata demand some word, and the tables are Markdown. With `peers`
several ways of listing are timed on the same wallets, and the tables are Markdown.
With `page` all this is done, all tables are Markdown, and a table about the machine
comes first. With `climb` tables on which the library's list takes long are looked
for, and the slowest ones printed. With `single` one call is made for the numbers of
a query and a table on standard input, and the numbers that it gives are printed:
`clubs` and `marks` start it where a call may not end in time.

--limit SECONDS   how long a call may take for one wallet, 1 if not given
--plot FILE       where a plot of the ways is written, as SVG
--before FILE     an older build of the library, as a shared object; one that knows
                  no marks is given tables of the base layout
--after FILE      a newer build that is timed beside it; docs/PERFORMANCE.md says
                  how they are made, and why each should be given several times
--steps NUMBER    how many steps a climb has, 1000 if not given
--seed NUMBER     where the climbs begin, 2015 if not given
--writing         climb on the time of writing a record for each of its cells";

/// The steps of a climb and its seed if none are given.
const STEPS: usize = 1_000;
const SEED: u64 = 2015;

/// The options of each task.
const PEERS: &[&str] = &["--limit", "--plot"];
const PAGE: &[&str] = &["--limit", "--plot", "--before", "--after"];
const BUILDS: &[&str] = &["--before", "--after"];
const MARKS: &[&str] = &["--limit", "--before", "--after"];
const CLUBS: &[&str] = &["--limit"];

/// The limit if none is given.
const LIMIT: Duration = Duration::from_secs(1);
/// The longest limit, in seconds.
const LONGEST: f64 = 3_600.0;

/// What there is to do.
#[derive(Clone, Debug, PartialEq, Eq)]
pub enum Task {
    /// Say how the program is called.
    Help,
    /// Time the calls of the library and of the reference, then writing.
    Calls,
    /// Time the writing of records.
    Writing,
    /// Time tables whose constraint dies early, by two builds too if they are given.
    Dead(Vec<[PathBuf; 2]>),
    /// Time clubs. A call may take so long for one of them.
    Clubs(Duration),
    /// Time moves, by two builds if they are given.
    Moves(Vec<[PathBuf; 2]>),
    /// Time marks, by two builds too if they are given.
    Marks(Options),
    /// Time several ways of listing.
    Peers(Options),
    /// All of this, as tables for the page.
    Page(Options),
    /// Look for tables on which a call takes long.
    Climb(Climb),
    /// Make one call.
    Single(single::Call),
}

/// How the page's tables are made, or those of them about the ways of listing.
#[derive(Clone, Debug, PartialEq, Eq)]
pub struct Options {
    /// How long a way may take for one wallet.
    pub limit: Duration,
    /// Where the plot is written, if at all.
    pub plot: Option<PathBuf>,
    /// Where an older build is and where a newer one, if they are timed, as often as
    /// they are given.
    pub builds: Vec<[PathBuf; 2]>,
}

/// The task that some arguments ask for, or what is wrong with them.
pub fn task(arguments: impl IntoIterator<Item = OsString>) -> Result<Task, String> {
    let mut arguments = arguments.into_iter();
    let Some(first) = arguments.next() else {
        return Ok(Task::Calls);
    };
    match first.to_str() {
        Some("writing") => alone(arguments, Task::Writing),
        Some("dead") => Ok(Task::Dead(options(arguments, BUILDS)?.builds)),
        Some("moves") => Ok(Task::Moves(options(arguments, BUILDS)?.builds)),
        Some("marks") => Ok(Task::Marks(options(arguments, MARKS)?)),
        Some("clubs") => Ok(Task::Clubs(options(arguments, CLUBS)?.limit)),
        Some("peers") => Ok(Task::Peers(options(arguments, PEERS)?)),
        Some("page") => Ok(Task::Page(options(arguments, PAGE)?)),
        Some("climb") => Ok(Task::Climb(climb(arguments)?)),
        Some("single") => single(arguments),
        Some("--help") => Ok(Task::Help),
        _ => Err(unknown(&first)),
    }
}

/// A task after which no argument comes.
fn alone(mut rest: impl Iterator<Item = OsString>, task: Task) -> Result<Task, String> {
    rest.next()
        .map_or(Ok(task), |argument| Err(unknown(&argument)))
}

/// The one call that the rest of the arguments name.
fn single(mut arguments: impl Iterator<Item = OsString>) -> Result<Task, String> {
    let mut word = |before: &str| arguments.next().ok_or(missing(&before.into()));
    let first = word("single")?;
    let call = match first.to_str() {
        Some("library") => single::Call::Library,
        Some("reference") => single::Call::Reference,
        Some("write") => single::Call::Write(number(&word("write")?)?),
        _ => return Err(unknown(&first)),
    };
    alone(arguments, Task::Single(call))
}

/// The options that the rest of the arguments give, no others than these. Each is
/// given at most once, but builds may be given several times.
fn options(
    mut arguments: impl Iterator<Item = OsString>,
    these: &[&str],
) -> Result<Options, String> {
    let (mut limit_given, mut plot) = (None, None);
    let (mut before, mut after) = (Vec::new(), Vec::new());
    while let Some(argument) = arguments.next() {
        let mut value = || arguments.next().ok_or(missing(&argument));
        let again = match argument.to_str().filter(|name| these.contains(name)) {
            Some("--limit") => limit_given.replace(limit(&value()?)?).is_some(),
            Some("--plot") => plot.replace(PathBuf::from(value()?)).is_some(),
            Some("--before") => further(&mut before, value()?),
            Some("--after") => further(&mut after, value()?),
            _ => return Err(unknown(&argument)),
        };
        if again {
            return Err(twice(&argument));
        }
    }
    Ok(Options {
        limit: limit_given.unwrap_or(LIMIT),
        plot,
        builds: pairs(before, after)?,
    })
}

/// Takes a further file, of which there can be several: it is none too many.
fn further(files: &mut Vec<PathBuf>, file: OsString) -> bool {
    files.push(PathBuf::from(file));
    false
}

/// The files of two builds in pairs, if there are as many of either.
fn pairs(before: Vec<PathBuf>, after: Vec<PathBuf>) -> Result<Vec<[PathBuf; 2]>, String> {
    if before.len() != after.len() {
        return Err("--before and --after must be given equally often".to_string());
    }
    let pairs = before.into_iter().zip(after);
    Ok(pairs.map(|(before, after)| [before, after]).collect())
}

/// The climb that the rest of the arguments ask for, each at most once.
fn climb(mut arguments: impl Iterator<Item = OsString>) -> Result<Climb, String> {
    let (mut call, mut steps, mut seed, mut limit_given) = (None, None, None, None);
    while let Some(argument) = arguments.next() {
        let mut value = || arguments.next().ok_or(missing(&argument));
        let again = match argument.to_str() {
            Some("--writing") => call.replace(Call::Write).is_some(),
            Some("--steps") => steps.replace(number(&value()?)?).is_some(),
            Some("--seed") => seed.replace(number(&value()?)?).is_some(),
            Some("--limit") => limit_given.replace(limit(&value()?)?).is_some(),
            _ => return Err(unknown(&argument)),
        };
        if again {
            return Err(twice(&argument));
        }
    }
    Ok(Climb {
        call: call.unwrap_or(Call::List),
        steps: steps.unwrap_or(STEPS),
        seed: seed.unwrap_or(SEED),
        limit: limit_given.unwrap_or(LIMIT),
    })
}

/// The number that some text is.
fn number<Value: FromStr>(text: &OsString) -> Result<Value, String> {
    let number = text.to_str().and_then(|text| text.parse().ok());
    number.ok_or(format!("{} is no number", text.display()))
}

/// The time that a number of seconds is, if it is more than 0 and not too much.
fn limit(seconds: &OsString) -> Result<Duration, String> {
    let number = seconds.to_str().and_then(|text| text.parse::<f64>().ok());
    let right = number.filter(|number| *number > 0.0 && *number <= LONGEST);
    let limit = right.and_then(|number| Duration::try_from_secs_f64(number).ok());
    let limit = limit.filter(|limit| !limit.is_zero());
    limit.ok_or(format!("{} is no number of seconds", seconds.display()))
}

fn unknown(argument: &OsString) -> String {
    format!("unknown argument {}", argument.display())
}

fn twice(argument: &OsString) -> String {
    format!("{} is given twice", argument.display())
}

fn missing(argument: &OsString) -> String {
    format!("something is missing after {}", argument.display())
}

#[cfg(test)]
mod tests {
    use super::{single, task, Call, Climb, Options, Task};
    use std::ffi::OsString;
    use std::path::PathBuf;
    use std::time::Duration;

    const UNEQUAL: &str = "--before and --after must be given equally often";

    fn asked(words: &str) -> Result<Task, String> {
        task(words.split_whitespace().map(OsString::from))
    }

    fn options(milliseconds: u64, plot: Option<&str>) -> Options {
        Options {
            limit: Duration::from_millis(milliseconds),
            plot: plot.map(Into::into),
            builds: Vec::new(),
        }
    }

    fn climb(call: Call, steps: usize, seed: u64, milliseconds: u64) -> Task {
        Task::Climb(Climb {
            call,
            steps,
            seed,
            limit: Duration::from_millis(milliseconds),
        })
    }

    #[test]
    fn right_arguments_are_tasks() {
        let right = [
            ("", Task::Calls),
            ("--help", Task::Help),
            ("writing", Task::Writing),
            ("dead", Task::Dead(Vec::new())),
            (
                "dead --before a --after b",
                Task::Dead(vec![["a", "b"].map(PathBuf::from)]),
            ),
            (
                "dead --before a --before b --after c --after --after",
                Task::Dead(vec![
                    ["a", "c"].map(PathBuf::from),
                    ["b", "--after"].map(PathBuf::from),
                ]),
            ),
            ("clubs", Task::Clubs(Duration::from_secs(1))),
            ("clubs --limit 5", Task::Clubs(Duration::from_secs(5))),
            ("moves", Task::Moves(Vec::new())),
            (
                "moves --after b --before a",
                Task::Moves(vec![["a", "b"].map(PathBuf::from)]),
            ),
            ("marks", Task::Marks(options(1_000, None))),
            (
                "marks --before a --limit 2 --after b",
                Task::Marks(Options {
                    builds: vec![["a", "b"].map(PathBuf::from)],
                    ..options(2_000, None)
                }),
            ),
            ("single library", Task::Single(single::Call::Library)),
            ("single reference", Task::Single(single::Call::Reference)),
            ("single write 7", Task::Single(single::Call::Write(7))),
            ("peers", Task::Peers(options(1_000, None))),
            ("peers --limit 2", Task::Peers(options(2_000, None))),
            ("page --limit 0.25", Task::Page(options(250, None))),
            ("climb", climb(Call::List, 1_000, 2015, 1_000)),
            ("climb --writing", climb(Call::Write, 1_000, 2015, 1_000)),
            ("climb --steps 0 --seed 7", climb(Call::List, 0, 7, 1_000)),
            (
                "climb --limit 2 --writing --steps 50",
                climb(Call::Write, 50, 2015, 2_000),
            ),
            (
                "peers --plot a.svg",
                Task::Peers(options(1_000, Some("a.svg"))),
            ),
            (
                "page --plot --limit --limit 3600",
                Task::Page(options(3_600_000, Some("--limit"))),
            ),
            (
                "page --after b --before a",
                Task::Page(Options {
                    builds: vec![["a", "b"].map(PathBuf::from)],
                    ..options(1_000, None)
                }),
            ),
        ];
        for (words, task) in right {
            assert_eq!(asked(words), Ok(task), "{words}");
        }
    }

    #[test]
    fn wrong_arguments_are_told() {
        let wrong = [
            ("peer", "unknown argument peer"),
            ("--limit 1", "unknown argument --limit"),
            ("peers 5", "unknown argument 5"),
            ("writing --limit 1", "unknown argument --limit"),
            ("dead a.so", "unknown argument a.so"),
            ("dead --limit 1", "unknown argument --limit"),
            ("dead --before", "something is missing after --before"),
            ("dead --after", "something is missing after --after"),
            ("dead --before a", UNEQUAL),
            ("page --after a", UNEQUAL),
            ("dead --before a --after b --after c", UNEQUAL),
            ("clubs 6", "unknown argument 6"),
            ("clubs --plot a", "unknown argument --plot"),
            ("moves --limit 1", "unknown argument --limit"),
            ("moves --before a", UNEQUAL),
            ("marks --plot a", "unknown argument --plot"),
            ("marks --after a", UNEQUAL),
            ("single", "something is missing after single"),
            ("single list", "unknown argument list"),
            ("single library 7", "unknown argument 7"),
            ("single write", "something is missing after write"),
            ("single write -1", "-1 is no number"),
            ("peers --before a", "unknown argument --before"),
            ("peers --after a", "unknown argument --after"),
            ("page --plots a", "unknown argument --plots"),
            ("peers --limit", "something is missing after --limit"),
            ("peers --plot", "something is missing after --plot"),
            ("peers --limit 1 --limit 1", "--limit is given twice"),
            ("page --plot a --plot b", "--plot is given twice"),
            ("climb --plot a", "unknown argument --plot"),
            ("climb --steps", "something is missing after --steps"),
            ("climb --seed -1", "-1 is no number"),
            ("climb --seed 1 --seed 1", "--seed is given twice"),
            ("climb --writing --writing", "--writing is given twice"),
            ("climb --writing 1", "unknown argument 1"),
        ];
        for (words, message) in wrong {
            assert_eq!(asked(words), Err(message.to_string()), "{words}");
        }
        for seconds in [
            "0", "-1", "NaN", "inf", "3601", "1e-300", "one", "1s", "0x1",
        ] {
            let message = format!("{seconds} is no number of seconds");
            assert_eq!(asked(&format!("peers --limit {seconds}")), Err(message));
        }
    }

    #[cfg(unix)]
    #[test]
    fn arguments_need_not_be_text() {
        use std::os::unix::ffi::OsStringExt;
        let no_text = || OsString::from_vec(vec![0xff]);
        assert!(task([no_text()]).is_err());
        assert!(task(["peers".into(), "--limit".into(), no_text()]).is_err());
        let plot = task(["peers".into(), "--plot".into(), no_text()]);
        let expected = Options {
            plot: Some(no_text().into()),
            ..options(1_000, None)
        };
        assert_eq!(plot, Ok(Task::Peers(expected)));
    }
}
