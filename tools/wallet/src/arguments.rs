//! What the command line asks for.

use std::collections::BTreeMap;
use std::ffi::{OsStr, OsString};
use std::fmt;
use std::os::unix::ffi::OsStrExt;
use std::path::PathBuf;

use wallet::decimal::set;

use crate::failure::Wrong;
use crate::usage::{overview, Known};

/// A command, how it answers, and where.
#[derive(Debug, PartialEq, Eq)]
pub struct Arguments {
    /// The command's name.
    pub name: &'static str,
    /// The command.
    pub command: Command,
    /// How it answers.
    pub form: Form,
    /// The file after `-o`.
    pub output: Option<PathBuf>,
    /// All that is read.
    pub sources: Vec<Source>,
}

/// A command with what it is about.
#[derive(Debug, PartialEq, Eq)]
pub enum Command {
    /// Checks a wallet.
    Check(Asked),
    /// Lists all minimal sets.
    List(Asked),
    /// Says what stands in the way.
    Why(Asked),
    /// Writes the record of a set, or of every listed set.
    Prove(Asked, Option<u32>),
    /// Verifies a record.
    Verify(Asked, Given),
    /// Draws a record.
    Draw(Asked, Given),
    /// Writes a page about a query.
    Report(Asked),
    /// Writes the listing program's input.
    Encode(Asked),
    /// Explains what the listing program printed.
    Explain(Asked),
    /// Writes the text of an input, in the names of a wallet.
    Decode(Option<Source>),
    /// Writes an input of the base layout with marks.
    Upgrade,
    /// Says how the tool, or a command, is called.
    Help(Option<Known>),
    /// Says which version the tool is.
    Version,
}

/// How a command answers.
#[derive(Clone, Copy, Debug, Default, PartialEq, Eq)]
pub enum Form {
    /// In words, or in the one form that it has.
    #[default]
    Words,
    /// With a JSON object.
    Json,
    /// With the count of sets.
    Count,
    /// With the numbers of the sets.
    Sets,
    /// With the numbers of a record.
    Numbers,
}

/// The options that choose a form. One call has one of them.
const FORMS: [(&str, Form); 4] = [
    ("--json", Form::Json),
    ("--count", Form::Count),
    ("--sets", Form::Sets),
    ("--numbers", Form::Numbers),
];

/// Where a record comes from.
#[derive(Clone, Debug, PartialEq, Eq)]
pub enum Given {
    /// From the words after the wallet.
    Words(String),
    /// From a file, or from standard input.
    Text(Source),
    /// From the library, which writes it for this set.
    Set(u32),
}

/// A wallet, and what is asked about it.
#[derive(Clone, Debug, PartialEq, Eq)]
pub struct Asked {
    /// The wallet.
    pub wallet: Source,
    /// The query after `--query`, which goes before the wallet's own.
    pub query: Option<OsString>,
}

/// Where a text is.
#[derive(Clone, Debug, PartialEq, Eq)]
pub enum Source {
    /// On standard input.
    Standard,
    /// In a file.
    File(PathBuf),
}

impl fmt::Display for Source {
    fn fmt(&self, out: &mut fmt::Formatter<'_>) -> fmt::Result {
        match self {
            Source::Standard => out.write_str("standard input"),
            Source::File(path) => write!(out, "{}", path.display()),
        }
    }
}

/// A call that is wrong.
#[derive(Debug, PartialEq, Eq)]
pub struct Misuse {
    /// What is wrong with it.
    pub wrong: Wrong,
    /// The command, if there is one.
    pub command: Option<&'static str>,
    /// Whether it asks for JSON.
    pub json: bool,
}

/// Reads the arguments, or says what is wrong with them.
pub fn read(mut words: impl Iterator<Item = OsString>) -> Result<Arguments, Misuse> {
    let Some(name) = words.next() else {
        return Err(Misuse {
            wrong: Wrong::call("a command is missing", overview()),
            command: None,
            json: false,
        });
    };
    let name = match name.to_str() {
        Some("--version" | "-V") => return Ok(Arguments::plain("--version", Command::Version)),
        Some("--help" | "-h") => OsString::from("help"),
        _ => name,
    };
    let known = known(&name).map_err(|wrong| Misuse {
        wrong,
        command: None,
        json: words.any(|word| word == "--json"),
    })?;
    let mut line = Line::new(known, words);
    let (name, json) = (line.known.name, line.options.contains_key("--json"));
    // Help is given whatever else is wrong.
    if line.options.contains_key("--help") {
        return Ok(Arguments::plain("help", Command::Help(Some(line.known))));
    }
    line.read().map_err(|wrong| Misuse {
        wrong,
        command: Some(name),
        json,
    })
}

impl Arguments {
    /// A command without options.
    fn plain(name: &'static str, command: Command) -> Arguments {
        Arguments {
            name,
            command,
            form: Form::default(),
            output: None,
            sources: Vec::new(),
        }
    }
}

/// The command of a name.
fn known(name: &OsStr) -> Result<Known, Wrong> {
    let known = name.to_str().and_then(Known::named);
    known.ok_or_else(|| {
        let message = format!("unknown command `{}`", name.display());
        Wrong::call(message, "`wallet help` lists the commands")
    })
}

/// What stands after the command.
struct Line {
    known: Known,
    /// The value of each option that is there.
    options: BTreeMap<&'static str, OsString>,
    /// All other words that have not been read.
    words: std::vec::IntoIter<OsString>,
    /// What is wrong with the options.
    wrong: Option<String>,
    /// What is to be read.
    sources: Vec<Source>,
}

impl Line {
    /// Sets the options apart, wherever they stand before a `--`.
    fn new(known: Known, mut all: impl Iterator<Item = OsString>) -> Line {
        let mut line = Line {
            known,
            options: BTreeMap::new(),
            words: Vec::new().into_iter(),
            wrong: None,
            sources: Vec::new(),
        };
        if known.reads_standard_input() {
            line.sources.push(Source::Standard);
        }
        let mut words = Vec::new();
        while let Some(word) = all.next() {
            if word == "--" {
                words.extend(all);
                break;
            }
            if word == "-" || !word.as_bytes().starts_with(b"-") {
                words.push(word);
            } else if let Err(message) = line.option(&word, &mut all) {
                line.wrong.get_or_insert(message);
            }
        }
        line.words = words.into_iter();
        line
    }

    /// Adds an option, whose value is after its `=` or is the next word.
    fn option(
        &mut self,
        word: &OsStr,
        rest: &mut impl Iterator<Item = OsString>,
    ) -> Result<(), String> {
        let (written, attached) = split(word);
        let name = match written.to_str() {
            Some("-h") => "--help",
            Some("--output") => "-o",
            name => name.unwrap_or_default(),
        };
        let Some((name, value)) = self.known.option(name) else {
            let (command, option) = (self.known.name, written.display());
            return Err(format!("`{command}` has no option `{option}`"));
        };
        let given = match (value, attached) {
            (None, Some(_)) => return Err(format!("`{name}` takes no value")),
            (None, None) => OsString::new(),
            (Some(_), Some(attached)) => attached.to_owned(),
            (Some(what), None) => rest.next().ok_or(format!("`{name}` needs a {what}"))?,
        };
        match self.options.insert(name, given) {
            Some(_) => Err(format!("`{name}` is given twice")),
            None => Ok(()),
        }
    }

    /// The arguments, if nothing is wrong with them and nothing is left over.
    fn read(&mut self) -> Result<Arguments, Wrong> {
        if let Some(message) = self.wrong.take() {
            return Err(self.misused(message));
        }
        let output = self.options.remove("-o").map(PathBuf::from);
        let form = self.form()?;
        let command = self.command(form)?;
        let standard = self.sources.iter().filter(|own| **own == Source::Standard);
        if standard.count() > 1 {
            let message = "two things are to be read from standard input; give one as a file";
            return Err(self.misused(message.to_string()));
        }
        match self.words.next() {
            Some(word) => Err(self.misused(format!("unexpected argument `{}`", word.display()))),
            None => Ok(Arguments {
                name: self.known.name,
                command,
                form,
                output,
                sources: std::mem::take(&mut self.sources),
            }),
        }
    }

    /// How the command is to answer.
    fn form(&mut self) -> Result<Form, Wrong> {
        let mut forms = FORMS
            .iter()
            .filter(|(name, _)| self.options.contains_key(name));
        match (forms.next(), forms.next()) {
            (Some((one, _)), Some((other, _))) => {
                let message = format!("`{one}` and `{other}` cannot be given together");
                Err(self.misused(message))
            }
            (first, _) => Ok(first.map_or(Form::Words, |(_, form)| *form)),
        }
    }

    /// The command with what it is about.
    fn command(&mut self, form: Form) -> Result<Command, Wrong> {
        Ok(match self.known.name {
            "check" => Command::Check(self.asked()?),
            "list" => Command::List(self.asked()?),
            "why" => Command::Why(self.asked()?),
            "prove" => Command::Prove(self.asked()?, self.wanted(form)?),
            "verify" => Command::Verify(self.asked()?, self.given()?),
            "draw" => Command::Draw(self.asked()?, self.given()?),
            "report" => Command::Report(self.asked()?),
            "encode" => Command::Encode(self.asked()?),
            "explain" => Command::Explain(self.asked()?),
            "decode" => {
                let names = self.options.remove("--names");
                Command::Decode(names.map(|names| self.source(names)))
            }
            "upgrade" => Command::Upgrade,
            _ => Command::Help(self.words.next().map(|name| known(&name)).transpose()?),
        })
    }

    /// The wallet, which is the first word, and the query about it.
    fn asked(&mut self) -> Result<Asked, Wrong> {
        let wallet = self.words.next();
        let wallet = wallet.ok_or_else(|| {
            let command = self.known.name;
            self.misused(format!("`{command}` needs a WALLET"))
        })?;
        Ok(Asked {
            wallet: self.source(wallet),
            query: self.options.remove("--query"),
        })
    }

    /// Something to be read.
    fn source(&mut self, word: OsString) -> Source {
        let source = match word == "-" {
            true => Source::Standard,
            false => Source::File(PathBuf::from(word)),
        };
        self.sources.push(source.clone());
        source
    }

    /// The set whose record is wanted, which is the next word, if there is one.
    fn wanted(&mut self, form: Form) -> Result<Option<u32>, Wrong> {
        match self.words.next() {
            Some(word) => number_of_set(&word).map(Some),
            None if form == Form::Numbers => {
                Err(self.misused("`--numbers` needs a SET".to_string()))
            }
            None => Ok(None),
        }
    }

    /// The record, which has one source: all other words, or an option.
    fn given(&mut self) -> Result<Given, Wrong> {
        let words: Vec<OsString> = self.words.by_ref().collect();
        let file = self.options.remove("--record");
        match (words.first(), file, self.options.remove("--set")) {
            (_, None, None) => Ok(Given::Words(
                words.join(OsStr::new(" ")).to_string_lossy().into_owned(),
            )),
            (None, Some(file), None) => Ok(Given::Text(self.source(file))),
            (None, None, Some(word)) => number_of_set(&word).map(Given::Set),
            _ => Err(self.misused("the record is given more than once".to_string())),
        }
    }

    /// A call of the command that is wrong.
    fn misused(&self, message: String) -> Wrong {
        Wrong::call(message, self.known.line())
    }
}

/// An option's name, and the value after its `=`, if there is one.
fn split(word: &OsStr) -> (&OsStr, Option<&OsStr>) {
    let bytes = word.as_bytes();
    let equals = bytes.iter().position(|byte| *byte == b'=');
    match equals.filter(|_| bytes.starts_with(b"--")) {
        Some(place) => {
            let (name, value) = (&bytes[..place], &bytes[place + 1..]);
            (OsStr::from_bytes(name), Some(OsStr::from_bytes(value)))
        }
        None => (word, None),
    }
}

/// A set by its number.
fn number_of_set(word: &OsStr) -> Result<u32, Wrong> {
    set(&word.to_string_lossy()).map_err(Wrong::new)
}

#[cfg(test)]
mod tests {
    use super::{read, Arguments, Asked, Command, Form, Given, Misuse, Source};
    use crate::usage::Known;
    use std::ffi::OsString;
    use std::path::PathBuf;

    fn asked(line: &str) -> Result<Arguments, Misuse> {
        read(line.split_whitespace().map(Into::into))
    }

    #[track_caller]
    fn command(line: &str) -> Command {
        asked(line).expect(line).command
    }

    fn file(name: &str) -> Source {
        Source::File(PathBuf::from(name))
    }

    /// The file `w`, with its own query.
    fn own() -> Asked {
        Asked {
            wallet: file("w"),
            query: None,
        }
    }

    fn words(text: &str) -> Given {
        Given::Words(text.to_string())
    }

    #[test]
    fn commands_are_read() {
        for (line, expected) in [
            ("check w", Command::Check(own())),
            ("list w", Command::List(own())),
            ("why w", Command::Why(own())),
            ("report w", Command::Report(own())),
            ("encode w", Command::Encode(own())),
            ("explain w", Command::Explain(own())),
            ("decode", Command::Decode(None)),
            ("decode --names w", Command::Decode(Some(file("w")))),
            ("upgrade", Command::Upgrade),
            ("prove w", Command::Prove(own(), None)),
            ("prove w 7", Command::Prove(own(), Some(7))),
            ("verify w", Command::Verify(own(), words(""))),
            (
                "verify w 1 School, 2",
                Command::Verify(own(), words("1 School, 2")),
            ),
            ("draw w --set 0", Command::Draw(own(), Given::Set(0))),
            (
                "draw --record r w",
                Command::Draw(own(), Given::Text(file("r"))),
            ),
            (
                "draw w --record -",
                Command::Draw(own(), Given::Text(Source::Standard)),
            ),
            ("help", Command::Help(None)),
            ("help list", Command::Help(Known::named("list"))),
            ("--help", Command::Help(None)),
            ("--version", Command::Version),
        ] {
            assert_eq!(command(line), expected, "{line}");
        }
        let standard = Asked {
            wallet: Source::Standard,
            query: None,
        };
        assert_eq!(command("list -"), Command::List(standard));
    }

    #[test]
    fn options_stand_anywhere_and_have_values() {
        let query = Some(OsString::from("D=A"));
        for line in [
            "verify w 1 --query D=A -o f",
            "verify --output=f --query=D=A w 1",
        ] {
            let arguments = asked(line).expect(line);
            assert_eq!(arguments.output, Some(PathBuf::from("f")), "{line}");
            let wallet = file("w");
            let query = query.clone();
            let verify = Command::Verify(Asked { wallet, query }, words("1"));
            assert_eq!(arguments.command, verify, "{line}");
        }
        for (line, form) in [
            ("list w", Form::Words),
            ("list w --json", Form::Json),
            ("list --count w", Form::Count),
            ("list w --sets", Form::Sets),
            ("prove w 7 --numbers", Form::Numbers),
        ] {
            assert_eq!(asked(line).expect(line).form, form, "{line}");
        }
        let dashed = Command::Verify(
            Asked {
                wallet: file("--json"),
                query: None,
            },
            words("-o --"),
        );
        assert_eq!(command("verify -- --json -o --"), dashed);
    }

    #[test]
    fn every_command_has_help_whatever_else_is_wrong() {
        for known in Known::all() {
            for line in [
                "--help",
                "-h",
                "--nonsense --help",
                "a b c -o --help --help",
            ] {
                let line = format!("{} {line}", known.name);
                assert_eq!(command(&line), Command::Help(Some(known)), "{line}");
            }
            let help = known.help();
            assert!(help.starts_with(&known.line()), "{help}");
            let longest = help.lines().map(str::len).max();
            assert!(longest.is_some_and(|longest| longest <= 100), "{help}");
        }
    }

    #[test]
    fn wrong_calls_are_told_with_the_usage_of_the_command() {
        let twice = "the record is given more than once";
        let standard = "two things are to be read from standard input; give one as a file";
        for (line, message) in [
            ("list", "`list` needs a WALLET"),
            ("list w v", "unexpected argument `v`"),
            ("upgrade w", "unexpected argument `w`"),
            ("list -x w", "`list` has no option `-x`"),
            ("list w --names v", "`list` has no option `--names`"),
            ("list w --set=7", "`list` has no option `--set`"),
            ("list w -o", "`-o` needs a FILE"),
            ("list w --query", "`--query` needs a QUERY"),
            ("list w -o f --output f", "`-o` is given twice"),
            ("list w --json=1", "`--json` takes no value"),
            (
                "list w --sets --json",
                "`--json` and `--sets` cannot be given together",
            ),
            ("prove w --numbers", "`--numbers` needs a SET"),
            ("explain -", standard),
            ("decode --names -", standard),
            ("draw - --record -", standard),
            ("verify w 1 --record r", twice),
            ("draw w --set 7 1", twice),
            ("verify w --record r --set 7", twice),
        ] {
            let Misuse {
                wrong,
                command,
                json,
            } = asked(line).expect_err(line);
            assert_eq!(wrong.message, message, "{line}");
            let known = Known::named(line.split(' ').next().unwrap_or_default());
            let known = known.expect("a command");
            assert_eq!((wrong.usage, command), (known.line(), Some(known.name)));
            assert_eq!(json, line.ends_with("--json"), "{line}");
        }
        for (line, message) in [
            ("", "a command is missing"),
            ("lists w", "unknown command `lists`"),
            ("-o f list w", "unknown command `-o`"),
            ("help lists", "unknown command `lists`"),
        ] {
            let wrong = asked(line).expect_err(line).wrong;
            assert_eq!(wrong.message, message);
            assert!(wrong.usage.contains("wallet help"), "{}", wrong.usage);
        }
        // The call is right, and the set is none.
        for line in ["prove w 1,2,3", "verify w --set 1,2,3"] {
            let wrong = asked(line).expect_err(line).wrong;
            assert!(wrong.message.starts_with("the set is `1,2,3`; write its"));
            assert_eq!(wrong.usage, "");
        }
    }
}
