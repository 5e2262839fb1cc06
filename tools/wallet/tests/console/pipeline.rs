//! Runs a command of a page without a shell: programs and their words, joined
//! by `|`, with `<` and `>` for files. Words with spaces stand between double
//! quotes. It knows the programs that the pages are about, and no others.

use std::fs;
use std::io::Write;
use std::path::{Path, PathBuf};
use std::process::{Command, Output, Stdio};

/// Signs that a shell would read in its own way within a word, and those that
/// it would read so even between double quotes. No command needs them.
const SIGNS_OF_A_SHELL: &str = "'\\`$&;*?()[]{}~#!|<>";
const SIGNS_IN_QUOTES: &str = "\\`$!";

/// A piece of a command.
#[derive(Debug, PartialEq, Eq)]
enum Piece {
    /// A word, as the program gets it.
    Word(String),
    /// `|`, `<` or `>`, which stands by itself.
    Sign(char),
}

/// One program of a pipeline.
#[derive(Debug, Default, PartialEq, Eq)]
struct Stage {
    /// The program and what it is given.
    words: Vec<String>,
    /// The file that it reads.
    input: Option<String>,
    /// The file that it writes.
    output: Option<String>,
}

/// The words of a command: all but `|`, `<` and `>`.
pub fn words(command: &str) -> Result<Vec<String>, String> {
    let pieces = pieces(command)?.into_iter();
    let words = pieces.filter_map(|piece| match piece {
        Piece::Word(word) => Some(word),
        Piece::Sign(_) => None,
    });
    Ok(words.collect())
}

/// What a command prints in a folder: the lines of its standard output, those
/// of the standard error of all its programs, and the last one's exit status
/// where that is not 0.
pub fn run(command: &str, folder: &Path) -> Result<Vec<String>, String> {
    let (mut printed, mut complaints) = (Vec::new(), Vec::new());
    let mut status = Some(0);
    for stage in stages(command)? {
        if let Some(file) = &stage.input {
            printed = fs::read(folder.join(file)).map_err(|error| format!("{file}: {error}"))?;
        }
        let output = run_stage(&stage, &printed, folder)?;
        printed = output.stdout;
        complaints.extend(output.stderr);
        status = output.status.code();
        if let Some(file) = &stage.output {
            fs::write(folder.join(file), &printed).map_err(|error| format!("{file}: {error}"))?;
            printed.clear();
        }
    }
    let mut lines = lines(&printed)?;
    lines.extend(self::lines(&complaints)?);
    match status {
        Some(0) => {}
        Some(code) => lines.push(format!("(exit {code})")),
        None => lines.push("(ended by a signal)".to_string()),
    }
    Ok(lines)
}

/// The pieces of a command, in order.
fn pieces(command: &str) -> Result<Vec<Piece>, String> {
    let parts: Vec<&str> = command.split('"').collect();
    let last = parts.len() - 1;
    if last % 2 == 1 {
        return Err("a quote has no end".to_string());
    }
    let mut pieces = Vec::new();
    for (index, part) in parts.into_iter().enumerate() {
        // Every other part stands between quotes.
        if index % 2 == 1 {
            pieces.push(Piece::Word(without(part, SIGNS_IN_QUOTES)?));
            continue;
        }
        let before = index == 0 || part.is_empty() || part.starts_with(' ');
        let after = index == last || part.ends_with(' ');
        if !before || !after {
            return Err(format!("no space between {part} and a quote"));
        }
        for word in part.split_whitespace() {
            pieces.push(match word {
                "|" => Piece::Sign('|'),
                "<" => Piece::Sign('<'),
                ">" => Piece::Sign('>'),
                _ => Piece::Word(without(word, SIGNS_OF_A_SHELL)?),
            });
        }
    }
    Ok(pieces)
}

/// A word that has none of these signs.
fn without(word: &str, signs: &str) -> Result<String, String> {
    match word.chars().find(|sign| signs.contains(*sign)) {
        Some(sign) => Err(format!("{sign} is not read here")),
        None => Ok(word.to_string()),
    }
}

/// The programs of a command, in order.
fn stages(command: &str) -> Result<Vec<Stage>, String> {
    let pieces = pieces(command)?;
    pieces
        .split(|piece| *piece == Piece::Sign('|'))
        .map(stage)
        .collect()
}

/// One program: its words, and the files after `<` and `>`.
fn stage(pieces: &[Piece]) -> Result<Stage, String> {
    let mut stage = Stage::default();
    let mut pieces = pieces.iter();
    while let Some(piece) = pieces.next() {
        let (sign, place) = match piece {
            Piece::Word(word) => {
                stage.words.push(word.clone());
                continue;
            }
            Piece::Sign('<') => ('<', &mut stage.input),
            Piece::Sign(sign) => (*sign, &mut stage.output),
        };
        match pieces.next() {
            Some(Piece::Word(file)) => *place = Some(file.clone()),
            _ => return Err(format!("no file after {sign}")),
        }
    }
    Ok(stage)
}

/// Runs one program of a pipeline on what the one before it printed.
fn run_stage(stage: &Stage, input: &[u8], folder: &Path) -> Result<Output, String> {
    let (name, given) = stage.words.split_first().ok_or("no program")?;
    let mut child = Command::new(program(name)?)
        .args(given)
        .current_dir(folder)
        .stdin(Stdio::piped())
        .stdout(Stdio::piped())
        .stderr(Stdio::piped())
        .spawn()
        .map_err(|error| format!("{name}: {error}"))?;
    let mut stdin = child.stdin.take().ok_or("no standard input")?;
    std::thread::scope(|scope| {
        // A program that leaves its input unread is no failure.
        scope.spawn(move || stdin.write_all(input).is_ok());
        child.wait_with_output()
    })
    .map_err(|error| format!("{name}: {error}"))
}

/// Where a program lies.
fn program(name: &str) -> Result<PathBuf, String> {
    match name {
        "wallet" => Ok(PathBuf::from(env!("CARGO_BIN_EXE_wallet"))),
        "minimal_sets" => {
            let path = super::root().join("target/bin/minimal_sets");
            let missing = "target/bin/minimal_sets is missing; `tools/build.sh program` builds it";
            path.exists().then_some(path).ok_or(missing.to_string())
        }
        _ => Err(format!("{name} is not one of the programs that pages run")),
    }
}

/// The lines of what a program printed.
fn lines(printed: &[u8]) -> Result<Vec<String>, String> {
    let text = std::str::from_utf8(printed).map_err(|_| "it printed what is no text")?;
    Ok(text.lines().map(str::to_string).collect())
}
