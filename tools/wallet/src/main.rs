//! The tool `wallet`: wallets as text, and the checker's answers in words.
//! `docs/WALLET.md` describes its commands.

#![deny(unsafe_code)]
#![warn(missing_docs)]

mod arguments;
mod closed;
mod commands;
mod failure;
mod output;
mod usage;

use std::env;
use std::io::{self, Write};
use std::process::ExitCode;

use wallet::json::Object;

use arguments::{Arguments, Form};
use failure::{Failure, Wrong};

/// The exit codes: the checker refuses; something else is wrong.
const REFUSED: u8 = 1;
const WRONG: u8 = 2;

fn main() -> ExitCode {
    let arguments = match arguments::read(env::args_os().skip(1)) {
        Ok(arguments) => arguments,
        Err(misuse) => return wrong(&misuse.wrong, misuse.command, misuse.json),
    };
    match answer(&arguments) {
        Ok(false) => ExitCode::SUCCESS,
        Ok(true) => ExitCode::from(REFUSED),
        Err(Failure::Refused(words)) => {
            say(&words);
            ExitCode::from(REFUSED)
        }
        Err(Failure::Wrong(what)) => {
            wrong(&what, Some(arguments.name), arguments.form == Form::Json)
        }
        Err(Failure::Unread) => ExitCode::from(WRONG),
    }
}

/// Runs a command and writes what it answers; tells whether the checker refuses.
fn answer(arguments: &Arguments) -> Result<bool, Failure> {
    let output = arguments.output.as_deref();
    if let Some(output) = output {
        output::spares(output, &arguments.sources)?;
    }
    output::write(commands::run(arguments)?, output)
}

/// Tells what is wrong on standard error, and as an object on standard output
/// where one is asked for.
fn wrong(wrong: &Wrong, command: Option<&str>, json: bool) -> ExitCode {
    say(&wrong.to_string());
    if json {
        let object = Object::default()
            .with_some("command", command)
            .with("status", u64::from(WRONG))
            .with("mistake", wrong.object());
        let _ = io::stdout().write_all(object.line().as_bytes());
    }
    ExitCode::from(WRONG)
}

/// Says something on standard error; if nobody reads it, the exit code remains.
fn say(message: &str) {
    let _ = writeln!(io::stderr(), "wallet: {}", message.trim_end());
}
