//! A program, or two joined by a pipe, which are ended when time is up.

use std::io::{self, Read, Write};
use std::process::{Child, ChildStdin, ChildStdout, Command, Stdio};
use std::sync::mpsc::{self, Receiver};
use std::thread;
use std::time::Instant;

/// A program while it runs, and maybe one before it, whose output it reads.
pub struct Pipe {
    first: Option<Child>,
    last: Child,
    input: Option<ChildStdin>,
}

/// How it ended.
#[derive(Debug, PartialEq, Eq)]
pub enum Ended {
    /// All that the last program printed, and the code with which it ended, if
    /// it has one.
    ByItself(String, Option<i32>),
    /// It was stopped.
    OutOfTime,
}

impl Pipe {
    /// Starts a program.
    pub fn alone(program: Command) -> io::Result<Pipe> {
        let mut last = started(program, Stdio::piped())?;
        let input = last.stdin.take();
        Ok(Pipe {
            first: None,
            last,
            input,
        })
    }

    /// Starts two programs: what the first prints the second reads.
    pub fn start(first: Command, second: Command) -> io::Result<Pipe> {
        let mut first = started(first, Stdio::piped())?;
        let between = first.stdout.take().map_or(Stdio::null(), Stdio::from);
        let input = first.stdin.take();
        match started(second, between) {
            Ok(last) => Ok(Pipe {
                first: Some(first),
                last,
                input,
            }),
            Err(error) => {
                stop(&mut first)?;
                Err(error)
            }
        }
    }

    /// Gives the first one its input, and waits for the last until time is up,
    /// if it ever is. None runs on afterwards.
    pub fn run(mut self, input: &str, end: Option<Instant>) -> io::Result<Ended> {
        let text = self.printed(input, end);
        if text.is_none() {
            self.last.kill()?;
        }
        let code = self.last.wait()?.code();
        if let Some(first) = &mut self.first {
            stop(first)?;
        }
        match text {
            Some(text) => Ok(Ended::ByItself(text?, code)),
            None => Ok(Ended::OutOfTime),
        }
    }

    /// All that the last one prints, if it comes to an end in time.
    fn printed(&mut self, input: &str, end: Option<Instant>) -> Option<io::Result<String>> {
        let printed = reader(self.last.stdout.take()?);
        let given = self.input.take()?.write_all(input.as_bytes());
        if let Err(error) = given {
            return Some(Err(error));
        }
        match end {
            Some(end) => {
                let left = end.saturating_duration_since(Instant::now());
                printed.recv_timeout(left).ok()
            }
            None => printed.recv().ok(),
        }
    }
}

/// Starts a program that reads this. What it prints is to be read, and its
/// complaints are not.
fn started(mut program: Command, input: Stdio) -> io::Result<Child> {
    program.stdin(input).stdout(Stdio::piped());
    program.stderr(Stdio::null()).spawn()
}

/// Stops a program, unless it has ended.
fn stop(program: &mut Child) -> io::Result<()> {
    program.kill()?;
    program.wait()?;
    Ok(())
}

/// All that is printed, read by a thread of its own so that one can wait for it
/// no longer than one wants to.
fn reader(mut printed: ChildStdout) -> Receiver<io::Result<String>> {
    let (sender, receiver) = mpsc::channel();
    thread::spawn(move || {
        let mut text = String::new();
        let read = printed.read_to_string(&mut text).map(|_| text);
        // When time is up nobody waits for it any more.
        let _ = sender.send(read);
    });
    receiver
}

#[cfg(all(test, unix))]
mod tests {
    use super::{Ended, Pipe};
    use std::process::Command;
    use std::time::{Duration, Instant};

    fn end(milliseconds: u64) -> Option<Instant> {
        Instant::now().checked_add(Duration::from_millis(milliseconds))
    }

    #[test]
    fn what_the_first_is_given_the_second_prints() {
        for end in [end(60_000), None] {
            let pipe = Pipe::start(Command::new("cat"), Command::new("cat"));
            let ended = pipe.and_then(|pipe| pipe.run("some words\n", end));
            let expected = Ended::ByItself("some words\n".into(), Some(0));
            assert_eq!(ended.expect("both run"), expected);
        }
    }

    #[test]
    fn one_program_prints_what_it_is_given() {
        let pipe = Pipe::alone(Command::new("cat"));
        let ended = pipe.and_then(|pipe| pipe.run("some words\n", end(60_000)));
        let expected = Ended::ByItself("some words\n".into(), Some(0));
        assert_eq!(ended.expect("it runs"), expected);
    }

    #[test]
    fn the_code_is_the_second_one_s() {
        let mut second = Command::new("sh");
        second.args(["-c", "cat > /dev/null; exit 30"]);
        let pipe = Pipe::start(Command::new("cat"), second);
        let ended = pipe.and_then(|pipe| pipe.run("", None));
        let expected = Ended::ByItself(String::new(), Some(30));
        assert_eq!(ended.expect("both run"), expected);
    }

    #[test]
    fn a_program_that_takes_too_long_is_stopped() {
        let start = Instant::now();
        let sleep = || {
            let mut sleep = Command::new("sleep");
            sleep.arg("60");
            sleep
        };
        let cat = || Command::new("cat");
        for pipe in [
            Pipe::start(sleep(), cat()),
            Pipe::start(cat(), sleep()),
            Pipe::alone(sleep()),
        ] {
            let ended = pipe.and_then(|pipe| pipe.run("", end(50)));
            assert_eq!(ended.expect("they run"), Ended::OutOfTime);
        }
        assert!(start.elapsed() < Duration::from_secs(30));
    }

    #[test]
    fn a_program_that_is_not_there_cannot_be_started() {
        let missing = || Command::new("/no/such/program");
        assert!(Pipe::start(missing(), Command::new("cat")).is_err());
        assert!(Pipe::start(Command::new("cat"), missing()).is_err());
        assert!(Pipe::alone(missing()).is_err());
    }
}
