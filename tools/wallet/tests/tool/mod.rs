//! The tool as it is called: runs it, and files for it.

#![allow(dead_code)]

pub mod json;

use std::fs;
use std::io::Write;
use std::path::{Path, PathBuf};
use std::process::{Command, Stdio};

pub const SHOP: &str = concat!(env!("CARGO_MANIFEST_DIR"), "/../../examples/shop.wallet");
pub const CONSTRAINED: &str = concat!(
    env!("CARGO_MANIFEST_DIR"),
    "/../../examples/shop-constrained.wallet"
);
pub const PROGRAM: &str = concat!(env!("CARGO_MANIFEST_DIR"), "/../../target/bin/minimal_sets");

/// What a program did.
pub struct Done {
    pub code: Option<i32>,
    pub out: Vec<u8>,
    pub err: String,
}

impl Done {
    /// What it wrote to standard output, as text.
    pub fn text(&self) -> String {
        String::from_utf8(self.out.clone()).expect("text")
    }
}

/// Runs a program on some input.
pub fn run_program(program: &str, arguments: &[&str], input: &[u8]) -> Done {
    let mut child = Command::new(program)
        .args(arguments)
        .stdin(Stdio::piped())
        .stdout(Stdio::piped())
        .stderr(Stdio::piped())
        .spawn()
        .expect("the program");
    let mut stdin = child.stdin.take().expect("its standard input");
    let output = std::thread::scope(|scope| {
        // It may write before it has read everything, and end before that too.
        scope.spawn(move || stdin.write_all(input).is_ok());
        child.wait_with_output().expect("its output")
    });
    Done {
        code: output.status.code(),
        out: output.stdout,
        err: String::from_utf8(output.stderr).expect("text"),
    }
}

/// Runs the tool on some input.
pub fn run(arguments: &[&str], input: &[u8]) -> Done {
    run_program(env!("CARGO_BIN_EXE_wallet"), arguments, input)
}

/// What the tool wrote to standard output, and that it ended with 0.
#[track_caller]
pub fn accepted(arguments: &[&str], input: &[u8]) -> String {
    let done = run(arguments, input);
    let ended = (done.code, done.err.as_str());
    assert_eq!(ended, (Some(0), ""), "{arguments:?}");
    done.text()
}

/// A refusal in the place of the answer.
#[track_caller]
pub fn refused(done: &Done, words: &str) {
    let answer = (done.code, done.text(), done.err.as_str());
    assert_eq!(answer, (Some(1), format!("{words}\n"), ""));
}

/// A refusal where nothing can stand in the place of the answer.
#[track_caller]
pub fn refused_apart(done: &Done, words: &str) {
    let answer = (done.code, done.text(), done.err.clone());
    let told = format!("wallet: {words}\n");
    assert_eq!(answer, (Some(1), String::new(), told));
}

/// A file for a test to write, which is not there yet.
pub fn fresh(name: &str) -> PathBuf {
    let path = Path::new(env!("CARGO_TARGET_TMPDIR")).join(name);
    let _ = fs::remove_file(&path);
    path
}

/// A file with a text.
pub fn file(name: &str, text: &[u8]) -> String {
    let path = fresh(name);
    fs::write(&path, text).expect("a file is written");
    path.to_str().expect("a path in text").to_string()
}

/// A call that is wrong: code 2, a message, nothing on standard output, and no
/// file. Tells the message.
pub fn wrong(arguments: &[&str], input: &[u8]) -> String {
    let path = fresh(&format!("wrong-{}", std::process::id()));
    let path_text = path.to_str().expect("a path in text");
    let with_file = [arguments, &["-o", path_text]].concat();
    for arguments in [arguments, &with_file] {
        let done = run(arguments, input);
        assert_eq!(done.code, Some(2), "{arguments:?} {}", done.err);
        assert!(done.out.is_empty(), "{arguments:?}");
        assert!(
            done.err.starts_with("wallet: "),
            "{arguments:?} {}",
            done.err
        );
        assert!(!path.exists(), "{arguments:?}");
    }
    run(arguments, input).err
}

/// A text as the pages have it below their prose.
pub fn indented(text: &str) -> String {
    let lines = text.lines().map(|line| match line {
        "" => "\n".to_string(),
        line => format!("    {line}\n"),
    });
    lines.collect()
}
