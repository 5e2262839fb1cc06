//! Where the tool writes: a file is written whole or not at all, never over what is
//! read; and what cannot be written is told by the exit code.

mod tool;

use std::fs;
use std::io::{Read, Write};
use std::os::unix::fs::{symlink, PermissionsExt};
use std::path::PathBuf;
use std::process::{Command, Stdio};

use tool::{accepted, file, fresh, run, run_program, wrong, SHOP};

/// A fresh folder.
fn folder(name: &str) -> PathBuf {
    let path = PathBuf::from(env!("CARGO_TARGET_TMPDIR")).join(name);
    let _ = fs::remove_dir_all(&path);
    fs::create_dir(&path).expect("a folder is made");
    path
}

/// A path as a word of a call.
fn word(path: &std::path::Path) -> &str {
    path.to_str().expect("a path in text")
}

#[test]
fn a_file_is_put_in_its_place_when_it_is_whole() {
    let folder = folder("output-whole");
    let listed = accepted(&["list", SHOP], b"");
    let path = folder.join("listed");
    let link = folder.join("link");
    symlink("listed", &link).expect("a link is made");
    // Through a link to nothing, over a file, and through a link to it.
    for output in [&link, &path, &link] {
        let done = run(&["list", "-o", word(output), SHOP], b"");
        assert_eq!((done.code, done.out.len()), (Some(0), 0), "{}", done.err);
        assert_eq!(fs::read_to_string(&path).expect("the file"), listed);
        fs::set_permissions(&path, fs::Permissions::from_mode(0o640)).expect("its mode");
    }
    run(&["encode", SHOP, "--output", word(&path)], b"");
    let mode = fs::metadata(&path).expect("the file").permissions().mode();
    assert_eq!(mode & 0o777, 0o640);
    assert!(link.is_symlink());
    assert_eq!(fs::read_dir(&folder).expect("the folder").count(), 2);
    let told = wrong(&["list", SHOP, "--query", "x"], b"");
    assert!(told.starts_with("wallet: --query: "), "{told}");
}

#[test]
fn what_is_read_is_not_overwritten() {
    let folder = folder("output-over");
    let text = fs::read(SHOP).expect("the example");
    let wallet = folder.join("w");
    fs::write(&wallet, &text).expect("a wallet");
    fs::hard_link(&wallet, folder.join("hard")).expect("a link is made");
    symlink("w", folder.join("soft")).expect("a link is made");
    for output in ["w", "hard", "soft", "../output-over/w"] {
        let output = folder.join(output);
        for command in ["list", "draw", "prove", "check"] {
            let done = run(&[command, word(&wallet), "-o", word(&output)], b"");
            let words = "the output would overwrite what is read; name another file";
            let told = format!("wallet: {}: {words}\n", output.display());
            assert_eq!((done.code, done.err), (Some(2), told));
        }
    }
    // Also where it is the record, or is read from standard input.
    let record = file("output-record", b"4 0\n");
    let call = ["verify", SHOP, "--record", &record, "-o", &record];
    assert_eq!(run(&call, b"").code, Some(2));
    let output = Command::new(env!("CARGO_BIN_EXE_wallet"))
        .args(["list", "-", "-o", word(&wallet)])
        .stdin(fs::File::open(&wallet).expect("the wallet"))
        .output()
        .expect("the tool");
    assert_eq!(output.status.code(), Some(2));
    assert_eq!(fs::read(&wallet).expect("the wallet"), text);
    assert_eq!(fs::read(&record).expect("the record"), b"4 0\n");
}

#[test]
fn a_file_that_cannot_be_written_is_told_and_nothing_is_left() {
    let folder = folder("output-none");
    let inside = folder.join("no/such/file");
    for output in [&inside, &folder] {
        let done = run(&["list", SHOP, "-o", word(output)], b"");
        assert_eq!(done.code, Some(2));
        let told = format!("wallet: {}: ", output.display());
        assert!(done.err.starts_with(&told), "{}", done.err);
    }
    assert_eq!(fs::read_dir(&folder).expect("the folder").count(), 0);
}

#[test]
fn devices_and_pipes_take_what_comes() {
    let listed = accepted(&["list", SHOP], b"");
    assert_eq!(accepted(&["list", SHOP, "-o", "/dev/stdout"], b""), listed);
    let pipe = fresh("output-pipe");
    let made = run_program("mkfifo", &[word(&pipe)], b"");
    assert_eq!(made.code, Some(0), "{}", made.err);
    let mut child = Command::new(env!("CARGO_BIN_EXE_wallet"))
        .args(["list", SHOP, "-o", word(&pipe)])
        .spawn()
        .expect("the tool");
    let mut text = String::new();
    let mut reader = fs::File::open(&pipe).expect("the pipe");
    reader.read_to_string(&mut text).expect("what is written");
    assert_eq!(text, listed);
    assert_eq!(child.wait().expect("its end").code(), Some(0));
}

#[test]
fn a_reader_that_has_enough_is_told_by_the_exit_code_alone() {
    for command in ["list", "prove"] {
        let mut child = Command::new(env!("CARGO_BIN_EXE_wallet"))
            .args([command, "-"])
            .stdin(Stdio::piped())
            .stdout(Stdio::piped())
            .stderr(Stdio::piped())
            .spawn()
            .expect("the tool");
        // It writes only when it has read everything, and nobody reads by then.
        drop(child.stdout.take());
        let mut stdin = child.stdin.take().expect("its standard input");
        let text = fs::read(SHOP).expect("the example");
        stdin.write_all(&text).expect("it reads its input");
        drop(stdin);
        let output = child.wait_with_output().expect("its end");
        assert_eq!(output.status.code(), Some(2));
        assert!(output.stderr.is_empty());
    }
}

#[cfg(target_os = "linux")]
#[test]
fn an_output_that_is_full_or_closed() {
    let shell = |call: &str| {
        let line = format!("\"$0\" {call}");
        run_program(
            "sh",
            &["-c", &line, env!("CARGO_BIN_EXE_wallet"), SHOP],
            b"",
        )
    };
    for command in ["list", "prove", "list --json", "check", "draw --set 7"] {
        let done = shell(&format!("{command} \"$1\" > /dev/full"));
        assert_eq!(done.code, Some(2), "{command}");
        let told = "wallet: standard output: No space left on device";
        assert!(done.err.starts_with(told), "{}", done.err);
        let done = shell(&format!("{command} \"$1\" >&-"));
        assert_eq!(done.code, Some(2), "{command}");
        assert_eq!(done.err, "wallet: standard output: it is closed\n");
        let done = shell(&format!("{command} \"$1\" -o /dev/full"));
        assert_eq!(done.code, Some(2), "{command}");
        assert!(done.err.starts_with("wallet: /dev/full: "), "{}", done.err);
    }
    for call in ["help", "--version"] {
        assert_eq!(shell(&format!("{call} >&-")).code, Some(2), "{call}");
    }
    // Nothing is lost where the output goes elsewhere, or is to be lost.
    let path = fresh("output-closed");
    let done = shell(&format!("list \"$1\" -o {} >&-", word(&path)));
    assert_eq!((done.code, done.err.as_str()), (Some(0), ""));
    assert!(path.exists());
    assert_eq!(shell("list \"$1\" > /dev/null").code, Some(0));
    assert_eq!(shell("list \"$1\" 1<> /dev/null").code, Some(0));
}
