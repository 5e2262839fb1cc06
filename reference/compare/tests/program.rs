//! The listing program on its standard input, against the reference: whole, in
//! pieces, too short, of odd length and too long; and a read or a write that
//! fails. `tools/build.sh program` builds it, as the gate does before these tests.

use std::fmt::Write as _;
use std::fs::File;
use std::io::Write as _;
use std::path::PathBuf;
use std::process::{Command, Stdio};
use std::thread::sleep;
use std::time::Duration;

use reference::generate::wallets;
use reference::query::Query;
use reference::random::Random;
use reference::{shop, Number};

/// Cells that the program has, and bytes that it reads.
const CELLS: usize = 4096;
const MOST_BYTES: usize = 4096;

/// The query's four numbers and then the table, low byte first.
fn bytes(table: &[Number], query: Query) -> Vec<u8> {
    let asked = [query.principal, query.owner, query.name, query.depth];
    let numbers = asked.iter().chain(table);
    numbers.flat_map(|number| number.to_le_bytes()).collect()
}

/// The listing program.
fn program() -> Command {
    Command::new(PathBuf::from(env!("CARGO_MANIFEST_DIR")).join("../../target/bin/minimal_sets"))
}

/// What it prints on input that comes in pieces.
fn printed(pieces: &[&[u8]]) -> String {
    let mut child = program()
        .stdin(Stdio::piped())
        .stdout(Stdio::piped())
        .spawn()
        .expect("the listing program: build it with `tools/build.sh program`");
    let mut stdin = child.stdin.take().expect("its standard input");
    for (i, piece) in pieces.iter().enumerate() {
        if i > 0 {
            sleep(Duration::from_millis(5));
        }
        // The program may have read enough and ended.
        if stdin.write_all(piece).and_then(|()| stdin.flush()).is_err() {
            break;
        }
    }
    drop(stdin);
    let output = child.wait_with_output().expect("its output");
    String::from_utf8(output.stdout).expect("text")
}

/// What it should print.
fn expected(table: &[Number], query: Query) -> String {
    let mut cells = vec![0; CELLS];
    match reference::list(table, query, &mut cells) {
        Ok(count) => {
            let mut text = String::new();
            for set in &cells[..count] {
                writeln!(text, "{set}").expect("a line");
            }
            text + &format!("sets {count}\n")
        }
        Err(refusal) => format!("refused {} {}\n", refusal.number, refusal.position),
    }
}

#[test]
fn the_shop_example() {
    assert_eq!(printed(&[&bytes(&shop::T, shop::Q)]), "7\n8\nsets 2\n");
    assert_eq!(printed(&[&bytes(&shop::U, shop::Q)]), "8\nsets 1\n");
}

#[test]
fn pieces_are_joined() {
    let input = bytes(&shop::T, shop::Q);
    let pieces: Vec<&[u8]> = input.chunks(3).collect();
    assert_eq!(printed(&pieces), "7\n8\nsets 2\n");
}

#[test]
fn short_and_odd_inputs() {
    let input = bytes(&shop::T, shop::Q);
    for length in (0..8).chain([9, 11, input.len() - 1]) {
        assert_eq!(printed(&[&input[..length]]), "refused 1 0\n", "{length}");
    }
    assert_eq!(printed(&[&input[..8]]), "refused 1 0\n");
    assert_eq!(printed(&[&input[..16]]), "refused 3 0\n");
}

#[test]
fn later_bytes_do_not_count() {
    let mut input = bytes(&shop::T, shop::Q);
    let mut odd = input.clone();
    odd.push(0);
    assert_eq!(printed(&[&odd]), "refused 1 0\n");
    for length in [MOST_BYTES, MOST_BYTES + 1, MOST_BYTES + 100, 100_000] {
        input.resize(length, 0);
        assert_eq!(printed(&[&input]), "refused 3 0\n", "{length}");
    }
}

#[test]
fn a_failed_read_is_told() {
    let directory = File::open(env!("CARGO_MANIFEST_DIR")).expect("a directory");
    let output = program().stdin(directory).output().expect("its output");
    assert_eq!(output.stdout, b"");
    assert_eq!(output.stderr, b"minimal_sets: cannot read standard input\n");
}

#[test]
fn a_failed_write_is_told() {
    let full = File::options().write(true).open("/dev/full");
    let output = program()
        .stdin(Stdio::null())
        .stdout(full.expect("a full device"))
        .output()
        .expect("its output");
    assert_eq!(
        output.stderr,
        b"minimal_sets: cannot write standard output\n"
    );
}

#[test]
fn grown_wallets() {
    let mut random = Random::new(2015);
    for _ in 0..200 {
        let wallet = wallets::made_up(&mut random);
        let table = wallet.records.numbers();
        let input = bytes(&table, wallet.query);
        assert_eq!(printed(&[&input]), expected(&table, wallet.query));
    }
}
