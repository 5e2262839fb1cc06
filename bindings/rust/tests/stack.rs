//! The calls need little stack: records of sixteen levels that are verified and
//! written, and lists of sixteen levels and over twenty credentials, run in
//! threads whose stacks are small.

use std::thread;

use bwlchareg::layout::{EVERY_WORD, SOME_WORD};
use bwlchareg::{list, verify, write, Number, Query, Refusal};

/// The stacks that the calls below must do with, in bytes; Rust gives a thread
/// 2 MiB where nobody says otherwise.
const VERIFYING: usize = 32 * 1024;
const LISTING: usize = 160 * 1024;
const WRITING: usize = 128 * 1024;
/// Cells for the longest list below, and for the longest record that is written
/// whole: sixteen levels of two premises.
const CELLS: usize = 512;
const RECORD: usize = 2 * ((1 << 16) - 1);

/// Principal 1 in role 1.1, within sixteen levels.
const DEEP: Query = Query {
    principal: 1,
    owner: 1,
    name: 1,
    depth: 16,
};

/// The table with these credentials and cells, and without automata.
fn table(credentials: &[[Number; 6]], cells: &[[Number; 3]]) -> Vec<Number> {
    let counts = [credentials.len() as Number, cells.len() as Number, 0, 0];
    [&counts, &credentials.concat()[..], &cells.concat()].concat()
}

/// Roles 1.1 to 1.16, each but the last containing the next, and five equal
/// credentials that put principal 1 into the last: twenty in all.
fn deepest() -> Vec<Number> {
    let mut credentials: Vec<[Number; 6]> = (1..16)
        .map(|level| [1, level, 2, 1, level + 1, 0])
        .collect();
    credentials.extend([[1, 16, 1, 1, 0, 0]; 5]);
    table(&credentials, &[])
}

/// The same with eight automata of a mark, on the first eight credentials, each
/// of which accepts every word.
fn constrained(mark: Number) -> Vec<Number> {
    let mut table = deepest();
    table[2..4].copy_from_slice(&[8, 8]);
    for automaton in 1..=8 {
        table[6 * automaton as usize + 3] = automaton;
    }
    table.extend([1, 1, mark].repeat(8));
    table.extend((1..=8).flat_map(|automaton| [automaton, 0, 2, 0, 0, 0]));
    table
}

/// Roles 1.1 to 1.16, each but the last a chain of four times the next, and
/// five equal credentials that put principal 1 into the last.
fn chained() -> Vec<Number> {
    let mut credentials: Vec<[Number; 6]> = (1..16)
        .map(|level| [1, level, 4, 4 * level - 3, 0, 0])
        .collect();
    credentials.extend([[1, 16, 1, 1, 0, 0]; 5]);
    let chain = |level: Number| {
        let first = 4 * level - 3;
        [first + 1, first + 2, first + 3, 0].map(|next| [1, level + 1, next])
    };
    let cells: Vec<[Number; 3]> = (1..16).flat_map(chain).collect();
    table(&credentials, &cells)
}

/// Roles 1.1 to 1.16, each but the last linked by the next to the next, and
/// five equal credentials that put principal 1 into the last.
fn linked() -> Vec<Number> {
    let mut credentials: Vec<[Number; 6]> = (1..16)
        .map(|level| [1, level, 3, level + 1, level + 1, 0])
        .collect();
    credentials.extend([[1, 16, 1, 1, 0, 0]; 5]);
    table(&credentials, &[])
}

/// A ladder of kind 3: each of five principals owns two roles, each of which is
/// linked to the other one's of the next two principals.
fn ladder() -> Vec<Number> {
    let mut credentials = Vec::new();
    for principal in 1..=5 {
        let next = principal % 5 + 1;
        credentials.push([principal, 1, 3, 3, 2, 0]);
        credentials.push([principal, 2, 3, 3, 1, 0]);
        credentials.push([principal, 3, 1, next, 0, 0]);
        credentials.push([principal, 3, 1, next % 5 + 1, 0, 0]);
    }
    // The last way makes room for the member.
    credentials[19] = [4, 2, 1, 1, 0, 0];
    table(&credentials, &[])
}

/// Four roles with 4, 5, 5 and 5 definers, and a chain of them for role 1.1.
fn choices() -> Vec<Number> {
    let mut credentials = Vec::new();
    for (name, definers) in [(2, 4), (3, 5), (4, 5), (5, 5)] {
        credentials.extend(vec![[1, name, 1, 1, 0, 0]; definers]);
    }
    credentials.push([1, 1, 4, 1, 0, 0]);
    table(&credentials, &[[1, 2, 2], [1, 3, 3], [1, 4, 4], [1, 5, 0]])
}

/// So many ways to role 1.1, each a line of so many credentials that no other
/// way has.
fn ways(ways: Number, each: Number) -> Vec<Number> {
    let mut credentials = Vec::new();
    for way in 0..ways {
        let mut role = 1;
        for next in (way * (each - 1) + 2..).take(each as usize - 1) {
            credentials.push([1, role, 2, 1, next, 0]);
            role = next;
        }
        credentials.push([1, role, 1, 1, 0, 0]);
    }
    table(&credentials, &[])
}

/// The answer of a call that is made in a thread with a stack of so many bytes.
/// A stack that does not suffice ends the whole test program.
fn in_a_stack_of<Answer: Send + 'static>(
    bytes: usize,
    call: impl FnOnce() -> Answer + Send + 'static,
) -> Answer {
    let thread = thread::Builder::new().stack_size(bytes).spawn(call);
    thread.expect("a thread").join().expect("an answer")
}

/// What the listing call answers, and its cells.
fn listed(table: &[Number]) -> (Result<usize, Refusal>, Vec<u32>) {
    let mut cells = vec![0; CELLS];
    (list(table, DEEP, &mut cells), cells)
}

/// Tests that a list is the same with a small stack, and has so many sets.
#[track_caller]
fn needs_little_stack(table: Vec<Number>, sets: usize) {
    let expected = listed(&table);
    assert_eq!(expected.0, Ok(sets));
    assert_eq!(in_a_stack_of(LISTING, move || listed(&table)), expected);
}

#[test]
fn a_record_of_sixteen_levels_needs_little_stack() {
    let record: Vec<Number> = (1..=16).flat_map(|credential| [credential, 0]).collect();
    for table in [deepest(), constrained(EVERY_WORD), constrained(SOME_WORD)] {
        let record = record.clone();
        let verdict = in_a_stack_of(VERIFYING, move || verify(&table, DEEP, &record));
        assert_eq!(verdict, Ok(0xffff));
    }
}

#[test]
fn lists_of_sixteen_levels_need_little_stack() {
    for table in [deepest(), chained(), linked()] {
        needs_little_stack(table, 5);
    }
    for mark in [EVERY_WORD, SOME_WORD] {
        needs_little_stack(constrained(mark), 5);
    }
}

#[test]
fn lists_of_many_ways_need_little_stack() {
    needs_little_stack(ladder(), 7);
    needs_little_stack(choices(), 500);
}

#[test]
fn lists_of_ways_that_have_nothing_in_common_need_little_stack() {
    for (number, each) in [(20, 1), (10, 2), (6, 3), (5, 4)] {
        needs_little_stack(ways(number, each), number as usize);
    }
}

/// Tests that the records of the listed sets are written with a small stack, so
/// that the verifier accepts them; tells the longest.
#[track_caller]
fn writes_with_little_stack(table: Vec<Number>) -> usize {
    let (count, sets) = listed(&table);
    let mut longest = 0;
    for set in sets.into_iter().take(count.expect("a list")) {
        let lent = table.clone();
        let (length, record) = in_a_stack_of(WRITING, move || {
            let mut record = vec![0; RECORD];
            (write(&lent, DEEP, set, &mut record), record)
        });
        let length = length.expect("a record");
        assert_eq!(verify(&table, DEEP, &record[..length]), Ok(set));
        longest = longest.max(length);
    }
    longest
}

#[test]
fn records_of_sixteen_levels_are_written_with_little_stack() {
    assert_eq!(writes_with_little_stack(deepest()), 32);
    for mark in [EVERY_WORD, SOME_WORD] {
        assert_eq!(writes_with_little_stack(constrained(mark)), 32);
    }
    assert_eq!(writes_with_little_stack(linked()), RECORD);
}

#[test]
fn records_of_many_ways_are_written_with_little_stack() {
    writes_with_little_stack(ladder());
    assert_eq!(writes_with_little_stack(choices()), 10);
    writes_with_little_stack(ways(10, 2));
}

#[test]
fn records_that_do_not_fit_or_are_not_listed_need_little_stack() {
    // Sixteen levels of four premises have 1,431,655,765 nodes.
    let told = in_a_stack_of(WRITING, || {
        let mut record = vec![0; RECORD];
        [0xffff, 0x7fff, 0xfffff].map(|set| write(&chained(), DEEP, set, &mut record))
    });
    let refused = |number| {
        Err(Refusal {
            number,
            position: 0,
        })
    };
    assert_eq!(told, [refused(16), refused(15), refused(15)]);
}
