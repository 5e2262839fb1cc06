//! The calls take any slices: whatever their length, numbers and place in
//! memory, the answer is accepted or a refusal that docs/DEFINITION.md allows
//! there, and no cell is written that it does not name.

#[allow(dead_code)]
mod drawn;

use std::ops::Range;

use bwlchareg::{
    check, check_query, first_record, layout, list, minimal_sets, verify, write, Number, Query,
    Reason, Refusal,
};
use drawn::{Random, LONGEST};

const SEED: u64 = 2015;
const CASES: usize = 30_000;

/// What is given to the calls: a table, a query, a record, a set, and how many
/// cells there are for sets and for the numbers of a record.
struct Input {
    table: Vec<Number>,
    query: Query,
    record: Vec<Number>,
    set: u32,
    cells: usize,
    room: usize,
}

/// What the calls then answer, and what the cells hold.
#[derive(Debug, PartialEq)]
struct Answers {
    check: Result<(), Refusal>,
    check_query: Result<(), Refusal>,
    verify: Result<u32, Refusal>,
    list: Result<usize, Refusal>,
    cells: Vec<u32>,
    write: Result<usize, Refusal>,
    written: Vec<Number>,
}

fn drawn_input(random: &mut Random) -> Input {
    let table = drawn::table(random);
    let query = drawn::query(random, &table);
    Input {
        query,
        record: drawn::record(random, &table, query),
        set: drawn_set(random, &table, query),
        cells: random.up_to(6),
        room: random.up_to(24),
        table,
    }
}

/// A set: one of the list most of the time, if there is one, or any number.
fn drawn_set(random: &mut Random, table: &[Number], query: Query) -> u32 {
    let sets = drawn::listed(table, query);
    match random.up_to(8) {
        0 => u32::from(random.between(0, Number::MAX)) << random.up_to(16),
        1 | 2 => random.between(0, 255).into(),
        _ if sets.is_empty() => 0,
        _ => sets[random.up_to(sets.len() - 1)],
    }
}

/// What a cell holds before a listing: no set, and different in each cell.
fn before(cell: usize) -> u32 {
    0xC000_0000 + cell as u32
}

/// What a cell holds before a writing: no credential and no middle, and
/// different in each cell.
fn unwritten(cell: usize) -> Number {
    0xC000 + cell as Number
}

/// The answers to the slices as they are.
fn answers(input: &Input) -> Answers {
    let mut cells: Vec<u32> = (0..input.cells).map(before).collect();
    let list = list(&input.table, input.query, &mut cells);
    let mut written: Vec<Number> = (0..input.room).map(unwritten).collect();
    let write = write(&input.table, input.query, input.set, &mut written);
    Answers {
        check: check(&input.table),
        check_query: check_query(&input.table, input.query),
        verify: verify(&input.table, input.query, &input.record),
        list,
        cells,
        write,
        written,
    }
}

/// The answers to the same numbers inside larger slices, with other numbers
/// around them, at offsets that are odd as often as even. The larger slices
/// must not change, but for the lent cells.
fn answers_inside(input: &Input, random: &mut Random) -> Answers {
    let (table, table_at) = surrounded(&input.table, random);
    let (record, record_at) = surrounded(&input.record, random);
    let kept = (table.clone(), record.clone());
    let mut cells = Guarded::new((0..input.cells).map(before), 0xE000_0000, random);
    let mut written = Guarded::new((0..input.room).map(unwritten), 0xE000, random);

    let table_inside = &table[table_at..table_at + input.table.len()];
    let record_inside = &record[record_at..record_at + input.record.len()];
    let list = list(table_inside, input.query, cells.lent());
    let write = write(table_inside, input.query, input.set, written.lent());
    let answers = Answers {
        check: check(table_inside),
        check_query: check_query(table_inside, input.query),
        verify: verify(table_inside, input.query, record_inside),
        list,
        cells: cells.inside(),
        write,
        written: written.inside(),
    };
    assert_eq!((table, record), kept);
    answers
}

/// Lent cells with others before and after them, which nothing may change.
struct Guarded<Cell> {
    all: Vec<Cell>,
    lent: Range<usize>,
    guard: Cell,
}

impl<Cell: Copy + PartialEq> Guarded<Cell> {
    /// These cells, with some others around them that all hold one number.
    fn new(cells: impl Iterator<Item = Cell>, guard: Cell, random: &mut Random) -> Guarded<Cell> {
        let front = random.up_to(5);
        let mut all = vec![guard; front];
        all.extend(cells);
        let lent = front..all.len();
        all.extend([guard; 8]);
        Guarded { all, lent, guard }
    }

    fn lent(&mut self) -> &mut [Cell] {
        &mut self.all[self.lent.clone()]
    }

    /// The lent cells, if all others are as they were.
    fn inside(&self) -> Vec<Cell> {
        let (front, rest) = self.all.split_at(self.lent.start);
        let (inside, after) = rest.split_at(self.lent.len());
        let mut around = front.iter().chain(after);
        assert!(around.all(|cell| *cell == self.guard));
        inside.to_vec()
    }
}

/// A slice with numbers before and after it, and where it begins.
fn surrounded(slice: &[Number], random: &mut Random) -> (Vec<Number>, usize) {
    let front = random.up_to(5);
    let mut larger: Vec<Number> = (0..front).map(|_| random.between(0, 5)).collect();
    larger.extend(slice);
    larger.extend((0..8).map(|_| random.between(0, 5)));
    (larger, front)
}

/// Whether docs/DEFINITION.md allows this position for a refusal of this number.
fn is_place(refusal: Refusal, table: &[Number], nodes: usize) -> bool {
    let [credentials, cells, automata, edges] = layout::counts(table);
    let most = match refusal.number {
        1..=3 | 9 | 10 | 15 | 16 => return refusal.position == 0,
        4 | 6 => credentials,
        5 => cells,
        7 => edges,
        8 => 4,
        11 => nodes + 1,
        12 | 13 => nodes,
        14 | 17 => automata,
        _ => return false,
    };
    (1..=most as u64).contains(&refusal.position)
}

/// The refusals of rows 1 to 3, by the head and the length alone.
fn head_refusal(table: &[Number]) -> Option<u32> {
    if table.len() < layout::HEAD {
        return Some(1);
    }
    let [n, q, a, e] = layout::counts(table);
    if n > 20 || q > 63 || a > 8 || e > 128 {
        return Some(2);
    }
    (table.len() != layout::length(table)).then_some(3)
}

/// What every answer must be, whatever the input.
fn judge(input: &Input, answers: &Answers) {
    let table = &input.table;
    let nodes = input.record.len() / layout::NODE;
    let place = |refusal: Refusal| is_place(refusal, table, nodes);

    match (answers.check, head_refusal(table)) {
        (Err(refusal), Some(number)) => assert_eq!(refusal.number, number),
        (Err(refusal), None) => assert!(matches!(refusal.number, 4..=7 | 17)),
        (Ok(()), told) => assert_eq!(told, None),
    }
    match answers.check {
        Err(refusal) => {
            assert!(place(refusal), "{refusal:?}");
            assert_eq!(answers.check_query, Err(refusal));
        }
        Ok(()) => assert!(answers.check_query.is_ok() || number(answers.check_query) == 8),
    }
    if let Err(refusal) = answers.check_query {
        assert!(place(refusal), "{refusal:?}");
        assert_eq!(answers.verify, Err(refusal));
        assert_eq!(answers.list, Err(refusal));
        assert_eq!(answers.write, Err(refusal));
    } else {
        judge_verdict(answers.verify, table, nodes);
        if let Err(refusal) = answers.list {
            assert!([9, 10].contains(&refusal.number), "{refusal:?}");
            assert!(place(refusal), "{refusal:?}");
        }
        judge_writing(input, answers);
    }
    judge_cells(answers, table);
    judge_written(answers);
}

/// The number of a refusal, 0 for accepted.
fn number<Value>(answer: Result<Value, Refusal>) -> u32 {
    answer.err().map_or(0, |refusal| refusal.number)
}

/// A verdict on a record, with an accepted table and a valid query.
fn judge_verdict(verdict: Result<u32, Refusal>, table: &[Number], nodes: usize) {
    match verdict {
        Ok(used) => {
            assert!(used != 0 && used < 1 << layout::counts(table)[0]);
            assert!(used.count_ones() as usize <= nodes);
        }
        Err(refusal) => {
            assert!((11..=14).contains(&refusal.number), "{refusal:?}");
            assert!(is_place(refusal, table, nodes), "{refusal:?}");
        }
    }
}

/// A writing, with an accepted table and a valid query: it is not refused with
/// 15 exactly for the sets of the list, and the verifier accepts what is
/// written, with the set.
fn judge_writing(input: &Input, answers: &Answers) {
    let listed = drawn::listed(&input.table, input.query).contains(&input.set);
    assert_eq!(number(answers.write) != Refusal::NOT_LISTED, listed);
    match answers.write {
        Ok(length) => {
            let record = &answers.written[..length];
            assert_eq!(verify(&input.table, input.query, record), Ok(input.set));
        }
        Err(refusal) => {
            assert!([15, 16].contains(&refusal.number), "{refusal:?}");
            assert!(is_place(refusal, &input.table, 0), "{refusal:?}");
        }
    }
}

/// The cells after a writing: beyond the record, and on a refusal everywhere,
/// what was there before.
fn judge_written(answers: &Answers) {
    let written = answers.write.unwrap_or(0);
    let rest = answers.written[written..].iter().copied();
    let length = rest.len();
    assert!(rest.eq((written..).map(unwritten).take(length)));
}

/// The cells after a listing: ascending sets, none a part of another, and
/// beyond them what was there before.
fn judge_cells(answers: &Answers, table: &[Number]) {
    let written = match answers.list {
        Ok(count) => count,
        Err(refusal) if refusal.number == Refusal::LONGER => answers.cells.len(),
        Err(_) => 0,
    };
    let (sets, rest) = answers.cells.split_at(written);
    assert!(rest
        .iter()
        .copied()
        .eq((written..).map(before).take(rest.len())));
    for (index, set) in sets.iter().enumerate() {
        assert!(*set != 0 && *set < 1 << layout::counts(table)[0]);
        for later in &sets[index + 1..] {
            assert!(set < later && set & later != *set);
        }
    }
}

#[test]
fn every_answer_is_one_that_the_definition_allows() {
    let mut random = Random::new(SEED);
    let mut told = [[0; 18]; 4];
    for _ in 0..CASES {
        let input = drawn_input(&mut random);
        let answers = answers(&input);
        judge(&input, &answers);
        told[0][number(answers.check_query) as usize] += 1;
        told[1][number(answers.verify) as usize] += 1;
        told[2][number(answers.list) as usize] += 1;
        told[3][number(answers.write) as usize] += 1;
    }
    // The draws are no use unless they reach every answer of every call.
    let reached = |call: usize, numbers: &[usize]| numbers.iter().all(|no| told[call][*no] >= 20);
    assert!(
        reached(0, &[0, 1, 2, 3, 4, 5, 6, 7, 8, 17]),
        "{:?}",
        told[0]
    );
    assert!(reached(1, &[0, 8, 11, 12, 13, 14]), "{:?}", told[1]);
    assert!(reached(2, &[0, 8, 9, 10]), "{:?}", told[2]);
    assert!(reached(3, &[0, 8, 15, 16]), "{:?}", told[3]);
}

#[test]
fn what_stands_around_a_slice_is_neither_read_nor_written() {
    let mut random = Random::new(SEED + 1);
    for _ in 0..CASES / 3 {
        let input = drawn_input(&mut random);
        let inside = answers_inside(&input, &mut random);
        assert_eq!(inside, answers(&input));
        judge(&input, &inside);
    }
}

#[test]
fn a_short_buffer_has_the_first_sets_of_the_whole_list() {
    let mut random = Random::new(SEED + 5);
    let mut short = 0;
    for _ in 0..3_000 {
        let (table, query) = drawn::accepted_and_query(&mut random);
        let mut whole = drawn::listed(&table, query);
        let count = whole.len();
        for length in 0..count {
            let mut cells = vec![0; length];
            let refusal = list(&table, query, &mut cells).unwrap_err();
            assert_eq!((refusal.number, refusal.position), (Refusal::LONGER, 0));
            assert_eq!(cells, whole[..length]);
            short += 1;
        }
        if count > 0 {
            assert_eq!(list(&table, query, &mut whole), Ok(count));
        }
    }
    assert!(short >= 500, "{short}");
}

#[test]
fn a_list_of_500_sets_is_whole() {
    // A chain of four roles, with four credentials for the first and five for
    // each of the others.
    let mut table = vec![20, 4, 0, 0, 1, 1, 4, 1, 0, 0];
    for (name, count) in [(2, 4), (3, 5), (4, 5), (5, 5)] {
        table.extend([1, name, 1, 1, 0, 0].repeat(count));
    }
    table.extend([1, 2, 2, 1, 3, 3, 1, 4, 4, 1, 5, 0]);
    let query = Query {
        principal: 1,
        owner: 1,
        name: 1,
        depth: 2,
    };
    let mut cells = vec![0; layout::MAX_SETS];
    assert_eq!(list(&table, query, &mut cells), Ok(500));
    assert_eq!(minimal_sets(&table, query).as_deref(), Ok(&cells[..500]));
}

#[test]
fn every_length_of_plain_slices_is_answered() {
    let query = drawn::query(&mut Random::new(SEED), &[]);
    let lengths = (0..=40).chain([1_105, 1_106, 65_535, 65_536, 65_537, LONGEST]);
    for length in lengths {
        for filling in [0, 1, 20, Number::MAX] {
            let input = Input {
                table: vec![filling; length],
                query,
                record: vec![filling; length],
                set: filling.into(),
                cells: length % 3,
                room: length % 5,
            };
            judge(&input, &answers(&input));
        }
    }
    // All zeros are a table exactly where they are a head.
    assert!((0..=40).all(|length| check(&vec![0; length]).is_ok() == (length == 4)));
}

#[test]
fn long_records_are_read_with_an_accepted_table() {
    let mut random = Random::new(SEED + 2);
    let table = [1, 0, 0, 0, 1, 1, 1, 1, 0, 0]; // principal 1 is in the role 1.1
    let query = Query {
        principal: 1,
        owner: 1,
        name: 1,
        depth: 1,
    };
    for _ in 0..100 {
        let mut record = vec![random.between(0, 2); random.up_to(LONGEST)];
        record.truncate(random.up_to(LONGEST));
        let verdict = verify(&table, query, &record);
        judge_verdict(verdict, &table, record.len() / layout::NODE);
        // The tree is one node; whatever follows is left over.
        let mut record = vec![1, 0];
        record.resize(random.up_to(LONGEST - 3) + 3, 1);
        let refusal = verify(&table, query, &record).unwrap_err();
        assert_eq!((refusal.number, refusal.position), (11, 2));
    }
}

/// Eight levels: whoever is four times in a role of one level is in the role of
/// the level above. The record has every node there can be.
fn full_tree() -> (Vec<Number>, Query, Vec<Number>) {
    const LEVELS: Number = 8;
    let mut table = vec![LEVELS, 4 * (LEVELS - 1), 0, 0];
    for level in 1..LEVELS {
        table.extend([1, level, 4, 4 * level - 3, 0, 0]);
    }
    table.extend([1, LEVELS, 1, 1, 0, 0]);
    for level in 1..LEVELS {
        let first = 4 * level - 3;
        for next in [first + 1, first + 2, first + 3, 0] {
            table.extend([1, level + 1, next]);
        }
    }
    let query = Query {
        principal: 1,
        owner: 1,
        name: 1,
        depth: LEVELS,
    };
    let mut record = vec![LEVELS, 0];
    for level in (1..LEVELS).rev() {
        let below = record.repeat(4);
        record = vec![level, 0];
        record.extend(below);
    }
    (table, query, record)
}

#[test]
fn a_record_of_21845_nodes_is_written_and_read_to_its_end() {
    let (table, query, record) = full_tree();
    assert_eq!(record.len(), layout::NODE * 21_845);
    assert_eq!(verify(&table, query, &record), Ok(255));
    let written = first_record(&table, query, 255, record.len());
    assert_eq!(written.as_ref(), Ok(&record));
    let refusal = first_record(&table, query, 255, record.len() - 1).unwrap_err();
    assert_eq!(refusal.reason(), Some(Reason::LongerRecord));
    let mut random = Random::new(SEED + 3);
    for _ in 0..100 {
        // Cut anywhere, the first node that is not whole is told.
        let length = random.up_to(record.len() - 1);
        let refusal = verify(&table, query, &record[..length]).unwrap_err();
        let node = (length / layout::NODE) as u64 + 1;
        assert_eq!((refusal.number, refusal.position), (11, node));
    }
    let longer = [record, vec![1]].concat();
    let refusal = verify(&table, query, &longer).unwrap_err();
    assert_eq!((refusal.number, refusal.position), (11, 21_846));
}

#[test]
fn calls_from_several_threads_do_not_meet() {
    let mut random = Random::new(SEED + 4);
    let inputs: Vec<Input> = (0..500).map(|_| drawn_input(&mut random)).collect();
    let alone: Vec<Answers> = inputs.iter().map(answers).collect();
    std::thread::scope(|scope| {
        for _ in 0..4 {
            scope.spawn(|| {
                for (input, expected) in inputs.iter().zip(&alone) {
                    assert_eq!(&answers(input), expected);
                }
            });
        }
    });
}
