//! Times the checking and the verifying call of the library and of the
//! reference.

use reference::generate::claims::{Claim, Grown};
use reference::generate::constraints::{self, Constraint};
use reference::generate::growth::Policy;
use reference::generate::{policies, valid, wide};
use reference::random::Random;
use reference::records::{Head, Records};
use reference::{shop, Number};

use crate::listing::library_query;
use crate::sheet::{Form, Sheet, Unit};
use crate::timing::medians;

/// How many rounds there are; the median is taken over them.
const ROUNDS: usize = 15;
/// How many rounds there are for a record of very many nodes.
const WIDE_ROUNDS: usize = 5;
/// The seed for the places of edges that are added to a table.
const EDGES_SEED: u64 = 2015;
/// What the ratio of two times is.
pub const RATIO: &str = "reference / library";

/// Times the table call.
pub fn time_checks(random: &mut Random, form: Form) {
    let title = format!("median of {ROUNDS} rounds, time of one check");
    let sheet = Sheet::begin(form, Unit::Nanoseconds(1), &title, "tables", RATIO);
    let largest = valid::records(random, Head::LIMITS).numbers();
    report_checks(&sheet, "the shop's table T", &[shop::T.to_vec()]);
    report_checks(&sheet, "the largest table", &[largest]);
    report_checks(&sheet, "1,000 made-up valid tables", &tables(random));
}

/// A thousand valid tables of every size.
fn tables(random: &mut Random) -> Vec<Vec<Number>> {
    let mut table = || {
        let head = valid::head(random);
        valid::records(random, head).numbers()
    };
    (0..1_000).map(|_| table()).collect()
}

/// Times the table call on some tables and prints a line.
fn report_checks(sheet: &Sheet, what: &str, tables: &[Vec<Number>]) {
    let library = |table: &Vec<Number>| bwlchareg::check(table).is_ok();
    let reference = |table: &Vec<Number>| reference::check(table).is_ok();
    let (library, reference) = medians(ROUNDS, tables, library, reference);
    let ratio = reference / library;
    sheet.line(what, [Some(library), Some(reference)], Some(ratio));
}

/// Times the verifying call on small records.
pub fn time_verdicts(random: &mut Random, form: Form) {
    let title = format!("median of {ROUNDS} rounds, time of one verdict");
    let sheet = Sheet::begin(form, Unit::Nanoseconds(1), &title, "records", RATIO);
    for (what, claim) in by_hand() {
        report_verdicts(&sheet, what, &[claim]);
    }
    report_verdicts(&sheet, "1,000 grown records, accepted", &grown(random));
}

/// The shop's records.
pub fn by_hand() -> [(&'static str, Claim); 3] {
    let claim = |table: &[Number], record: &[Number]| Claim {
        table: table.to_vec(),
        query: shop::Q,
        record: record.to_vec(),
    };
    [
        ("the shop's R with T, accepted", claim(&shop::T, &shop::R)),
        ("the shop's R with U, refused", claim(&shop::U, &shop::R)),
        ("the shop's 4 0 with U, accepted", claim(&shop::U, &[4, 0])),
    ]
}

/// A thousand grown records that are accepted and use an automaton.
pub fn grown(random: &mut Random) -> Vec<Claim> {
    let mut claims = Vec::new();
    while claims.len() < 1_000 {
        let policy = Policy::new(policies::records(random));
        let grown = Grown::new(random, &policy);
        let kept = grown.and_then(|grown| grown.kept(random));
        claims.extend(kept.map(|grown| grown.claim()));
    }
    claims
}

/// Times the verifying call on some claims and prints a line.
fn report_verdicts(sheet: &Sheet, what: &str, claims: &[Claim]) {
    let (library, reference) = medians(ROUNDS, claims, library_verdict, reference_verdict);
    let ratio = reference / library;
    sheet.line(what, [Some(library), Some(reference)], Some(ratio));
}

/// Whether the library accepts a claim.
fn library_verdict(claim: &Claim) -> bool {
    let query = library_query(claim.query);
    bwlchareg::verify(&claim.table, query, &claim.record).is_ok()
}

/// Whether the reference accepts a claim.
fn reference_verdict(claim: &Claim) -> bool {
    reference::verify(&claim.table, claim.query, &claim.record).is_ok()
}

/// Times the verifying call on records of very many nodes.
pub fn time_nodes(form: Form) {
    let title = format!("median of {WIDE_ROUNDS} rounds, nodes per second, all accepted");
    let ratio = "library / reference";
    let sheet = Sheet::begin(form, Unit::PerSecond, &title, "records", ratio);
    report_nodes(&sheet, 11, 0);
    report_nodes(&sheet, 11, 1);
    report_nodes(&sheet, 9, 8);
}

/// Times the verifying call on the record of so many levels, whose credentials
/// have so many automata, and prints a line.
fn report_nodes(sheet: &Sheet, levels: Number, automata: Number) {
    let records = constrained(wide::records(levels), automata);
    let nodes = wide::nodes(levels);
    let edges = records.head().edges;
    let claim = Claim {
        table: records.numbers(),
        query: wide::query(levels),
        record: wide::record(levels),
    };
    let (library, reference) = medians(WIDE_ROUNDS, &[claim], library_verdict, reference_verdict);
    let per_second = |time: f64| nodes as f64 / time * 1e9;
    let (library, reference) = (per_second(library), per_second(reference));
    let what = format!("{nodes} nodes, automata {automata}, edges {edges}");
    let ratio = library / reference;
    sheet.line(&what, [Some(library), Some(reference)], Some(ratio));
}

/// The table with an automaton attached to each of so many credentials, from
/// the first on. Each accepts words of at most 15 roles.
pub fn constrained(mut records: Records, automata: Number) -> Records {
    let mut random = Random::new(EDGES_SEED);
    for index in 0..automata as usize {
        let constraint = Constraint::at_most(15);
        let number = constraints::add(&mut random, &mut records, &constraint);
        records.credentials[index][5] = number.expect("there is room for an automaton");
    }
    records
}
