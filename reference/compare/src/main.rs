//! Compares the library with the reference on fixed and on made-up inputs.
//!
//! `compare [--seed N] [--count N] [--records N] [--lists N] [--writings N]
//! [--mixed N]`: the seed of the made-up inputs, how many tables are made up, how
//! many records, how many listings, and how many writings, beside the fixed ones;
//! and how many tables with both marks.
//! Every table is given to the table call, and with a query to the query call.
//! Every record, and several spoiled forms of it, is given to the verifying
//! call. Every listing is given to the listing call with a buffer, and the
//! verifier is asked about what it lists; where roles lead back to themselves,
//! the list is held against that under the rule before, which forbade a role
//! twice on a branch. Sets of further listings, and others,
//! are given to the writing call with a buffer, and the verifier is asked about
//! what it writes. Tables whose automata have both marks are listed, verified and
//! written, and some of them upgraded from the base layout. Tables and records,
//! two strands of listings, writings, and two strands of tables with both marks
//! are compared at the same time. The last line printed is `N passed, M failed`;
//! the exit status tells whether any failed.

#![forbid(unsafe_code)]

mod arguments;
mod aspects;
mod before;
mod branches;
mod buffers;
mod cases;
mod claims;
mod dead;
mod features;
mod listings;
mod lists;
mod met;
mod mixed;
mod owners;
mod relations;
mod report;
mod shares;
mod sides;
mod signs;
mod slips;
mod tally;
mod traits;
mod verdicts;
mod word;
mod writings;

use std::process::ExitCode;
use std::thread;

use arguments::Arguments;
use buffers::Size;
use cases::Case;
use claims::Submitted;
use lists::Lists;
use mixed::Mixed;
use reference::generate::{demands, listings as made_up};
use reference::random::Random;
use reference::{Number, Refusal};
use tally::{Call, Tally};
use verdicts::Verdicts;
use writings::Writings;

/// What the table call and the query call give back.
type Answer = Result<(), Refusal>;
/// What the verifying call gives back.
type Verdict = Result<u32, Refusal>;

/// The record of a ladder with more rungs is not asked for: it is long in the
/// writing.
const WRITTEN_RUNGS: Number = 10;
/// How the program is called.
const USAGE: &str =
    "compare [--seed N] [--count N] [--records N] [--lists N] [--writings N] [--mixed N]";

fn main() -> ExitCode {
    let arguments = match Arguments::read(std::env::args().skip(1)) {
        Ok(arguments) => arguments,
        Err(message) => {
            eprintln!("{message}\nusage: {USAGE}");
            return ExitCode::from(2);
        }
    };
    println!("seed {}", arguments.seed);
    let arguments = &arguments;
    let (tally, verdicts, lists, writings, mixed) = thread::scope(|scope| {
        let lists = [0, 1].map(|strand| scope.spawn(move || compare_lists(arguments, strand)));
        let mixed = [0, 1].map(|strand| scope.spawn(move || compare_mixed(arguments, strand)));
        let writings = scope.spawn(|| compare_writings(arguments));
        let tally = compare_tables(arguments);
        let verdicts = compare_records(arguments);
        let [first, second] = lists.map(|strand| strand.join().expect("a strand that ends"));
        let lists = first + second;
        let [first, second] = mixed.map(|strand| strand.join().expect("a strand that ends"));
        let writings = writings.join().expect("writings that end");
        (tally, verdicts, lists, writings, first + second)
    });
    let outcome =
        tally.report() + verdicts.report() + lists.report() + writings.report() + mixed.report();
    println!("{} passed, {} failed", outcome.passed, outcome.failed);
    if outcome.failed == 0 {
        ExitCode::SUCCESS
    } else {
        ExitCode::FAILURE
    }
}

/// Compares the table call and the query call.
fn compare_tables(arguments: &Arguments) -> Tally {
    let mut tally = Tally::new(arguments.seed);
    cases::fixed(&mut |case| compare(&case, &mut tally));
    let mut random = Random::new(arguments.seed);
    for _ in 0..arguments.count {
        compare(&cases::made_up(&mut random), &mut tally);
    }
    tally
}

/// Compares the verifying call.
fn compare_records(arguments: &Arguments) -> Verdicts {
    let mut verdicts = Verdicts::new(arguments.seed);
    claims::fixed(&mut |submitted| compare_verdicts(&submitted, &mut verdicts));
    let mut random = Random::new(arguments.seed);
    claims::made_up(&mut random, arguments.records, &mut |submitted| {
        compare_verdicts(&submitted, &mut verdicts)
    });
    verdicts
}

/// Compares the listing call on one of two strands, 0 and 1: on the first, the
/// fixed listings with every size of buffer; on each, half of the others with
/// one, which the seed and the strand determine.
fn compare_lists(arguments: &Arguments, strand: u64) -> Lists {
    let seed = arguments.seed.wrapping_mul(2).wrapping_add(strand);
    let mut lists = Lists::new(arguments.seed, strand);
    if strand == 0 {
        let mut random = Random::new(0);
        listings::fixed(&mut |listing| lists.compare(&mut random, &listing, &Size::ALL));
    }
    let count = (arguments.lists + strand) / 2;
    listings::made_up(&mut Random::new(seed), count, &mut |random, listing| {
        let size = *random.pick(&Size::ALL);
        lists.compare(random, &listing, &[size])
    });
    lists
}

/// Compares the writing call: on the fixed listings, most of them with every
/// size of buffer; on others with one for each set, which the seed determines.
fn compare_writings(arguments: &Arguments) -> Writings {
    let mut writings = Writings::new(arguments.seed);
    let mut random = Random::new(0);
    listings::fixed_inputs(&mut |listing| writings.compare(&mut random, &listing, true));
    listings::fixed_shapes(WRITTEN_RUNGS, &mut |listing| {
        writings.compare(&mut random, &listing, false)
    });
    let fixed = writings.made();
    let mut random = Random::new(!arguments.seed);
    while writings.made() - fixed < arguments.writings {
        let listing = made_up::any(&mut random);
        writings.compare(&mut random, &listing, false);
    }
    writings
}

/// Compares the calls on tables with both marks, on one of two strands, 0 and 1.
fn compare_mixed(arguments: &Arguments, strand: u64) -> Mixed {
    let seed = arguments.seed.wrapping_mul(2).wrapping_add(strand);
    let mut random = Random::new(seed);
    let mut mixed = Mixed::default();
    for _ in 0..(arguments.mixed + strand) / 2 {
        let wallet = demands::made_up(&mut random);
        mixed.compare(&mut random, &wallet);
    }
    mixed
}

/// Makes the table call and the query call on both sides.
fn compare(case: &Case, tally: &mut Tally) {
    tally.tables += 1;
    let library = bwlchareg::check(&case.table).map_err(same_refusal);
    let reference = reference::check(&case.table);
    tally.count(Call::Table, case, library, reference);

    let query = library_query(case.query);
    let library = bwlchareg::check_query(&case.table, query).map_err(same_refusal);
    let reference = reference::check_query(&case.table, case.query);
    tally.count(Call::Query, case, library, reference);
}

/// Makes the verifying call on both sides.
fn compare_verdicts(submitted: &Submitted, verdicts: &mut Verdicts) {
    let claim = &submitted.claim;
    let query = library_query(claim.query);
    let library = bwlchareg::verify(&claim.table, query, &claim.record).map_err(same_refusal);
    let reference = reference::verify(&claim.table, claim.query, &claim.record);
    verdicts.count(submitted, library, reference);
}

/// The library's refusal as one of the reference.
fn same_refusal(refusal: bwlchareg::Refusal) -> Refusal {
    Refusal::new(refusal.number, refusal.position)
}

/// The reference's query as one for the library.
fn library_query(query: reference::Query) -> bwlchareg::Query {
    bwlchareg::Query {
        principal: query.principal,
        owner: query.owner,
        name: query.name,
        depth: query.depth,
    }
}
