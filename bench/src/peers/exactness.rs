//! Tests that the answer set program lists exactly the minimal sets, where no role
//! can come again with another principal. They need gringo and clasp, and say that
//! they are skipped where those are missing.

use std::time::Duration;

use bwlchareg::layout::EVERY_WORD;
use reference::generate::shapes;
use reference::records::{CredentialRecord, Records};
use reference::shop::{Q, T, U};
use reference::{Number, Query};

use super::again::can_a_role_come;
use super::samples;
use super::solver::Solver;
use super::Unfinished;
use crate::listing::Listing;

const LONG: Duration = Duration::from_secs(60);

/// The solver, if it is installed.
fn solver() -> Option<Solver> {
    let found = Solver::find();
    if let Err(missing) = &found {
        eprintln!("skipped: {missing} is not installed");
    }
    found.ok()
}

/// The sets that the solver lists for a table and a query.
fn listed(solver: &Solver, table: &[Number], query: Query) -> Vec<u32> {
    let list = solver.minimal_sets(&Listing::new(table.to_vec(), query), LONG);
    list.expect("a list")
}

#[test]
fn the_rows_of_the_shop() {
    let Some(solver) = solver() else { return };
    let student = Query::from_numbers([4, 2, 2, 1]);
    assert_eq!(listed(&solver, &T, Q), [7, 8]);
    assert_eq!(listed(&solver, &T, Query { depth: 1, ..Q }), [8]);
    assert_eq!(listed(&solver, &U, Q), [8]);
    assert_eq!(listed(&solver, &U, student), [4]);
    assert_eq!(listed(&solver, &[0, 0, 0, 0], Q), []);
}

/// A goal that is derived twice in one record, in a different way each time:
/// of the words only 1.1, 1.2, 1.4 and 1.1, 1.3, 1.4, 1.5 are accepted.
#[test]
fn one_goal_in_two_places() {
    let Some(solver) = solver() else { return };
    let on = |from: Number, name: Number, to: Number| [1, from, 1, 1, name, to];
    let records = Records {
        credentials: vec![
            [1, 1, 4, 1, 0, 1],
            [1, 2, 2, 1, 4, 0],
            [1, 3, 2, 1, 4, 0],
            [1, 4, 1, 9, 0, 0],
            [1, 4, 2, 1, 5, 0],
            [1, 5, 1, 9, 0, 0],
        ],
        cells: vec![[1, 2, 2], [1, 3, 0]],
        automata: vec![[1, 8 + 64, EVERY_WORD]],
        edges: vec![
            on(0, 1, 1),
            on(1, 2, 2),
            on(2, 4, 3),
            on(1, 3, 4),
            on(4, 4, 5),
            on(5, 5, 6),
        ],
    };
    let query = Query::from_numbers([9, 1, 1, 16]);
    assert_eq!(listed(&solver, &records.numbers(), query), [63]);
}

/// The goal's two credentials have a constraint by which only roles of the owner
/// may come: of the two ways, the one by another owner's role fails.
#[test]
fn all_roles_of_one_owner() {
    let Some(solver) = solver() else { return };
    let records = Records {
        credentials: vec![
            [1, 1, 2, 1, 2, 1],
            [1, 1, 2, 2, 2, 1],
            [1, 2, 1, 9, 0, 0],
            [2, 2, 1, 9, 0, 0],
        ],
        cells: vec![],
        automata: vec![[1, 1, EVERY_WORD]],
        edges: vec![[1, 0, 4, 1, 0, 0]],
    };
    let query = Query::from_numbers([9, 1, 1, 16]);
    assert_eq!(listed(&solver, &records.numbers(), query), [5]);
}

/// A derivation of three levels, whose middle one is proved through one of these
/// credentials and whose lowest role has this name. Only words of three roles
/// are accepted.
fn three_levels(through: CredentialRecord, name: Number, fourth: CredentialRecord) -> Vec<Number> {
    let records = Records {
        credentials: vec![[1, name, 1, 9, 0, 1], [1, 1, 2, 1, 2, 0], through, fourth],
        cells: vec![[1, name, 2], [1, name, 0]],
        automata: vec![[1, 8, EVERY_WORD]],
        edges: (0..3).map(|state| [1, state, 2, 0, 0, state + 1]).collect(),
    };
    records.numbers()
}

/// Under every kind, and for both premises of kind 3: if the lowest role is the
/// goal's own, of which the same principal is asked, there is no derivation.
#[test]
fn no_pair_comes_twice_on_a_branch() {
    let Some(solver) = solver() else { return };
    let query = Query::from_numbers([9, 1, 1, 16]);
    let unused = [3, 3, 1, 9, 0, 0];
    for (name, whole) in [(1, false), (6, true)] {
        let cases = [
            ([1, 2, 2, 1, name, 0], unused, 7),
            ([1, 2, 4, 1, 0, 0], unused, 7),
            ([1, 2, 3, name, 5, 0], [9, 5, 1, 9, 0, 0], 15),
            ([1, 2, 3, 4, name, 0], [1, 4, 1, 1, 0, 0], 15),
        ];
        for (through, fourth, set) in cases {
            let table = three_levels(through, name, fourth);
            let expected = if whole { vec![set] } else { vec![] };
            assert_eq!(listed(&solver, &table, query), expected, "{through:?}");
        }
    }
}

#[test]
fn generated_listings() {
    let Some(solver) = solver() else { return };
    let listings = samples::listings(200).into_iter();
    let listings = listings.filter(|listing| !can_a_role_come(listing));
    for (index, listing) in listings.enumerate() {
        let list = solver.minimal_sets(&listing, LONG);
        let library = listing.library_list().expect("an accepted listing");
        assert_eq!(list, Ok(library), "listing {index}");
    }
}

#[test]
fn a_list_that_takes_too_long_is_given_up() {
    let Some(solver) = solver() else { return };
    let listing = Listing::of(&shapes::ladder(5));
    let list = solver.minimal_sets(&listing, Duration::from_millis(1));
    assert_eq!(list, Err(Unfinished::OutOfTime));
}
