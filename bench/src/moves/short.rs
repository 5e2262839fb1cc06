//! The time of one verdict on short records: here counts what is prepared for each
//! call.

use std::time::Duration;

use super::edges::Edges;
use super::tables::short;
use crate::builds::{Side, Sides, Turns};
use crate::listing::Listing;
use crate::sheet::{Form, Lines};

const TURNS: Turns = Turns {
    round: Duration::from_micros(500),
    long: Duration::from_millis(100),
};

/// Times the verdicts.
pub fn time(form: Form, sides: &Sides) {
    let first = ["records", "nodes", "automata, edges"].map(String::from);
    let heads = [first.to_vec(), sides.heads()].concat();
    let title = form.timed("verifying short records, time of one verdict");
    let lines = Lines::begin(form, &title, &heads);
    for table in short() {
        for edges in Edges::ALL {
            let (listing, what) = (Listing::of(&table.with(edges).wallet), &table.what);
            let verify = |side: Side, _: &mut ()| side.verify(&listing, &table.record);
            assert_eq!(listing.verify(&table.record), Ok(table.set), "{what}");
            let times = sides.times(TURNS, what, &(), verify);
            let first = [what, &table.nodes().to_string(), edges.words()].map(String::from);
            lines.line(&[first.to_vec(), sides.cells(form, &times)].concat());
        }
    }
}
