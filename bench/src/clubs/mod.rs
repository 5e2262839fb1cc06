//! Times clubs whose friends are the friends of their friends: the library's list
//! beside the reference's, and the first set's record.
//!
//! - [`tables`]: the clubs
//!
//! How long a call takes is not known beforehand, so each has a limit.

pub mod tables;

use std::time::Duration;

use crate::sheet::{Form, Lines};
use crate::within;
use crate::words;
use tables::Constraint;

/// Prints a table for each constraint. A call may take so long for one club.
pub fn time(limit: Duration) {
    for constraint in Constraint::ALL {
        let lines = begin(constraint, limit);
        for club in tables::clubs() {
            let what = format!("{}, {}", club.shape, constraint.words());
            let cells = within::cells(limit, &what, &club.with(constraint));
            lines.line(&[vec![club.shape.to_string(), club.people.to_string()], cells].concat());
        }
        eprintln!("clubs, {}: done", constraint.words());
    }
}

/// Prints the head of the lines about a constraint.
fn begin(constraint: Constraint, limit: Duration) -> Lines {
    let title = format!(
        "clubs, {}, time of one call, which is given up after {}",
        constraint.words(),
        words::duration(limit)
    );
    let heads = [&["clubs", "people"], &within::HEADS[..]].concat();
    Lines::begin(Form::Markdown, &title, &heads)
}
