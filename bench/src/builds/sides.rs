//! The builds that take turns: an older one and a newer one, each from several
//! objects, or the linked one by itself.

use std::fmt::Debug;
use std::time::Duration;

use bwlchareg::{Number, Refusal};

use super::{Build, Pair};
use crate::listing::Listing;
use crate::sheet::Form;
use crate::timing::{least_of_turns, median, Call};
use crate::writing::spread;

/// The heads of the columns about older and newer builds, and about the linked one.
const BOTH: [&str; 2] = ["before", "after"];
const LINKED: [&str; 1] = ["library"];

/// A build that takes turns with others.
#[derive(Clone, Copy)]
pub enum Side<'a> {
    /// The linked one.
    Linked,
    /// One that is loaded.
    Loaded(&'a Build),
}

impl Side<'_> {
    /// Its answer, with its list in the first cells.
    pub fn list(self, listing: &Listing, sets: &mut [u32]) -> Result<usize, Refusal> {
        match self {
            Side::Linked => listing.library(sets),
            Side::Loaded(build) => build.list(listing, sets),
        }
    }

    /// Its answer for a set, with the record in the first cells.
    pub fn write(
        self,
        listing: &Listing,
        set: u32,
        cells: &mut [Number],
    ) -> Result<usize, Refusal> {
        match self {
            Side::Linked => listing.write(set, cells),
            Side::Loaded(build) => build.write(listing, set, cells),
        }
    }

    /// Its verdict on a record.
    pub fn verify(self, listing: &Listing, record: &[Number]) -> Result<u32, Refusal> {
        match self {
            Side::Linked => listing.verify(record),
            Side::Loaded(build) => build.verify(listing, record),
        }
    }
}

/// How long a round lasts at the least, and how long all turns of one object of
/// each side at the most.
#[derive(Clone, Copy)]
pub struct Turns {
    /// A round.
    pub round: Duration,
    /// All turns.
    pub long: Duration,
}

/// All builds that are timed.
pub struct Sides<'a> {
    /// The objects that take turns, one of each side.
    rows: Vec<Vec<Side<'a>>>,
}

impl Sides<'_> {
    /// Two builds, or the linked one if they are not given.
    pub fn of(pairs: &[Pair]) -> Sides<'_> {
        let rows = pairs.iter().map(Pair::each_ref);
        let mut rows: Vec<Vec<Side>> = rows.map(|pair| pair.map(Side::Loaded).to_vec()).collect();
        if rows.is_empty() {
            rows.push(vec![Side::Linked]);
        }
        Sides { rows }
    }

    /// The heads of the sides' columns.
    pub fn names(&self) -> &'static [&'static str] {
        match self.are_two() {
            true => &BOTH,
            false => &LINKED,
        }
    }

    /// Whether there are two.
    pub fn are_two(&self) -> bool {
        self.rows[0].len() == BOTH.len()
    }

    /// The heads of columns of figures, and of how many times as much the older
    /// build's is as the newer one's, if there are two.
    pub fn heads(&self) -> Vec<String> {
        let ratio = self.are_two().then_some("before / after");
        let heads = self.names().iter().copied().chain(ratio);
        heads.map(String::from).collect()
    }

    /// The cells below them.
    pub fn cells(&self, form: Form, times: &[f64]) -> Vec<String> {
        let figures = times.iter().map(|&time| form.time(time, 1));
        let ratio = ratio(times).map(|ratio| form.close_ratio(ratio));
        figures.chain(ratio).collect()
    }

    /// The time of a call by each side, in nanoseconds: of an object's rounds the
    /// least, and of a side's objects the median, the lower of two. Each side has cells of its own. What the
    /// sides answer and what is in their cells then must be the same: where they
    /// differ the benchmark ends.
    pub fn times<Cells: Clone + PartialEq, Answer: PartialEq + Debug>(
        &self,
        turns: Turns,
        what: &str,
        cells: &Cells,
        call: impl Fn(Side, &mut Cells) -> Answer,
    ) -> Vec<f64> {
        self.times_beside(turns, what, cells, call, None)
    }

    /// The same beside something else, whose time comes last.
    pub fn times_beside<Cells: Clone + PartialEq, Answer: PartialEq + Debug>(
        &self,
        turns: Turns,
        what: &str,
        cells: &Cells,
        call: impl Fn(Side, &mut Cells) -> Answer,
        mut other: Option<&mut dyn FnMut()>,
    ) -> Vec<f64> {
        let rows = self.rows.iter().map(|row| {
            let own = |_: &Side| (None, cells.clone());
            let mut given: Vec<(Option<Answer>, Cells)> = row.iter().map(own).collect();
            let mut calls: Vec<Call> = Vec::new();
            for (&side, (answer, cells)) in row.iter().zip(&mut given) {
                let call = &call;
                calls.push(Box::new(move || *answer = Some(call(side, cells))));
            }
            if let Some(other) = &mut other {
                calls.push(Box::new(other));
            }
            let times = least_of_turns(turns.round, turns.long, calls);
            let (answer, cells) = &given[0];
            for (other_answer, other_cells) in &given {
                assert_eq!(other_answer, answer, "{what}");
                assert!(other_cells == cells, "{what}");
            }
            times
        });
        let columns = columns(rows.collect()).into_iter();
        columns.map(|times| spread(times)[0]).collect()
    }
}

/// The heads of a summary's last columns, if there are two sides.
pub const LEAST: [&str; 2] = ["worst", "of"];

/// The cells of a summary of some tables, by their names: the median of each side's
/// times, and if there are two sides the median of the tables' ratios, the least of
/// them, and where it is.
pub fn summary(form: Form, names: &[&str], times: &[Vec<f64>]) -> Vec<String> {
    let sides = 0..times[0].len();
    let of_side = |side: usize| median(times.iter().map(|times| times[side]).collect());
    let figures = sides.map(|side| form.time(of_side(side), 1));
    let ratios: Vec<f64> = times.iter().filter_map(|times| ratio(times)).collect();
    let least = ratios
        .iter()
        .zip(names)
        .min_by(|one, other| one.0.total_cmp(other.0));
    let ratios = least.map(|(&worst, name)| {
        let [median, worst] = [median(ratios.clone()), worst].map(|ratio| form.close_ratio(ratio));
        [median, worst, name.to_string()]
    });
    figures.chain(ratios.into_iter().flatten()).collect()
}

/// How many times as much the first of two figures is.
pub fn ratio(figures: &[f64]) -> Option<f64> {
    match figures {
        [before, after] => Some(before / after),
        _ => None,
    }
}

/// The columns of some rows of the same length.
fn columns(rows: Vec<Vec<f64>>) -> Vec<Vec<f64>> {
    let columns = 0..rows[0].len();
    columns
        .map(|column| rows.iter().map(|row| row[column]).collect())
        .collect()
}

#[cfg(test)]
mod tests {
    use super::{columns, ratio, summary, Sides, Turns};
    use crate::families;
    use crate::listing::{Listing, CELLS};
    use crate::sheet::Form;
    use reference::shop;
    use std::cell::Cell;
    use std::time::Duration;

    const SHORT: Turns = Turns {
        round: Duration::ZERO,
        long: Duration::ZERO,
    };

    #[test]
    fn without_builds_the_linked_one_is_timed() {
        let sides = Sides::of(&[]);
        let listing = Listing::of(&families::shop(&shop::T));
        let calls = Cell::new(0);
        let list = |side: super::Side, cells: &mut [u32; CELLS]| {
            calls.set(calls.get() + 1);
            side.list(&listing, cells)
        };
        let times = sides.times(SHORT, "the shop's T", &[0; CELLS], list);
        assert!(times.len() == 1 && calls.get() > 0);
        assert_eq!(sides.heads(), ["library"]);
        assert_eq!(sides.cells(Form::Markdown, &[31.4]), ["31 ns"]);
    }

    #[test]
    fn something_else_comes_last() {
        let mut others = 0;
        let call = |_: super::Side, _: &mut ()| ();
        let mut other = || others += 1;
        let times = Sides::of(&[]).times_beside(SHORT, "nothing", &(), call, Some(&mut other));
        assert!(times.len() == 2 && others > 0);
    }

    #[test]
    fn only_two_figures_have_a_ratio() {
        assert_eq!(ratio(&[3.0, 2.0]), Some(1.5));
        assert_eq!(ratio(&[3.0]), None);
    }

    #[test]
    fn the_worst_ratio_is_told_with_its_table() {
        let names = ["one", "two", "three"];
        let times = [[100.0, 50.0], [200.0, 250.0], [300.0, 200.0]].map(Vec::from);
        let written = summary(Form::Markdown, &names, &times);
        assert_eq!(written, ["200 ns", "200 ns", "1.50", "0.80", "two"]);
        let alone = [100.0, 300.0, 200.0].map(|time| vec![time]);
        assert_eq!(summary(Form::Markdown, &names, &alone), ["200 ns"]);
    }

    #[test]
    fn rows_are_read_as_columns() {
        let rows = vec![vec![1.0, 2.0], vec![3.0, 4.0], vec![5.0, 6.0]];
        assert_eq!(columns(rows), [[1.0, 3.0, 5.0], [2.0, 4.0, 6.0]]);
    }
}
