//! Times the two refusals of writing: 15, the set is not on the list, and 16,
//! the buffer is shorter than the record.

use bwlchareg::{Number, Refusal};

use super::wallets::{self, grown};
use super::{spread, ROUND};
use crate::families::growing;
use crate::listing::{Listing, CELLS};
use crate::sheet::{Form, Lines};
use crate::timing::{alone, in_turns};

/// How many cells are lent for records that are longer.
const LENT: [usize; 4] = [0, 64, 4_096, 65_536];
/// The tables that have longer records: of more than a thousand million nodes,
/// and of 65,535, where much is to be searched before the first is known.
const LONGER: [&str; 2] = [
    "sixteen levels, one role four times",
    "ladder of 15 of kind 3, people 5",
];

/// Times refusal 16 by the cells that are lent.
pub fn time_longer(form: Form) {
    let title = "refusal 16, the buffer is shorter than the record, time of one call";
    let heads = ["records", "cells lent", "write", "write, each cell"];
    let lines = Lines::begin(form, &form.timed(title), &heads);
    for (what, listing) in longer_records() {
        for cells in LENT {
            let time = longer(&listing, cells);
            let each = match cells {
                0 => String::new(),
                cells => form.time(time / cells as f64, 1),
            };
            lines.line(&[&what, &cells.to_string(), &form.time(time, 0), &each]);
        }
    }
}

/// The tables whose records are longer than every buffer: the sixteen levels and
/// the ladder.
fn longer_records() -> Vec<(String, Listing)> {
    let mut shapes = growing();
    shapes.retain(|(what, _)| LONGER.contains(&what.as_str()));
    let shapes = shapes.into_iter();
    shapes
        .map(|(what, wallet)| (what, Listing::of(&wallet)))
        .collect()
}

/// The time of the refusal for the first set of a list, with so many cells.
fn longer(listing: &Listing, cells: usize) -> f64 {
    let sets = listing.library_list().expect("an accepted listing");
    let mut cells = vec![0; cells];
    let timed = alone(ROUND, || refusal(listing, sets[0], &mut cells));
    let (number, time) = timed.expect("a record that is refused");
    assert_eq!(number, Refusal::LONGER_RECORD);
    time
}

/// The number with which writing is refused, or the length of the record if it
/// is not.
fn refusal(listing: &Listing, set: u32, cells: &mut [Number]) -> Result<u32, usize> {
    match listing.write(set, cells) {
        Err(refusal) => Ok(refusal.number),
        Ok(length) => Err(length),
    }
}

/// A set that is not on a list, of a wallet with so many credentials, if there is
/// one of this sort.
type Unlisted = fn(Number, &[u32]) -> Option<u32>;

/// The sorts of sets that are timed.
const UNLISTED: [(&str, Unlisted); 6] = [
    ("0", |_, _| Some(0)),
    ("all credentials, more than are needed", |n, list| {
        let all = (1 << n) - 1;
        (!list.is_empty() && !list.contains(&all)).then_some(all)
    }),
    ("a minimal set and a further credential", |n, list| {
        let set = list.first()?;
        let further = (!set).trailing_zeros();
        (further < n.into()).then_some(set | 1 << further)
    }),
    ("a minimal set but for a credential", |_, list| {
        let set = list.first()?;
        Some(set & (set - 1))
    }),
    ("a minimal set and the bit above n", |n, list| {
        Some(list.first()? | 1 << n)
    }),
    ("all 32 bits", |_, _| Some(u32::MAX)),
];

/// Times refusal 15 on grown wallets, in turns with their lists.
pub fn time_not_listed(form: Form) {
    let title = "refusal 15, the set is not on the list of a grown wallet, time of one call";
    let heads = ["sets", "wallets", "median", "worst", "write / list, median"];
    let lines = Lines::begin(form, &form.timed(title), &heads);
    let grown = grown();
    for (what, unlisted) in UNLISTED {
        let times = grown
            .iter()
            .filter_map(|wallet| not_listed(wallet, unlisted));
        let times: Vec<[f64; 2]> = times.collect();
        let [median, _, worst] = spread(times.iter().map(|[write, _]| *write).collect());
        let [ratio, ..] = spread(times.iter().map(|[write, list]| write / list).collect());
        lines.line(&[
            what.to_string(),
            times.len().to_string(),
            form.time(median, 0),
            form.time(worst, 0),
            form.ratio(ratio),
        ]);
    }
}

/// The times of the refusal and of the list, if a wallet has a set of this sort.
fn not_listed(wallet: &Listing, unlisted: Unlisted) -> Option<[f64; 2]> {
    let list = wallet.library_list().expect("an accepted wallet");
    let set = unlisted(wallet.table[0], &list)?;
    let (mut sets, mut cells) = ([0; CELLS], [0; 64]);
    let answer = refusal(wallet, set, &mut cells);
    assert_eq!(answer, Ok(Refusal::NOT_LISTED), "set {set} of {wallet:?}");
    let write = || wallet.write(set, &mut cells);
    let list = || wallet.library(&mut sets);
    Some(in_turns(wallets::ROUND, write, list))
}

#[cfg(test)]
mod tests {
    use super::{grown, longer_records, refusal, Listing, Refusal, LENT, LONGER, UNLISTED};

    #[test]
    fn the_cells_are_too_few_and_stay() {
        let tables = longer_records();
        assert_eq!(tables.len(), LONGER.len());
        let sixteen = &tables[0].1;
        let set = (1 << 16) - 1;
        for cells in LENT {
            let mut cells = vec![7; cells];
            let answer = refusal(sixteen, set, &mut cells);
            assert_eq!(answer, Ok(Refusal::LONGER_RECORD));
            assert!(cells.iter().all(|&cell| cell == 7));
        }
    }

    #[test]
    fn each_sort_of_sets_is_refused_on_some_wallet() {
        let wallets: Vec<Listing> = grown().into_iter().step_by(20).collect();
        for (what, unlisted) in UNLISTED {
            let refused = wallets.iter().filter_map(|wallet| {
                let list = wallet.library_list().expect("an accepted wallet");
                let set = unlisted(wallet.table[0], &list)?;
                Some(refusal(wallet, set, &mut []))
            });
            let refused: Vec<_> = refused.collect();
            assert!(!refused.is_empty(), "{what}");
            let not_listed = |answer: &_| *answer == Ok(Refusal::NOT_LISTED);
            assert!(refused.iter().all(not_listed), "{what}");
        }
    }
}
