//! Times the calls on one table of which it is not known beforehand how long they
//! take: the library's list beside the reference's, and the first set's record. Each
//! is made in a process of its own first, and timed only if it ends in time.

use std::time::Duration;

use reference::generate::wallets::Wallet;

use crate::listing::Listing;
use crate::sheet::Form;
use crate::single::{Call, SETS};
use crate::timing::{alone, in_turns};
use crate::words;
use crate::writing::record::{Written, CELLS};

/// How long a round of one call lasts at the least.
const ROUND: Duration = Duration::from_millis(5);
/// How the cells are written.
const FORM: Form = Form::Markdown;

/// The heads of the cells.
pub const HEADS: [&str; 8] = [
    "credentials",
    "sets",
    "library",
    "reference",
    "reference / library",
    "nodes",
    "write",
    "verify",
];

/// The cells of a line after those that name the table. A call may take so long.
pub fn cells(limit: Duration, what: &str, wallet: &Wallet) -> Vec<String> {
    let listing = Listing::of(wallet);
    let (sets, times) = lists(limit, what, &listing);
    let first = sets.as_ref().and_then(|sets| sets.first());
    let record = first.map(|&set| record(limit, &listing, set));
    let [library, reference] = times.map(|time| told(limit, time));
    let mut cells = vec![
        wallet.records.credentials.len().to_string(),
        sets.map_or("not known".to_string(), |sets| sets.len().to_string()),
        library,
        reference,
        ratio(limit, times),
    ];
    cells.extend(record.unwrap_or_default());
    cells
}

/// A list, and the times of the library's and of the reference's, each unless it
/// takes too long. Two lists that differ end the benchmark.
fn lists(limit: Duration, what: &str, listing: &Listing) -> (Option<Vec<u32>>, [Option<f64>; 2]) {
    let [library, reference] =
        [Call::Library, Call::Reference].map(|call| call.within(limit, listing));
    if let (Some(library), Some(reference)) = (&library, &reference) {
        assert_eq!(library, reference, "{what}");
    }
    let mut cells = vec![0; SETS];
    let by_library = || listing.library(&mut cells);
    let by_reference = || listing.reference(u64::MAX);
    let times = match (&library, &reference) {
        (Some(_), Some(_)) => in_turns(ROUND, by_library, by_reference).map(Some),
        (Some(_), None) => [Some(one(by_library)), None],
        (None, Some(_)) => [None, Some(one(by_reference))],
        (None, None) => [None, None],
    };
    (library.or(reference), times)
}

/// The time of a call that is timed by itself, whatever it gives.
fn one<Value>(mut call: impl FnMut() -> Value) -> f64 {
    let timed: Result<_, ()> = alone(ROUND, || Ok(call()));
    timed.map_or(0.0, |(_, time)| time)
}

/// How many nodes the record of a set has, and the times of writing and of
/// verifying it.
fn record(limit: Duration, listing: &Listing, set: u32) -> [String; 3] {
    match Call::Write(set).within(limit, listing).as_deref() {
        None => ["", &words::more_than(limit), ""].map(String::from),
        Some([]) => ["too many", "", ""].map(String::from),
        Some(_) => {
            let written = Written::new(listing, set, &mut vec![0; CELLS]);
            let [write, verify] = written.times(ROUND).map(|time| FORM.time(time, 0));
            [written.nodes().to_string(), write, verify]
        }
    }
}

/// A time in words, or that it is over the limit.
fn told(limit: Duration, time: Option<f64>) -> String {
    match time {
        Some(time) => FORM.time(time, 0),
        None => words::more_than(limit),
    }
}

/// How many times as long as the library the reference takes, as far as it is
/// known.
fn ratio(limit: Duration, [library, reference]: [Option<f64>; 2]) -> String {
    let limit = limit.as_nanos() as f64;
    match (library, reference) {
        (Some(library), Some(reference)) => FORM.ratio(reference / library),
        (Some(library), None) => format!("more than {}", FORM.ratio(limit / library)),
        (None, Some(reference)) => format!("less than {}", FORM.ratio(reference / limit)),
        (None, None) => String::new(),
    }
}

#[cfg(test)]
mod tests {
    use super::{ratio, told};
    use std::time::Duration;

    const SECOND: Duration = Duration::from_secs(1);

    #[test]
    fn what_takes_too_long_is_told() {
        assert_eq!(told(SECOND, Some(79e6)), "79 ms");
        assert_eq!(told(SECOND, None), "more than 1.0 s");
    }

    #[test]
    fn a_ratio_is_told_as_far_as_it_is_known() {
        let ratios = [
            ([Some(1e6), Some(5e6)], "5.0"),
            ([Some(1e6), None], "more than 1000"),
            ([None, Some(5e8)], "less than 0.50"),
            ([None, None], ""),
        ];
        for (times, words) in ratios {
            assert_eq!(ratio(SECOND, times), words);
        }
    }
}
