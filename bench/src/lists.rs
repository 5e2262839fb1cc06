//! Times the listing call on the families of tables.

use std::time::Duration;

use reference::generate::wallets::{Place, Wallet};
use reference::random::Random;
use reference::shop;

use crate::calls::RATIO;
use crate::families;
use crate::listing::{Listing, CELLS};
use crate::sheet::{Form, Sheet, Unit};
use crate::timing::each;

/// Each side is given so long for a family. A call of the library ends before
/// it is asked whether time is up.
const LIBRARY_LIMIT: Duration = Duration::from_secs(10);
const REFERENCE_LIMIT: Duration = Duration::from_secs(2);
/// The reference gives a table up after so many steps.
const STEPS: u64 = 20_000_000;
/// So many wallets there are for each number of credentials that bear on the
/// query.
const WALLETS: usize = 50;

/// Times the listing call.
pub fn time_lists(random: &mut Random, form: Form) {
    let title = "time of one list";
    let sheet = Sheet::begin(form, Unit::Nanoseconds(0), title, "lists", RATIO);
    report(
        &sheet,
        "the shop's T with Q",
        vec![families::shop(&shop::T)],
    );
    report(
        &sheet,
        "the shop's U with Q",
        vec![families::shop(&shop::U)],
    );
    for bearing in [1, 5, 10, 15] {
        for (place, numbers) in [(Place::Low, "low"), (Place::High, "high")] {
            let wallets = families::bearing(random, WALLETS, bearing, place);
            let what = format!("{bearing} of 20 bear, others {numbers}");
            report(&sheet, &what, wallets);
        }
    }
    let grown = families::grown(random, 1_000);
    report(&sheet, "1,000 grown wallets", grown);
    // The page has them among the ways of listing.
    if form == Form::Columns {
        for (what, wallet) in families::growing() {
            report(&sheet, &what, vec![wallet]);
        }
    }
}

/// Times both sides on some wallets and prints a line, or for several wallets
/// one for each of the median, the 99th percentile and the worst.
fn report(sheet: &Sheet, what: &str, wallets: Vec<Wallet>) {
    let listings: Vec<Listing> = wallets.iter().map(Listing::of).collect();
    let library = each(LIBRARY_LIMIT, &listings, library);
    let reference = each(REFERENCE_LIMIT, &listings, reference);
    let last = listings.len() - 1;
    let sides = [library, reference];
    if last == 0 {
        return print(sheet, what, &sides, 0);
    }
    print(sheet, &format!("{what}: median"), &sides, last / 2);
    print(sheet, "  99th percentile", &sides, last * 99 / 100);
    print(sheet, "  worst", &sides, last);
}

/// Prints what is at an index of the ascending times of either side.
fn print(sheet: &Sheet, what: &str, sides: &[Option<Vec<f64>>; 2], index: usize) {
    let times = sides.each_ref();
    let times = times.map(|times| times.as_ref().map(|times| times[index]));
    let ratio = match times {
        [Some(library), Some(reference)] => Some(reference / library),
        _ => None,
    };
    sheet.line(what, times, ratio);
}

/// The library's count. A refusal takes its time too, and counts as none.
fn library(listing: &Listing) -> Option<usize> {
    let mut cells = [0; CELLS];
    Some(listing.library(&mut cells).unwrap_or(0))
}

/// The reference's count, unless it gives up.
fn reference(listing: &Listing) -> Option<usize> {
    Some(listing.reference(STEPS)?.len())
}
