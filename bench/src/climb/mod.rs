//! Looks for tables on which one list, or the writing of a record, takes long:
//! hill climbing, from several wallets, by small changes.
//!
//! - [`change`]: the changes
//! - [`call`]: what counts
//! - [`watch`]: how long a call takes
//! - [`report`]: what is found
//!
//! The changes are the same for the same seed. Which of them are kept depends on
//! measured times, so two runs need not end with the same table.

mod call;
mod change;
mod report;
mod watch;

use std::sync::Arc;
use std::time::Duration;

use reference::generate::constraints;
use reference::generate::wallets::{self, Wallet};
use reference::random::Random;
use reference::records::Head;

use crate::families::Named;
use crate::listing::Listing;
use crate::words;
pub use call::Call;
use change::{changed, Automata};
use watch::Watch;

/// So many grown wallets are climbed from, beside the tables of known shapes.
const GROWN: usize = 10;
/// What looks slow is timed so many times, and the least time counts.
const TIMES: usize = 5;
/// A wallet is gone on from if it takes at least this part of the longest time:
/// a step on level ground may lead to one that goes up.
const LEVEL: f64 = 0.95;

/// How to climb.
#[derive(Clone, Copy, Debug, PartialEq, Eq)]
pub struct Climb {
    /// What is climbed on.
    pub call: Call,
    /// How many steps are made from each wallet.
    pub steps: usize,
    /// The seed of the wallets and of the changes.
    pub seed: u64,
    /// A call that takes longer ends the climb that led to it.
    pub limit: Duration,
}

/// A wallet and how long the call takes on it, in nanoseconds.
#[derive(Clone, Debug, PartialEq)]
pub struct Slow {
    /// The wallet.
    pub wallet: Wallet,
    /// The time that counts; without end if it is over the limit.
    pub time: f64,
}

/// Climbs without automata, then with them, and prints the worst of each: the
/// slowest within the limit, and one over it if there is any.
pub fn run(climb: Climb) {
    for automata in [Automata::Without, Automata::With] {
        let starts = starts(&mut Random::new(climb.seed), climb.call, automata);
        let climbs = starts.len();
        let (mut within, mut over) = (None, None);
        for (number, (name, start)) in (1..).zip(starts) {
            for slow in climb.from(number, start, automata) {
                eprintln!("{number} of {climbs}, {name}: {}", climb.words(slow.time));
                let worst = match slow.time.is_infinite() {
                    true => &mut over,
                    false => &mut within,
                };
                keep_slower(worst, &name, slow);
            }
        }
        for (name, slow) in [within, over].into_iter().flatten() {
            print!("{}", report::text(climb, automata, climbs, &name, &slow));
        }
    }
}

/// Keeps the slower of two, with where it was climbed to from.
fn keep_slower(worst: &mut Option<(String, Slow)>, name: &str, slow: Slow) {
    let time = worst.as_ref().map(|(_, other)| other.time);
    if time.is_none_or(|time| time < slow.time) {
        *worst = Some((name.to_string(), slow));
    }
}

/// The wallets that are climbed from, with their names: grown ones and tables
/// of known shapes. Where there may be automata, nearly all have some.
fn starts(random: &mut Random, call: Call, automata: Automata) -> Vec<Named> {
    let size = Head::LIMITS.credentials;
    let grown = (1..=GROWN).map(|number| {
        let name = format!("grown wallet {number}");
        (name, wallets::of_size(random, size))
    });
    let mut starts: Vec<Named> = grown.collect();
    let mut shapes = call.shapes();
    match automata {
        Automata::Without => {
            starts
                .iter_mut()
                .for_each(|(_, wallet)| take_automata(wallet));
            shapes.retain(|(_, wallet)| wallet.records.automata.is_empty());
        }
        Automata::With => {
            let free = shapes.iter_mut().map(|(_, wallet)| &mut wallet.records);
            let free = free.filter(|records| records.automata.is_empty());
            free.for_each(|records| constraints::attach(random, records));
        }
    }
    starts.extend(shapes);
    starts
}

/// Takes all automata from a wallet.
fn take_automata(wallet: &mut Wallet) {
    wallet.records.automata.clear();
    wallet.records.edges.clear();
    for credential in &mut wallet.records.credentials {
        credential[5] = 0;
    }
}

impl Climb {
    /// A time in words.
    fn words(self, time: f64) -> String {
        match time.is_infinite() {
            true => words::more_than(self.limit),
            false => words::time(time),
        }
    }

    /// Climbs from a wallet, the one with this number, and gives what [`up`]
    /// does.
    fn from(self, number: u64, start: Wallet, automata: Automata) -> Vec<Slow> {
        let mut random = Random::new(self.seed.wrapping_add(number));
        let mut watch = Watch::new(self.limit);
        let mut time = |wallet: &Wallet, enough: f64| {
            let listing = Arc::new(Listing::of(wallet));
            let once = || self.call.cost(&mut watch, &listing);
            least(once, enough)
        };
        up(&mut random, start, self.steps, automata, &mut time)
    }
}

/// The least of some times, of which no more are taken once one is not enough.
fn least(mut time: impl FnMut() -> f64, enough: f64) -> f64 {
    let mut least = time();
    for _ in 1..TIMES {
        if least < enough || least.is_infinite() {
            break;
        }
        least = least.min(time());
    }
    least
}

/// Makes so many steps from a wallet, and gives the slowest that was met, and
/// after it, if the climb ended there, one that takes without end. How slow one
/// is, is asked together with what is enough to go on from it.
fn up(
    random: &mut Random,
    start: Wallet,
    steps: usize,
    automata: Automata,
    time: &mut impl FnMut(&Wallet, f64) -> f64,
) -> Vec<Slow> {
    let mut here = start.clone();
    let mut slowest = Slow {
        time: time(&start, 0.0),
        wallet: start,
    };
    if slowest.time.is_infinite() {
        return vec![slowest];
    }
    for _ in 0..steps {
        let wallet = changed(random, &here, automata);
        let enough = LEVEL * slowest.time;
        let time = time(&wallet, enough);
        if time.is_infinite() {
            return vec![slowest, Slow { wallet, time }];
        }
        if time < enough {
            continue;
        }
        here = wallet.clone();
        if time > slowest.time {
            slowest = Slow { wallet, time };
        }
    }
    vec![slowest]
}

#[cfg(test)]
mod tests {
    use super::change::{is_valid, Automata};
    use super::{keep_slower, least, starts, up, Call, Slow, TIMES};
    use crate::families;
    use reference::generate::wallets::Wallet;
    use reference::random::Random;
    use reference::shop;

    /// Climbs from the shop where the sum of all numbers is the time.
    fn climbed(seed: u64, steps: usize, limit: f64) -> Vec<Slow> {
        let mut sum = |wallet: &Wallet, _: f64| {
            let numbers = wallet.records.numbers().into_iter();
            let sum = f64::from(numbers.map(u32::from).sum::<u32>());
            if sum > limit {
                f64::INFINITY
            } else {
                sum
            }
        };
        let start = families::shop(&shop::T);
        let mut random = Random::new(seed);
        up(&mut random, start, steps, Automata::With, &mut sum)
    }

    #[test]
    fn a_climb_goes_up_and_is_the_same_for_the_same_seed() {
        let [start, low, high] = [0, 20, 400].map(|steps| climbed(1, steps, 1e9));
        assert_eq!([start.len(), low.len(), high.len()], [1; 3]);
        assert!(start[0].time < low[0].time && low[0].time < high[0].time);
        assert!(is_valid(&high[0].wallet));
        assert_eq!(high, climbed(1, 400, 1e9));
        assert_ne!(high, climbed(2, 400, 1e9));
    }

    #[test]
    fn a_climb_ends_at_the_limit() {
        let met = climbed(1, 100_000, 300.0);
        let endless: Vec<bool> = met.iter().map(|slow| slow.time.is_infinite()).collect();
        assert_eq!(endless, [false, true]);
        assert_eq!(met, climbed(1, 200_000, 300.0));
        let at_once = climbed(1, 100_000, 1.0);
        assert!(at_once.len() == 1 && at_once[0].time.is_infinite());
    }

    #[test]
    fn the_slower_of_two_is_kept() {
        let slow = |time: f64| Slow {
            wallet: families::shop(&shop::T),
            time,
        };
        let mut worst = None;
        for (name, time) in [("one", 2.0), ("other", 3.0), ("third", 1.0)] {
            keep_slower(&mut worst, name, slow(time));
        }
        assert_eq!(worst, Some(("other".to_string(), slow(3.0))));
    }

    #[test]
    fn the_least_time_counts_where_it_may_matter() {
        let taken = |times: [f64; TIMES], enough: f64| {
            let mut times = times.into_iter();
            let least = least(|| times.next().expect("a time"), enough);
            (least, times.len())
        };
        assert_eq!(taken([5.0, 9.0, 9.0, 9.0, 9.0], 6.0), (5.0, TIMES - 1));
        assert_eq!(taken([9.0, 8.0, 9.0, 7.0, 9.0], 6.0), (7.0, 0));
        let endless = f64::INFINITY;
        assert_eq!(taken([endless; TIMES], 6.0), (endless, TIMES - 1));
    }

    #[test]
    fn what_is_climbed_from_is_valid_and_the_same_for_the_same_seed() {
        let kinds = [
            (Call::List, Automata::Without),
            (Call::List, Automata::With),
            (Call::Write, Automata::Without),
            (Call::Write, Automata::With),
        ];
        for (call, automata) in kinds {
            let [one, other] = [1, 1].map(|seed| starts(&mut Random::new(seed), call, automata));
            assert!(one.iter().all(|(_, wallet)| is_valid(wallet)));
            assert_eq!(one, other);
            let some = |wallet: &Wallet| wallet.records.head().automata > 0;
            let any = one.iter().any(|(_, wallet)| some(wallet));
            assert_eq!(any, automata == Automata::With);
        }
    }
}
