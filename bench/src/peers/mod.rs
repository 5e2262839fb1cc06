//! Several ways of listing minimal sets, timed on the same wallets in one run.
//!
//! - [`wallets`]: what they are timed on
//! - [`proofs`], with [`store`], [`automata`], [`deadline`] and [`minimal`]: an
//!   enumeration of all proofs, in the way of the 2015 paper (docs/SOURCES.md)
//! - [`solver`], with [`facts`]: an answer set solver, in the way of the 2012
//!   paper
//! - [`tables`], [`curves`]: what comes of it
//!
//! The solver's program goes by the roles of a branch, and the others by its pairs
//! of principal and role. On these wallets that makes no difference ([`again`]).

pub mod again;
mod automata;
pub mod curves;
mod deadline;
#[cfg(test)]
mod exactness;
mod facts;
mod minimal;
mod proofs;
#[cfg(test)]
mod samples;
mod solver;
mod store;
pub mod tables;
pub mod wallets;

use std::time::Duration;

use reference::Number;

use crate::families;
use crate::listing::{steps_within, Listing};
use crate::timing::alone;
use solver::Solver;

/// A call that takes less is repeated until the calls have taken so long.
const ROUND: Duration = Duration::from_micros(400);

/// Why there is no list.
#[derive(Clone, Debug, PartialEq, Eq)]
pub enum Unfinished {
    /// It took too long.
    OutOfTime,
    /// Something else went wrong.
    Failed(String),
}

/// A way of listing minimal sets.
pub enum Way {
    /// The library.
    Library,
    /// The reference.
    Reference,
    /// All proofs, and the minimal ones of their used sets.
    Proofs,
    /// An answer set solver.
    Solver(Solver),
}

impl Way {
    /// What it is called in tables.
    pub fn name(&self) -> &'static str {
        match self {
            Way::Library => "library",
            Way::Reference => "reference",
            Way::Proofs => "proof enumeration",
            Way::Solver(_) => "answer set solver",
        }
    }

    /// The minimal sets, ascending, if they are found within the limit.
    fn list(&self, listing: &Listing, limit: Duration) -> Result<Vec<u32>, Unfinished> {
        match self {
            Way::Library => {
                let list = listing.library_list();
                list.map_err(|refusal| Unfinished::Failed(refusal.to_string()))
            }
            Way::Reference => {
                let list = listing.reference(steps_within(limit));
                list.ok_or(Unfinished::OutOfTime)
            }
            Way::Proofs => {
                let (table, asked) = listing.read();
                let list = proofs::minimal_sets(&table, asked, limit);
                list.ok_or(Unfinished::OutOfTime)
            }
            Way::Solver(solver) => solver.minimal_sets(listing, limit),
        }
    }
}

/// What came out of a comparison.
pub struct Comparison {
    /// How long a way might take for one wallet.
    pub limit: Duration,
    /// The names of the ways, the library first.
    pub names: Vec<&'static str>,
    /// The wallets of each size.
    pub groups: Vec<Group>,
    /// Tables of one shape in several sizes.
    pub families: Vec<Family>,
    /// How long the solver's programs take with nothing to do, in nanoseconds.
    pub idle: Option<f64>,
    /// How many lists differ from the library's or could not be made for
    /// another reason than time.
    pub faults: usize,
}

/// The times of each way on one listing, in nanoseconds. There is none where
/// it did not finish within the limit.
pub type Times = Vec<Option<f64>>;

/// The wallets of one size.
pub struct Group {
    /// How many credentials each has.
    pub size: Number,
    /// The times, wallet by wallet.
    pub times: Vec<Times>,
    /// How many minimal sets there are, wallet by wallet.
    pub sets: Vec<usize>,
}

impl Group {
    /// The times of one way, wallet by wallet.
    pub fn of_way(&self, way: usize) -> Vec<Option<f64>> {
        self.times.iter().map(|times| times[way]).collect()
    }
}

/// A table of some shape.
pub struct Family {
    /// What it is.
    pub name: String,
    /// How many minimal sets there are.
    pub sets: usize,
    /// The times.
    pub times: Times,
}

/// Times every way on every wallet, and says where a list differs.
pub fn compare(limit: Duration) -> Comparison {
    let mut trial = Trial {
        ways: ways(),
        limit,
        faults: 0,
    };
    let groups = wallets::sizes().map(|size| trial.group(size)).collect();
    let families = families::growing();
    let families = families.into_iter().map(|(name, wallet)| {
        let (times, sets) = trial.times(&name, &Listing::of(&wallet));
        eprintln!("{name}: done");
        Family { name, sets, times }
    });
    Comparison {
        limit,
        groups,
        families: families.collect(),
        idle: trial.idle(),
        names: trial.ways.iter().map(Way::name).collect(),
        faults: trial.faults,
    }
}

/// The ways that there are on this machine.
fn ways() -> Vec<Way> {
    let mut ways = vec![Way::Library, Way::Reference, Way::Proofs];
    match Solver::find() {
        Ok(solver) => ways.push(Way::Solver(solver)),
        Err(missing) => println!("{missing} is not installed: no answer set solver.\n"),
    }
    ways
}

/// A comparison that is under way.
struct Trial {
    ways: Vec<Way>,
    limit: Duration,
    faults: usize,
}

impl Trial {
    /// Times the wallets of one size.
    fn group(&mut self, size: Number) -> Group {
        let mut group = Group {
            size,
            times: Vec::new(),
            sets: Vec::new(),
        };
        for (index, listing) in wallets::of_size(size).iter().enumerate() {
            let name = format!("wallet {index} of {size} credentials");
            let (times, sets) = self.times(&name, listing);
            group.times.push(times);
            group.sets.push(sets);
        }
        eprintln!("wallets of {size} credentials: done");
        group
    }

    /// Times every way on a listing, and says where its list differs from the
    /// library's; and tells how many sets there are. The ways take turns, so that
    /// whatever slows the machine slows them all.
    fn times(&mut self, name: &str, listing: &Listing) -> (Times, usize) {
        let expected = listing.library_list();
        let mut times = Vec::new();
        for way in &self.ways {
            let timed = alone(ROUND, || way.list(listing, self.limit));
            if let Some(fault) = fault(&timed, &expected) {
                eprintln!("{name}, {}: {fault}", way.name());
                self.faults += 1;
            }
            let time = timed.ok().map(|(_, time)| time);
            times.push(time.filter(|time| *time <= self.limit.as_nanos() as f64));
        }
        (times, expected.map_or(0, |list| list.len()))
    }

    /// How long the solver's programs take with nothing to do.
    fn idle(&self) -> Option<f64> {
        let solvers = self.ways.iter().filter_map(|way| match way {
            Way::Solver(solver) => Some(solver),
            _ => None,
        });
        let timed = solvers.map(|solver| alone(ROUND, || solver.idle(self.limit)));
        timed.flatten().next().map(|(_, time)| time)
    }
}

/// What is wrong with a list, if anything is.
fn fault(
    timed: &Result<(Vec<u32>, f64), Unfinished>,
    expected: &Result<Vec<u32>, bwlchareg::Refusal>,
) -> Option<String> {
    match (timed, expected) {
        (Err(Unfinished::OutOfTime), _) => None,
        (Err(Unfinished::Failed(why)), _) => Some(why.clone()),
        (Ok((list, _)), Ok(expected)) if list == expected => None,
        (Ok((list, _)), expected) => Some(format!("{list:?}, and the library {expected:?}")),
    }
}

#[cfg(test)]
mod tests {
    use super::{fault, Trial, Unfinished, Way};
    use crate::families;
    use crate::listing::Listing;
    use reference::shop;
    use std::time::Duration;

    #[test]
    fn a_list_that_differs_is_a_fault() {
        let list = |sets: &[u32]| Ok((sets.to_vec(), 1.0));
        let expected = Ok(vec![7, 8]);
        let told = "[7], and the library Ok([7, 8])".to_string();
        assert_eq!(fault(&list(&[7, 8]), &expected), None);
        assert_eq!(fault(&list(&[7]), &expected), Some(told));
        assert!(fault(&list(&[8, 7]), &expected).is_some());
        assert!(fault(&list(&[]), &expected).is_some());
    }

    #[test]
    fn only_time_excuses_a_missing_list() {
        let expected = Ok(vec![7, 8]);
        let failed = Unfinished::Failed("a reason".into());
        assert_eq!(fault(&Err(Unfinished::OutOfTime), &expected), None);
        assert_eq!(fault(&Err(failed), &expected), Some("a reason".into()));
        let refusal = bwlchareg::Refusal {
            number: 10,
            position: 0,
        };
        assert!(fault(&Ok((vec![7], 1.0)), &Err(refusal)).is_some());
    }

    #[test]
    fn times_over_the_limit_are_left_out() {
        let mut trial = Trial {
            ways: vec![Way::Library, Way::Reference, Way::Proofs],
            limit: Duration::from_millis(20),
            faults: 0,
        };
        let shop = Listing::of(&families::shop(&shop::T));
        let (times, sets) = trial.times("the shop", &shop);
        assert!(times.len() == 3 && times.iter().all(Option::is_some));
        assert_eq!(sets, 2);
        let sixteen = Listing::of(&families::sixteen_levels());
        let (times, sets) = trial.times("sixteen levels", &sixteen);
        assert!(times.len() == 3 && times[2].is_none());
        assert_eq!((trial.faults, sets), (0, 1));
        trial.limit = Duration::from_nanos(1);
        let (times, _) = trial.times("the shop", &shop);
        assert_eq!(times[..2], [None, None]);
    }
}
