//! Counts of what the verifying call was compared on.

use std::collections::BTreeMap;

use reference::generate::wrongs::Wrong;
use reference::Refusal;

use crate::claims::Submitted;
use crate::features::Feature;
use crate::owners::Automata;
use crate::report::{line, listed, outcome, Outcome, PRINTED};
use crate::signs::Sign;
use crate::Verdict;

/// So many verdicts must be compared at the least.
const LEAST: u64 = 300_000;
/// The answers that the call can give, in the order of the checks; 0 stands for an
/// accepted record.
const ANSWERS: [u32; 14] = [0, 1, 2, 3, 4, 5, 6, 7, 17, 8, 11, 12, 13, 14];
/// The refusals whose position is a node.
const AT_NODES: [u32; 3] = [11, 12, 13];
/// The signs of one in so many refused records are looked for.
const SIGNED: u64 = 7;

/// What has been counted so far. Verdicts are counted where the two sides
/// agree; an accepted record counts under number 0.
pub struct Verdicts {
    seed: u64,
    agreed: u64,
    differed: u64,
    answers: BTreeMap<u32, u64>,
    /// Refusals at a node beyond 65,535.
    far: BTreeMap<u32, u64>,
    features: BTreeMap<Feature, u64>,
    signs: BTreeMap<Sign, u64>,
    wrongs: BTreeMap<(Wrong, u32), u64>,
    /// The automata of the tables of records that derive their query.
    automata: Automata,
}

impl Verdicts {
    /// Nothing counted yet, in a run with this seed.
    pub fn new(seed: u64) -> Verdicts {
        Verdicts {
            seed,
            agreed: 0,
            differed: 0,
            answers: BTreeMap::new(),
            far: BTreeMap::new(),
            features: BTreeMap::new(),
            signs: BTreeMap::new(),
            wrongs: BTreeMap::new(),
            automata: Automata::default(),
        }
    }

    /// Counts the two verdicts on one claim.
    pub fn count(&mut self, submitted: &Submitted, library: Verdict, reference: Verdict) {
        if library != reference {
            self.differed += 1;
            if self.differed <= PRINTED {
                self.print_difference(submitted, library, reference);
            }
            return;
        }
        self.agreed += 1;
        let number = match reference {
            Ok(_) => {
                self.count_features(submitted);
                0
            }
            Err(refusal) => {
                if refusal.position > u64::from(u16::MAX) {
                    *self.far.entry(refusal.number).or_default() += 1;
                }
                if self.agreed.is_multiple_of(SIGNED) {
                    self.count_signs(submitted, refusal);
                }
                refusal.number
            }
        };
        *self.answers.entry(number).or_default() += 1;
        match submitted.wrong {
            Some(wrong) => *self.wrongs.entry((wrong, number)).or_default() += 1,
            None => self.automata.count(&submitted.claim.table),
        }
    }

    /// Counts the features of an accepted claim.
    fn count_features(&mut self, submitted: &Submitted) {
        for feature in Feature::of(&submitted.claim) {
            *self.features.entry(feature).or_default() += 1;
        }
    }

    /// Counts the signs of a refused claim.
    fn count_signs(&mut self, submitted: &Submitted, refusal: Refusal) {
        for sign in Sign::of(&submitted.claim, refusal) {
            *self.signs.entry(sign).or_default() += 1;
        }
    }

    /// Prints what is needed to look into a difference.
    fn print_difference(&self, submitted: &Submitted, library: Verdict, reference: Verdict) {
        let claim = &submitted.claim;
        println!("difference, verifying call:");
        let claims = self.agreed + self.differed;
        println!("  seed {}, claim {claims} of the run", self.seed);
        println!("  table of {}", listed(&claim.table));
        println!("  query: {:?}", claim.query);
        println!("  record of {}", listed(&claim.record));
        match submitted.wrong {
            Some(wrong) => println!("  spoiled: {wrong}"),
            None => println!("  not spoiled"),
        }
        println!("  library: {}", words(library));
        println!("  reference: {}", words(reference));
    }

    /// Prints the counts; tells how many passed and failed.
    pub fn report(&self) -> Outcome {
        println!("records");
        let tests = self.lines();
        let mut too_few = 0;
        for (what, count, least) in &tests {
            too_few += line(what, *count, *least);
        }
        println!("counts that are too low {too_few} of {}", tests.len());
        println!("differences {}", self.differed);
        Outcome {
            passed: self.agreed + tests.len() as u64 - too_few,
            failed: self.differed + too_few,
        }
    }

    /// Every count, what it is of, and how great it must be.
    fn lines(&self) -> Vec<(String, Option<u64>, u64)> {
        let mut lines = vec![("verdicts that agree".into(), Some(self.agreed), LEAST)];
        lines.extend(self.automata.lines());
        for number in ANSWERS {
            let count = self.answers.get(&number).copied();
            lines.push((outcome(number), count, 1));
        }
        for number in AT_NODES {
            let count = self.far.get(&number).copied();
            lines.push((format!("refused {number} beyond node 65,535"), count, 1));
        }
        for feature in Feature::all() {
            let count = self.features.get(&feature).copied();
            lines.push((format!("accepted: {feature}"), count, feature.least()));
        }
        for sign in Sign::all() {
            let count = self.signs.get(&sign).copied();
            lines.push((format!("one in {SIGNED}: {sign}"), count, sign.least()));
        }
        for wrong in Wrong::all() {
            for number in wrong.expected() {
                let count = self.wrongs.get(&(wrong, number)).copied();
                lines.push((format!("{wrong}: {}", outcome(number)), count, 1));
            }
        }
        lines
    }
}

/// A verdict in words.
fn words(verdict: Verdict) -> String {
    match verdict {
        Ok(used_set) => format!("accepted {used_set}"),
        Err(refusal) => format!("refused {} at {}", refusal.number, refusal.position),
    }
}
