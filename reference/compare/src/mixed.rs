//! Counts of what was compared on tables whose automata have both marks: lists,
//! verdicts and first records; how often they hang on the marks; and what upgraded
//! tables of the base layout have.

use std::collections::BTreeMap;
use std::ops::Add;

use reference::derivation::Derivation;
use reference::generate::growth::Policy;
use reference::generate::marks::Marks;
use reference::generate::wallets::Wallet;
use reference::listing::Minimal;
use reference::random::Random;
use reference::upgraded;
use reference::writing::First;
use reference::Number;

use crate::lists::together;
use crate::met::Met;
use crate::report::{line, Outcome, PRINTED};
use crate::shares::{self, Order};
use crate::sides::{Same, Sides};
use crate::word::grown;

/// So many lists must be compared at the least, and so many first records.
const LEAST_LISTS: u64 = 100_000;
const LEAST_RECORDS: u64 = 20_000;
/// First records are asked for of one in so many tables.
const WRITTEN: u64 = 2;
/// One in so many tables is upgraded from the base layout too.
const UPGRADED: u64 = 8;
/// A record by fixed shares that takes more steps is given up.
const STEPS: u64 = 20_000;

/// How often the two sides agree on each call.
#[derive(Clone, Copy, Default)]
struct Agreed {
    lists: u64,
    verdicts: u64,
    records: u64,
}

/// What has been counted so far.
#[derive(Default)]
pub struct Mixed {
    tables: u64,
    /// Lists and first records that take the reference too long.
    passed_over: u64,
    differed: u64,
    agreed: Agreed,
    upgraded: Agreed,
    /// Lists that would be others if every mark were 0, and if every mark were 1.
    other_with_zeros: u64,
    other_with_ones: u64,
    /// Lists that would be others both ways.
    other_with_either: u64,
    met: BTreeMap<Met, u64>,
    /// First records that fixed shares would miss, by the order of the shares, and
    /// those that they would miss in either order.
    missed: BTreeMap<Order, u64>,
    missed_by_either: u64,
}

impl Mixed {
    /// Makes the calls on both sides for a wallet with both marks.
    pub fn compare(&mut self, random: &mut Random, wallet: &Wallet) {
        self.tables += 1;
        let table = wallet.records.numbers();
        let sides = Sides::new(table.clone(), table, wallet.query);
        let Some(sets) = sides.sets() else {
            self.passed_over += 1;
            return;
        };
        self.agreed.lists += self.count(sides.list(&sets));
        self.count_others(random, wallet, &sets);
        if let Some(record) = grown_record(random, wallet) {
            let (same, verdict) = sides.verdict(&record);
            self.agreed.verdicts += self.count(same);
            let asked = wallet.query.read().expect("a valid query");
            let table = sides.table();
            let derivation = Derivation::read(&table, asked, &record);
            let derivation = derivation.expect("a record that derives its query");
            for met in Met::of(&table, &derivation, verdict) {
                *self.met.entry(met).or_default() += 1;
            }
        }
        if self.tables.is_multiple_of(WRITTEN) && !sets.is_empty() {
            self.compare_record(wallet, &sides, random.pick(&sets).set);
        }
        if self.tables.is_multiple_of(UPGRADED) {
            self.compare_upgraded(random, wallet);
        }
    }

    /// Counts whether the list would be another with other marks.
    fn count_others(&mut self, random: &mut Random, wallet: &Wallet, sets: &[Minimal]) {
        let mut is_other = |marks: Marks| {
            let table = with_marks(random, wallet, marks).records.numbers();
            let sides = Sides::new(table.clone(), table, wallet.query);
            sides.sets().is_some_and(|other| !same_sets(&other, sets))
        };
        let [zeros, ones] = [Marks::Zeros, Marks::Ones].map(&mut is_other);
        self.other_with_zeros += u64::from(zeros);
        self.other_with_ones += u64::from(ones);
        self.other_with_either += u64::from(zeros && ones);
    }

    /// Compares the first record of a listed set, and counts whether fixed shares
    /// would miss it.
    fn compare_record(&mut self, wallet: &Wallet, sides: &Sides, set: u32) {
        let Some(first) = sides.first(set) else {
            self.passed_over += 1;
            return;
        };
        self.agreed.records += self.count(sides.record(set, &first));
        let misses = Order::ALL.map(|order| misses(wallet, sides, set, &first, order));
        for (order, missed) in Order::ALL.into_iter().zip(misses) {
            *self.missed.entry(order).or_default() += u64::from(missed);
        }
        self.missed_by_either += u64::from(misses == [true; 2]);
    }

    /// Compares an upgraded table of the base layout with the table of these
    /// records in which every mark is 0.
    fn compare_upgraded(&mut self, random: &mut Random, wallet: &Wallet) {
        let upgrade = upgraded(&wallet.records.base_numbers()).expect("a base table");
        let zeros = with_marks(random, wallet, Marks::Zeros);
        let sides = Sides::new(upgrade, zeros.records.numbers(), wallet.query);
        let Some(sets) = sides.sets() else {
            self.passed_over += 1;
            return;
        };
        self.upgraded.lists += self.count(sides.list(&sets));
        if let Some(record) = grown_record(random, wallet) {
            self.upgraded.verdicts += self.count(sides.verdict(&record).0);
        }
        let first = sets.first().and_then(|minimal| {
            let first = sides.first(minimal.set)?;
            Some(sides.record(minimal.set, &first))
        });
        if let Some(same) = first {
            self.upgraded.records += self.count(same);
        }
    }

    /// Counts a comparison, and prints what is needed to look into a difference.
    /// Tells 1 if both sides say the same, else 0.
    fn count(&mut self, same: Same) -> u64 {
        let Err(words) = same else {
            return 1;
        };
        self.differed += 1;
        if self.differed <= PRINTED {
            println!("both marks, table {}: {words}", self.tables);
        }
        0
    }

    /// Prints the counts; tells how many passed and failed.
    pub fn report(&self) -> Outcome {
        println!("tables with both marks {}", self.tables);
        println!(
            "passed over for their many derivations {}",
            self.passed_over
        );
        let tests = self.lines();
        let mut too_few = 0;
        for (what, count, least) in &tests {
            too_few += line(what, Some(*count), *least);
        }
        println!("counts that are too low {too_few} of {}", tests.len());
        println!("differences {}", self.differed);
        let all = [self.agreed, self.upgraded];
        let agreed = all.map(|agreed| agreed.lists + agreed.verdicts + agreed.records);
        Outcome {
            passed: agreed.into_iter().sum::<u64>() + tests.len() as u64 - too_few,
            failed: self.differed + too_few,
        }
    }

    /// Every count, what it is of, and how great it must be.
    fn lines(&self) -> Vec<(String, u64, u64)> {
        let Agreed {
            lists,
            verdicts,
            records,
        } = self.agreed;
        let mut lines = vec![
            ("lists that agree".into(), lists, LEAST_LISTS),
            (
                "other list if every mark were 0".into(),
                self.other_with_zeros,
                1,
            ),
            (
                "other list if every mark were 1".into(),
                self.other_with_ones,
                1,
            ),
            ("other list either way".into(), self.other_with_either, 1),
            ("verdicts that agree".into(), verdicts, 1),
        ];
        for met in Met::ALL {
            let count = self.met.get(&met).copied().unwrap_or(0);
            lines.push((met.to_string(), count, 1));
        }
        lines.push(("first records that agree".into(), records, LEAST_RECORDS));
        for order in Order::ALL {
            let count = self.missed.get(&order).copied().unwrap_or(0);
            lines.push((format!("missed by fixed shares, {order}"), count, 1));
        }
        let either = "missed by fixed shares in either order";
        lines.push((either.into(), self.missed_by_either, 1));
        lines.extend([
            ("upgraded: lists that agree".into(), self.upgraded.lists, 1),
            (
                "upgraded: verdicts that agree".into(),
                self.upgraded.verdicts,
                1,
            ),
            (
                "upgraded: first records that agree".into(),
                self.upgraded.records,
                1,
            ),
        ]);
        lines
    }
}

impl Add for Agreed {
    type Output = Agreed;

    fn add(self, other: Agreed) -> Agreed {
        Agreed {
            lists: self.lists + other.lists,
            verdicts: self.verdicts + other.verdicts,
            records: self.records + other.records,
        }
    }
}

impl Add for Mixed {
    type Output = Mixed;

    /// Both strands together.
    fn add(self, other: Mixed) -> Mixed {
        Mixed {
            tables: self.tables + other.tables,
            passed_over: self.passed_over + other.passed_over,
            differed: self.differed + other.differed,
            agreed: self.agreed + other.agreed,
            upgraded: self.upgraded + other.upgraded,
            other_with_zeros: self.other_with_zeros + other.other_with_zeros,
            other_with_ones: self.other_with_ones + other.other_with_ones,
            other_with_either: self.other_with_either + other.other_with_either,
            met: together(self.met, other.met),
            missed: together(self.missed, other.missed),
            missed_by_either: self.missed_by_either + other.missed_by_either,
        }
    }
}

/// Whether two lists have the same sets.
fn same_sets(one: &[Minimal], other: &[Minimal]) -> bool {
    let sets = |list: &[Minimal]| list.iter().map(|minimal| minimal.set).collect::<Vec<_>>();
    sets(one) == sets(other)
}

/// The wallet with these marks in the place of its own.
fn with_marks(random: &mut Random, wallet: &Wallet, marks: Marks) -> Wallet {
    let mut wallet = wallet.clone();
    marks.give(random, &mut wallet.records);
    wallet
}

/// A record that derives the query of a wallet, if one is found.
fn grown_record(random: &mut Random, wallet: &Wallet) -> Option<Vec<Number>> {
    let policy = Policy::new(wallet.records.clone());
    grown(random, &policy, wallet.query)
}

/// Whether fixed shares in this order would give another record than the first. If
/// it takes too long to know, it is not counted.
fn misses(wallet: &Wallet, sides: &Sides, set: u32, first: &First, order: Order) -> bool {
    let asked = wallet.query.read().expect("a valid query");
    let shared = shares::record(STEPS, &sides.table(), asked, set, order);
    shared.is_some_and(|shared| shared != first.witness.record())
}
