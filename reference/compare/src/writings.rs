//! Counts of what the writing call was compared on.

use std::collections::BTreeMap;

use reference::derivation::NODE;
use reference::generate::listings::{Listing, Source};
use reference::listing::Minimal;
use reference::patience::Patience;
use reference::random::Random;
use reference::records::Records;
use reference::table::Table;
use reference::writing::{first_within, write, First};
use reference::{Number, Refusal};

use crate::buffers::{Row, Size};
use crate::lists::expected;
use crate::owners::Automata;
use crate::relations::Relation;
use crate::report::{line, listed, outcome, Outcome, PRINTED};
use crate::traits::Trait;
use crate::{library_query, same_refusal};

/// So many writings must be compared at the least.
const LEAST: u64 = 50_000;
/// The answers that the call can give, in the order of the checks; 0 stands for a
/// record that is written.
const ANSWERS: [u32; 12] = [0, 1, 2, 3, 4, 5, 6, 7, 17, 8, 15, 16];
/// A set whose first record takes the reference more steps is given up.
const STEPS: u64 = 100_000;
/// One writing in so many may be left without an answer of the reference.
const UNANSWERED: u64 = 100;
/// Of the list of a shape or a net, which may be very long, so many sets are
/// asked for at most.
const SETS: usize = 12;
/// A buffer has so many cells at most.
const MOST_CELLS: usize = 200_000;
/// The buffers from which one is drawn: most of them hold a record.
const LENT: [Size; 8] = [
    Size::Empty,
    Size::One,
    Size::OneTooFew,
    Size::JustEnough,
    Size::JustEnough,
    Size::More,
    Size::More,
    Size::More,
];

/// What a writing call gives back: its answer, and the cells after it.
type Answered = (Result<usize, Refusal>, Row<Number>);

/// What a writing call is given, but for its buffer; and what the reference
/// makes of it.
struct Asked<'a> {
    listing: &'a Listing,
    set: u32,
    /// What the set is to the list, if the table and the query are accepted.
    relation: Option<Relation>,
    /// The first record of the set, if it has one, or why it is refused.
    first: Result<Option<First>, Refusal>,
}

/// What has been counted so far. Answers are counted where the two sides
/// agree; a record that is written counts under number 0.
pub struct Writings {
    seed: u64,
    agreed: u64,
    differed: u64,
    /// Listings whose list takes the reference too long.
    passed_over: u64,
    /// Listed sets whose first record takes it too long.
    given_up: u64,
    answers: BTreeMap<u32, u64>,
    relations: BTreeMap<Relation, u64>,
    sizes: BTreeMap<(Size, u32), u64>,
    sources: BTreeMap<Source, u64>,
    traits: BTreeMap<Trait, u64>,
    automata: Automata,
    /// Written records that the verifier accepts with just the set, and others.
    proved: u64,
    unproved: u64,
}

impl Writings {
    /// Nothing counted yet, in a run with this seed.
    pub fn new(seed: u64) -> Writings {
        Writings {
            seed,
            agreed: 0,
            differed: 0,
            passed_over: 0,
            given_up: 0,
            answers: BTreeMap::new(),
            relations: BTreeMap::new(),
            sizes: BTreeMap::new(),
            sources: BTreeMap::new(),
            traits: BTreeMap::new(),
            automata: Automata::default(),
            proved: 0,
            unproved: 0,
        }
    }

    /// How many writings have been made, those included that the reference
    /// does not answer.
    pub fn made(&self) -> u64 {
        self.agreed + self.differed + self.passed_over + self.given_up
    }

    /// Makes the writing call on both sides for sets of a listing, each with a
    /// buffer of every size, or of one.
    pub fn compare(&mut self, random: &mut Random, listing: &Listing, every_size: bool) {
        self.automata.count(&listing.table);
        match expected(listing) {
            None => self.passed_over += 1,
            Some(Err(refusal)) => {
                let asked = Asked {
                    listing,
                    set: random.bits() as u32 >> random.below(32),
                    relation: None,
                    first: Err(refusal),
                };
                self.ask(random, &asked, every_size);
            }
            Some(Ok(sets)) => {
                for set in chosen(random, listing, &sets) {
                    self.compare_set(random, listing, &sets, set, every_size);
                }
            }
        }
    }

    /// The same for one set of a listing with these minimal sets.
    fn compare_set(
        &mut self,
        random: &mut Random,
        listing: &Listing,
        sets: &[Minimal],
        set: u32,
        every_size: bool,
    ) {
        let relation = Relation::of(set, credentials(listing), sets);
        let first = match relation {
            Relation::Listed => first(listing, set).map(Some),
            _ => Some(None),
        };
        let Some(first) = first else {
            self.given_up += 1;
            return;
        };
        let asked = Asked {
            listing,
            set,
            relation: Some(relation),
            first: Ok(first),
        };
        self.ask(random, &asked, every_size);
    }

    /// Makes the writing call on both sides.
    fn ask(&mut self, random: &mut Random, asked: &Asked, every_size: bool) {
        let needed = match &asked.first {
            Ok(Some(first)) => NODE as u64 * first.witness.nodes(),
            _ => random.below(8) as u64,
        };
        let needed = usize::try_from(needed).unwrap_or(MOST_CELLS);
        let one = [*random.pick(&LENT)];
        let sizes = if every_size { &Size::ALL[..] } else { &one };
        for &size in sizes {
            let cells = size.cells(random, needed).min(MOST_CELLS);
            let mut library = library_answer(asked, cells);
            let reference = reference_answer(asked, cells);
            match library == reference {
                true => self.count(asked, size, &reference),
                false => self.count_difference(asked, &library, &reference),
            }
            if let Ok(length) = library.0 {
                self.ask_verifier(asked, &library.1.buffer()[..length]);
            }
        }
    }

    /// Counts an answer that both sides give.
    fn count(&mut self, asked: &Asked, size: Size, (answer, _): &Answered) {
        self.agreed += 1;
        let number = answer.as_ref().err().map_or(0, |refusal| refusal.number);
        *self.answers.entry(number).or_default() += 1;
        *self.sizes.entry((size, number)).or_default() += 1;
        *self.sources.entry(asked.listing.source).or_default() += 1;
        if let (15, Some(relation)) = (number, asked.relation) {
            *self.relations.entry(relation).or_default() += 1;
        }
        if let (Ok(_), Ok(Some(first))) = (answer, &asked.first) {
            for quality in Trait::of(asked.listing, asked.set, first) {
                *self.traits.entry(quality).or_default() += 1;
            }
        }
    }

    /// Whether the verifier accepts a written record with just the set.
    fn ask_verifier(&mut self, asked: &Asked, record: &[Number]) {
        let query = library_query(asked.listing.query);
        let verdict = bwlchareg::verify(&asked.listing.table, query, record);
        if verdict == Ok(asked.set) {
            self.proved += 1;
            return;
        }
        self.unproved += 1;
        if self.unproved <= PRINTED {
            println!("the verifier's word on a written record: {verdict:?}");
            print_asked(asked);
            println!("  record of {}", listed(record));
        }
    }

    /// Counts two answers that differ, and prints what is needed to look into
    /// the difference.
    fn count_difference(&mut self, asked: &Asked, library: &Answered, reference: &Answered) {
        self.differed += 1;
        if self.differed <= PRINTED {
            println!("difference, writing call:");
            println!("  seed {}, writing {} of the run", self.seed, self.made());
            print_asked(asked);
            println!("  library: {}", words(library));
            println!("  reference: {}", words(reference));
        }
    }

    /// Prints the counts; tells how many passed and failed.
    pub fn report(&self) -> Outcome {
        println!("writings {}", self.made());
        println!(
            "passed over for their many derivations {}",
            self.passed_over
        );
        println!("given up for their many records {}", self.given_up);
        let tests = self.lines();
        let mut too_few = 0;
        for (what, count, least) in &tests {
            too_few += line(what, *count, *least);
        }
        println!("counts that are too low {too_few} of {}", tests.len());
        println!("differences {}", self.differed);
        println!("differences with the verifier's word {}", self.unproved);
        Outcome {
            passed: self.agreed + self.proved + tests.len() as u64 - too_few,
            failed: self.differed + self.unproved + too_few,
        }
    }

    /// Every count, what it is of, and how great it must be.
    fn lines(&self) -> Vec<(String, Option<u64>, u64)> {
        let answered = self.agreed + self.differed;
        let most = self.made() - self.made() / UNANSWERED;
        let mut lines = vec![
            ("writings that agree".into(), Some(self.agreed), LEAST),
            ("answered by the reference".into(), Some(answered), most),
        ];
        lines.extend(self.automata.lines());
        for number in ANSWERS {
            let count = self.answers.get(&number).copied();
            lines.push((outcome(number), count, 1));
        }
        for relation in Relation::UNLISTED {
            let count = self.relations.get(&relation).copied();
            lines.push((format!("refused 15: {relation}"), count, 1));
        }
        for size in Size::ALL {
            for &number in answers(size) {
                let count = self.sizes.get(&(size, number)).copied();
                lines.push((format!("{size}: {}", outcome(number)), count, 1));
            }
        }
        for source in Source::all() {
            let count = self.sources.get(&source).copied();
            lines.push((format!("{source}"), count, 1));
        }
        for quality in Trait::all() {
            let count = self.traits.get(&quality).copied();
            lines.push((format!("written: {quality}"), count, quality.least()));
        }
        let proved = "written, and accepted with just the set";
        lines.push((proved.into(), Some(self.proved), 1));
        lines
    }
}

/// The answers that must have come with such a buffer.
fn answers(size: Size) -> &'static [u32] {
    match size {
        Size::Empty | Size::One => &[1, 2, 3, 4, 5, 6, 7, 17, 8, 15, 16],
        Size::OneTooFew => &[15, 16],
        Size::JustEnough => &[0, 15],
        Size::More => &[0, 1, 2, 3, 4, 5, 6, 7, 17, 8, 15],
    }
}

/// The sets of a listing for which a record is asked: those of the list, and one
/// or all sorts of others.
fn chosen(random: &mut Random, listing: &Listing, sets: &[Minimal]) -> Vec<u32> {
    let (listed, others) = match listing.source {
        Source::Fixed => (SETS, Relation::UNLISTED.len()),
        Source::Shaped(_) | Source::Net => (SETS, 1),
        _ => (sets.len(), 1),
    };
    let mut chosen: Vec<u32> = sets.iter().map(|minimal| minimal.set).collect();
    random.shuffle(&mut chosen);
    chosen.truncate(listed);
    let mut unlisted = Relation::UNLISTED;
    random.shuffle(&mut unlisted);
    for relation in &unlisted[..others] {
        chosen.push(relation.draw(random, credentials(listing), sets));
    }
    chosen
}

/// How many credentials the table of a listing has, which is an accepted one.
fn credentials(listing: &Listing) -> u32 {
    let records = Records::read(&listing.table).expect("an accepted table");
    u32::from(records.head().credentials)
}

/// The first record of a listed set, unless it takes too long.
pub fn first(listing: &Listing, set: u32) -> Option<First> {
    let table = Table::read(&listing.table).expect("an accepted table");
    let asked = listing.query.read().expect("a valid query");
    first_within(Patience::new(STEPS), &table, asked, set)
}

/// The library's answer with a buffer of so many cells.
fn library_answer(asked: &Asked, cells: usize) -> Answered {
    let mut row = Row::new(cells);
    let query = library_query(asked.listing.query);
    let answer = bwlchareg::write(&asked.listing.table, query, asked.set, row.buffer());
    (answer.map_err(same_refusal), row)
}

/// The reference's answer with a buffer of so many cells.
fn reference_answer(asked: &Asked, cells: usize) -> Answered {
    let mut row = Row::new(cells);
    let answer = match &asked.first {
        Ok(first) => write(first.as_ref(), row.buffer()),
        Err(refusal) => Err(*refusal),
    };
    (answer, row)
}

/// Prints what a call was given.
fn print_asked(asked: &Asked) {
    println!("  table of {}", listed(&asked.listing.table));
    println!("  query: {:?}, set: {}", asked.listing.query, asked.set);
}

/// An answer in words, with the cells.
fn words((answer, row): &Answered) -> String {
    match answer {
        Ok(length) => format!("{length} numbers, cells {row}"),
        Err(refusal) => {
            let Refusal { number, position } = refusal;
            format!("refused {number} at {position}, cells {row}")
        }
    }
}
