//! Counts of what the listing call was compared on.

use std::collections::BTreeMap;
use std::ops::Add;

use reference::generate::listings::{Listing, Source};
use reference::listing::{minimal_sets_within, write, Minimal};
use reference::patience::Patience;
use reference::random::Random;
use reference::table::Table;
use reference::Refusal;

use crate::aspects::Aspect;
use crate::before::Before;
use crate::buffers::{Row, Size};
use crate::owners::Automata;
use crate::report::{line, listed, outcome, Outcome, PRINTED};
use crate::word::Word;
use crate::{library_query, same_refusal};

/// So many listings must be compared at the least.
const LEAST: u64 = 100_000;
/// The answers that the call can give, in the order of the checks; 0 stands for an
/// accepted list.
const ANSWERS: [u32; 12] = [0, 1, 2, 3, 4, 5, 6, 7, 17, 8, 9, 10];
/// The classes of lists by their count: what they are called, and the least.
const LENGTHS: [(&str, usize); 4] = [
    ("list of 1 set", 1),
    ("list of 2 sets", 2),
    ("list of 3 to 9 sets", 3),
    ("list of 10 sets and more", 10),
];
/// A listing that takes the reference more steps is passed over.
const STEPS: u64 = 1_000_000;
/// The aspects of one in so many listings are looked for.
const LOOKED_AT: u64 = 4;

/// What a listing call gives back: its answer, and the cells after it.
type Answered = (Result<usize, Refusal>, Row<u32>);
/// All minimal sets as the reference has them, or why it refuses the input.
pub type Expected = Result<Vec<Minimal>, Refusal>;

/// How long the reference may look for minimal sets.
pub fn patience() -> Patience {
    Patience::new(STEPS)
}

/// What has been counted so far. Answers are counted where the two sides
/// agree; an accepted list counts under number 0.
pub struct Lists {
    seed: u64,
    strand: u64,
    listings: u64,
    agreed: u64,
    differed: u64,
    passed_over: u64,
    answers: BTreeMap<u32, u64>,
    lengths: BTreeMap<&'static str, u64>,
    sizes: BTreeMap<(Size, u32), u64>,
    sources: BTreeMap<Source, u64>,
    aspects: BTreeMap<Aspect, u64>,
    automata: Automata,
    word: Word,
    before: Before,
}

impl Lists {
    /// Nothing counted yet, on this strand of a run with this seed.
    pub fn new(seed: u64, strand: u64) -> Lists {
        Lists {
            seed,
            strand,
            listings: 0,
            agreed: 0,
            differed: 0,
            passed_over: 0,
            answers: BTreeMap::new(),
            lengths: BTreeMap::new(),
            sizes: BTreeMap::new(),
            sources: BTreeMap::new(),
            aspects: BTreeMap::new(),
            automata: Automata::default(),
            word: Word::default(),
            before: Before::default(),
        }
    }

    /// Makes the listing call on both sides with a buffer of each size, and
    /// asks for the verifier's word.
    pub fn compare(&mut self, random: &mut Random, listing: &Listing, sizes: &[Size]) {
        self.listings += 1;
        self.automata.count(&listing.table);
        let Some(expected) = expected(listing) else {
            self.passed_over += 1;
            return;
        };
        let sets = expected.as_ref().map_or(0, Vec::len);
        for &size in sizes {
            let cells = size.cells(random, sets);
            let library = library_answer(listing, cells);
            let reference = reference_answer(&expected, cells);
            self.count(listing, size, library, reference);
        }
        if let Ok(sets) = expected {
            self.word.ask(random, listing, &sets);
            self.before.ask(listing, &sets);
            if self.listings.is_multiple_of(LOOKED_AT) || listing.source == Source::Fixed {
                for aspect in Aspect::of(listing, &sets) {
                    *self.aspects.entry(aspect).or_default() += 1;
                }
            }
        }
    }

    /// Counts the two answers to one call.
    fn count(&mut self, listing: &Listing, size: Size, library: Answered, reference: Answered) {
        if library != reference {
            self.differed += 1;
            if self.differed <= PRINTED {
                self.print_difference(listing, &library, &reference);
            }
            return;
        }
        self.agreed += 1;
        let number = match reference.0 {
            Ok(count) => {
                *self.lengths.entry(length(count)).or_default() += 1;
                0
            }
            Err(refusal) => refusal.number,
        };
        *self.answers.entry(number).or_default() += 1;
        *self.sizes.entry((size, number)).or_default() += 1;
        *self.sources.entry(listing.source).or_default() += 1;
    }

    /// Prints what is needed to look into a difference.
    fn print_difference(&self, listing: &Listing, library: &Answered, reference: &Answered) {
        println!("difference, listing call:");
        let place = format!("listing {} of strand {}", self.listings, self.strand);
        println!("  seed {}, {place}", self.seed);
        println!("  table of {}", listed(&listing.table));
        println!("  query: {:?}, cells: {}", listing.query, library.1.size());
        println!("  library: {}", words(library));
        println!("  reference: {}", words(reference));
    }

    /// Prints the counts; tells how many passed and failed.
    pub fn report(&self) -> Outcome {
        println!("listings {}", self.listings);
        println!(
            "passed over for their many derivations {}",
            self.passed_over
        );
        println!("records too long to write out {}", self.word.too_long);
        println!(
            "too many derivations under the rule before {}",
            self.before.unknown()
        );
        let tests = self.lines();
        let mut too_few = 0;
        for (what, count, least) in &tests {
            too_few += line(what, *count, *least);
        }
        println!("counts that are too low {too_few} of {}", tests.len());
        println!("differences {}", self.differed);
        println!("differences with the verifier's word {}", self.word.failed);
        println!("sets before that include none {}", self.before.failed);
        let (word, before) = (&self.word, &self.before);
        let words = word.proved + word.same + word.greater + word.rejected;
        Outcome {
            passed: self.agreed + words + before.passed() + tests.len() as u64 - too_few,
            failed: self.differed + word.failed + before.failed + too_few,
        }
    }

    /// Every count, what it is of, and how great it must be.
    fn lines(&self) -> Vec<(String, Option<u64>, u64)> {
        let mut lines = vec![("lists that agree".into(), Some(self.agreed), LEAST)];
        lines.extend(self.automata.lines());
        for number in ANSWERS {
            let count = self.answers.get(&number).copied();
            lines.push((outcome(number), count, 1));
        }
        for (what, _) in LENGTHS {
            let count = self.lengths.get(what).copied();
            lines.push((what.into(), count, 1));
        }
        for size in Size::ALL {
            for &number in answers(size) {
                let count = self.sizes.get(&(size, number)).copied();
                lines.push((format!("{size}: {}", outcome(number)), count, 1));
            }
        }
        for source in Source::all() {
            let count = self.sources.get(&source).copied();
            lines.push((format!("{source}"), count, 1));
        }
        for aspect in Aspect::all() {
            let count = self.aspects.get(&aspect).copied();
            lines.push((
                format!("one in {LOOKED_AT}: {aspect}"),
                count,
                aspect.least(),
            ));
        }
        let word = [
            ("listed set, proved by its record", self.word.proved),
            ("grown record, uses just a listed set", self.word.same),
            (
                "grown record, uses more than a listed set",
                self.word.greater,
            ),
            ("grown record, not accepted", self.word.rejected),
        ];
        lines.extend(word.map(|(what, count)| (what.into(), Some(count), 1)));
        lines.extend(self.before.lines());
        lines
    }
}

impl Add for Lists {
    type Output = Lists;

    /// Both strands together.
    fn add(self, other: Lists) -> Lists {
        Lists {
            seed: self.seed,
            strand: self.strand,
            listings: self.listings + other.listings,
            agreed: self.agreed + other.agreed,
            differed: self.differed + other.differed,
            passed_over: self.passed_over + other.passed_over,
            answers: together(self.answers, other.answers),
            lengths: together(self.lengths, other.lengths),
            sizes: together(self.sizes, other.sizes),
            sources: together(self.sources, other.sources),
            aspects: together(self.aspects, other.aspects),
            automata: self.automata + other.automata,
            word: self.word + other.word,
            before: self.before + other.before,
        }
    }
}

/// The counts of both strands.
pub fn together<Key: Ord>(
    mut one: BTreeMap<Key, u64>,
    other: BTreeMap<Key, u64>,
) -> BTreeMap<Key, u64> {
    for (key, count) in other {
        *one.entry(key).or_default() += count;
    }
    one
}

/// The answers that must have come with such a buffer; 0 stands for an accepted
/// list.
fn answers(size: Size) -> &'static [u32] {
    match size {
        Size::Empty => &[9, 10],
        Size::One => &[0, 9, 10],
        Size::OneTooFew => &[10],
        Size::JustEnough => &[0],
        Size::More => &[0, 1, 2, 3, 4, 5, 6, 7, 17, 8, 9],
    }
}

/// The class of a list with so many sets, at least one.
fn length(count: usize) -> &'static str {
    let classes = LENGTHS.into_iter().rev();
    let mut fitting = classes.filter(|&(_, least)| least <= count);
    fitting.next().map_or(LENGTHS[0].0, |(what, _)| what)
}

/// What the reference has to say, unless it takes too long.
pub fn expected(listing: &Listing) -> Option<Expected> {
    let table = match Table::read(&listing.table) {
        Ok(table) => table,
        Err(refusal) => return Some(Err(refusal)),
    };
    match listing.query.read() {
        Ok(asked) => minimal_sets_within(patience(), &table, asked).map(Ok),
        Err(refusal) => Some(Err(refusal)),
    }
}

/// The library's answer with a buffer of so many cells.
fn library_answer(listing: &Listing, cells: usize) -> Answered {
    let mut row = Row::new(cells);
    let query = library_query(listing.query);
    let answer = bwlchareg::list(&listing.table, query, row.buffer());
    (answer.map_err(same_refusal), row)
}

/// The reference's answer with a buffer of so many cells.
fn reference_answer(expected: &Expected, cells: usize) -> Answered {
    let mut row = Row::new(cells);
    let answer = match expected {
        Ok(sets) => write(sets, row.buffer()),
        Err(refusal) => Err(*refusal),
    };
    (answer, row)
}

/// An answer in words, with the cells.
fn words((answer, row): &Answered) -> String {
    match answer {
        Ok(count) => format!("{count} sets, cells {row}"),
        Err(refusal) => {
            let Refusal { number, position } = refusal;
            format!("refused {number} at {position}, cells {row}")
        }
    }
}
