//! Counts of what the table call and the query call were compared on.

use std::collections::BTreeMap;

use reference::generate::Place;

use crate::cases::Case;
use crate::owners::Automata;
use crate::report::{line, listed, outcome, Outcome, PRINTED};
use crate::Answer;

/// One of the two calls.
#[derive(Clone, Copy, Debug, PartialEq, Eq, PartialOrd, Ord)]
pub enum Call {
    /// The call that checks a table.
    Table,
    /// The call that checks a table and a query.
    Query,
}

impl Call {
    /// The call in words, and the answers that it can give, in the order of the
    /// checks; 0 stands for an accepted input.
    fn described(self) -> (&'static str, &'static [u32]) {
        match self {
            Call::Table => ("table call", &[0, 1, 2, 3, 4, 5, 6, 7, 17]),
            Call::Query => ("query call", &[0, 1, 2, 3, 4, 5, 6, 7, 17, 8]),
        }
    }
}

/// What has been counted so far. Answers are counted where the two sides
/// agree; an accepted input counts under number 0.
pub struct Tally {
    /// How many tables were compared.
    pub tables: u64,
    seed: u64,
    agreed: u64,
    differed: u64,
    answers: BTreeMap<(Call, u32), u64>,
    places: BTreeMap<(Place, u32), u64>,
    automata: Automata,
}

impl Tally {
    /// Nothing counted yet, in a run with this seed.
    pub fn new(seed: u64) -> Tally {
        Tally {
            tables: 0,
            seed,
            agreed: 0,
            differed: 0,
            answers: BTreeMap::new(),
            places: BTreeMap::new(),
            automata: Automata::default(),
        }
    }

    /// Counts the two answers to one call.
    pub fn count(&mut self, call: Call, case: &Case, library: Answer, reference: Answer) {
        if library != reference {
            self.differed += 1;
            if self.differed <= PRINTED {
                self.print_difference(call, case, library, reference);
            }
            return;
        }
        self.agreed += 1;
        let number = number(reference);
        *self.answers.entry((call, number)).or_default() += 1;
        let place = match call {
            Call::Table => case.place,
            Call::Query => case.query_place.filter(|_| number == 8),
        };
        if let Some(place) = place {
            *self.places.entry((place, number)).or_default() += 1;
        }
        if call == Call::Table && number == 0 {
            self.automata.count(&case.table);
        }
    }

    /// Prints what is needed to look into a difference.
    fn print_difference(&self, call: Call, case: &Case, library: Answer, reference: Answer) {
        println!("difference, {}:", call.described().0);
        println!("  seed {}, table {} of the run", self.seed, self.tables);
        println!("  table of {}", listed(&case.table));
        if call == Call::Query {
            println!("  query: {:?}", case.query);
        }
        println!("  library: {}", words(library));
        println!("  reference: {}", words(reference));
    }

    /// Prints the counts; tells how many passed and failed.
    pub fn report(&self) -> Outcome {
        println!("tables {}", self.tables);
        let too_few = self.report_answers(Call::Table)
            + self.report_answers(Call::Query)
            + self.report_places()
            + self.report_automata();
        let tests = self.tests();
        println!("counts that are too low {too_few} of {tests}");
        println!("differences {}", self.differed);
        Outcome {
            passed: self.agreed + tests - too_few,
            failed: self.differed + too_few,
        }
    }

    /// How many counts must not be too low.
    fn tests(&self) -> u64 {
        let calls = [Call::Table, Call::Query].map(|call| call.described().1.len());
        let places = Place::all().into_iter().map(|place| expected(place).len());
        let automata = self.automata.lines().len();
        (calls.into_iter().sum::<usize>() + places.sum::<usize>() + automata) as u64
    }

    /// Prints how often a call gave each answer; tells how many never came.
    fn report_answers(&self, call: Call) -> u64 {
        let (name, answers) = call.described();
        println!("answers of the {name}");
        let mut zeros = 0;
        for &number in answers {
            let count = self.answers.get(&(call, number)).copied();
            zeros += line(&outcome(number), count, 1);
        }
        zeros
    }

    /// Prints what came of damage at each place; tells how many never came.
    fn report_places(&self) -> u64 {
        println!("tables and queries damaged at one place");
        let mut zeros = 0;
        for place in Place::all() {
            for &number in expected(place) {
                let count = self.places.get(&(place, number)).copied();
                zeros += line(&format!("{place}: {}", outcome(number)), count, 1);
            }
        }
        zeros
    }

    /// Prints how many automata the accepted tables have; tells how many of the
    /// counts are too low.
    fn report_automata(&self) -> u64 {
        println!("in accepted tables");
        let lines = self.automata.lines().into_iter();
        lines
            .map(|(what, count, least)| line(&what, count, least))
            .sum()
    }
}

/// The answers that damage at a place must have led to. Damage to a set of
/// states is always accepted.
fn expected(place: Place) -> &'static [u32] {
    match place.refusals() {
        [] => &[0],
        refusals => refusals,
    }
}

/// 0 for an accepted input, else the refusal's number.
fn number(answer: Answer) -> u32 {
    answer.err().map_or(0, |refusal| refusal.number)
}

/// An answer in words.
fn words(answer: Answer) -> String {
    match answer {
        Ok(()) => "accepted".into(),
        Err(refusal) => format!("refused {} at {}", refusal.number, refusal.position),
    }
}
