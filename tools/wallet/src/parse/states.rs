//! The states of one constraint: a number names itself, and a word gets the
//! least number that is not named and free.

use bwlchareg::Number;

use crate::limits::STATES;
use crate::mistake::{quoted, Mistake, Place};
use crate::parse::statement::StateWord;
use crate::table::StateSet;

/// The states of a constraint so far. Until the text has been read to its end,
/// a state is known by its rank: how many of them first stand before it.
#[derive(Clone, Debug, Default)]
pub struct States {
    all: Vec<State>,
}

/// A state as it is named.
#[derive(Clone, Debug, PartialEq, Eq)]
enum State {
    Number(Number),
    Word(String),
}

impl State {
    fn word(&self) -> Option<&String> {
        match self {
            State::Word(word) => Some(word),
            State::Number(_) => None,
        }
    }
}

impl States {
    /// The rank of a state.
    pub fn rank(&mut self, word: &StateWord) -> Result<Number, Mistake> {
        let state = match word {
            StateWord::Number(number) => State::Number(number.value),
            StateWord::Word(word) => State::Word(word.text.clone()),
        };
        if let Some(rank) = self.all.iter().position(|known| *known == state) {
            return Ok(rank as Number);
        }
        if let StateWord::Word(word) = word {
            word.check_spelling(self.all.iter().filter_map(State::word))?;
        }
        if self.all.len() == STATES as usize {
            let text = quoted(&word.text());
            return Err(word.place().mistake(
                format_args!("{text} would be the 17th state of its constraint"),
                "write at most 16",
            ));
        }
        self.all.push(state);
        Ok(self.all.len() as Number - 1)
    }

    /// The set of some states, by rank; each stands there once.
    pub fn set(&mut self, words: &[StateWord]) -> Result<StateSet, Mistake> {
        let mut set = 0;
        for word in words {
            let bit = 1 << self.rank(word)?;
            if set & bit != 0 {
                return Err(word.place().mistake(
                    format_args!("state {} is on this line twice", quoted(&word.text())),
                    "leave out one of them",
                ));
            }
            set |= bit;
        }
        Ok(set)
    }

    /// The number of each state, in the order of the ranks.
    pub fn numbers(&self) -> Vec<Number> {
        let named = |number: Number| self.all.contains(&State::Number(number));
        let mut free = (0..STATES).filter(|&number| !named(number));
        let number = |state: &State| match state {
            State::Number(number) => *number,
            // There are as many numbers as states at most.
            State::Word(_) => free.next().unwrap_or(STATES - 1),
        };
        self.all.iter().map(number).collect()
    }

    /// The words among the states, with their numbers.
    pub fn words(&self) -> impl Iterator<Item = (Number, String)> + '_ {
        let states = self.numbers().into_iter().zip(&self.all);
        states.filter_map(|(number, state)| Some((number, state.word()?.clone())))
    }

    /// A set of ranks as a set of numbers.
    pub fn numbered(&self, ranks: StateSet) -> StateSet {
        let numbers = (0..).zip(self.numbers());
        let within = numbers.filter(|(rank, _)| ranks & (1 << rank) != 0);
        within.fold(0, |set, (_, number)| set | 1 << number)
    }
}

impl StateWord {
    fn place(&self) -> Place {
        match self {
            StateWord::Number(number) => number.place,
            StateWord::Word(word) => word.place,
        }
    }

    fn text(&self) -> String {
        match self {
            StateWord::Number(number) => number.value.to_string(),
            StateWord::Word(word) => word.text.clone(),
        }
    }
}
