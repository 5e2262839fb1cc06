//! The principals and role names of a text: each word is one or the other, and
//! has a number, given by a line or the least that is free.

use std::collections::BTreeMap;

use bwlchareg::Number;

use crate::limits::NAMES;
use crate::mistake::{quoted, Mistake, Place};
use crate::parse::reader::{Numeral, Word};
use crate::parse::statement::RoleWords;
use crate::table::Role;

/// What a word is.
#[derive(Clone, Copy, Debug, PartialEq, Eq)]
pub enum Sort {
    /// A principal.
    Principal,
    /// A role name.
    Name,
}

impl Sort {
    /// One such word, in words.
    pub fn one(self) -> &'static str {
        match self {
            Sort::Principal => "a principal",
            Sort::Name => "a role name",
        }
    }

    /// Several such words, in words.
    pub fn many(self) -> &'static str {
        match self {
            Sort::Principal => "principals",
            Sort::Name => "role names",
        }
    }

    /// What a word is that is not this.
    pub fn other(self) -> Sort {
        match self {
            Sort::Principal => Sort::Name,
            Sort::Name => Sort::Principal,
        }
    }
}

/// The words of a text so far. Until the text has been read to its end, a word
/// is known by its rank: how many words of its sort first stand before it.
#[derive(Clone, Debug, Default)]
pub struct Vocabulary {
    /// The sort and rank of every word, and where it first stands.
    known: BTreeMap<String, (Sort, Number, Place)>,
    principals: Vec<Entry>,
    names: Vec<Entry>,
}

/// A word, and the number that a line gives it.
#[derive(Clone, Debug)]
struct Entry {
    word: String,
    given: Option<Numeral>,
    /// Whether a line other than the query has it.
    used: bool,
}

impl Vocabulary {
    /// The rank of a word of this sort.
    pub fn rank(&mut self, sort: Sort, word: &Word) -> Result<Number, Mistake> {
        let rank = self.asked_rank((sort, word))?;
        self.entries_mut(sort)[rank as usize].used = true;
        Ok(rank)
    }

    /// The same for a word of the query, which another line must have too.
    pub fn asked_rank(&mut self, (sort, word): (Sort, &Word)) -> Result<Number, Mistake> {
        if let Some(&(known, rank, first)) = self.known.get(&word.text) {
            if known == sort {
                return Ok(rank);
            }
            let Place { line, column } = first;
            return Err(word.place.mistake(
                format_args!(
                    "{} is {} here, but {} on line {line}, column {column}",
                    quoted(&word.text),
                    sort.one(),
                    known.one()
                ),
                "write another word for one of them",
            ));
        }
        word.check_spelling(self.known.keys())?;
        let entries = self.entries_mut(sort);
        let rank = entries.len() as Number;
        if rank == NAMES {
            return Err(word.place.mistake(
                format_args!("{} would be one of 65 {}", quoted(&word.text), sort.many()),
                "write at most 64",
            ));
        }
        entries.push(Entry {
            word: word.text.clone(),
            given: None,
            used: false,
        });
        let entry = (sort, rank, word.place);
        self.known.insert(word.text.clone(), entry);
        Ok(rank)
    }

    /// The ranks of a role's owner and name.
    pub fn role(&mut self, role: &RoleWords) -> Result<Role, Mistake> {
        Ok(Role {
            owner: self.rank(Sort::Principal, &role.owner)?,
            name: self.rank(Sort::Name, &role.name)?,
        })
    }

    /// Gives a word its number.
    pub fn give(&mut self, sort: Sort, word: &Word, number: Numeral) -> Result<(), Mistake> {
        let rank = self.rank(sort, word)? as usize;
        let entries = self.entries_mut(sort);
        if let Some(Numeral { value, place }) = entries[rank].given {
            return Err(word.place.mistake(
                format_args!(
                    "{} already has the number {value}, given on line {}, column {}",
                    quoted(&word.text),
                    place.line,
                    place.column
                ),
                "leave out one of them",
            ));
        }
        let same = |given: &Numeral| given.value == number.value;
        let other = entries
            .iter()
            .find(|entry| entry.given.as_ref().is_some_and(same));
        if let Some(other) = other {
            return Err(number.place.mistake(
                format_args!(
                    "the number {} already belongs to {}",
                    number.value,
                    quoted(&other.word)
                ),
                format_args!("write another number for {}", quoted(&word.text)),
            ));
        }
        entries[rank].given = Some(number);
        Ok(())
    }

    /// The number of each word of a sort, in the order of the ranks: the given
    /// one, or else the least that is free.
    pub fn numbers(&self, sort: Sort) -> Vec<Number> {
        let entries = self.entries(sort);
        let given = |number: Number| {
            let mut all = entries.iter().filter_map(|entry| entry.given);
            all.any(|given| given.value == number)
        };
        let mut free = (1..=NAMES).filter(|&number| !given(number));
        let number = |entry: &Entry| match entry.given {
            Some(number) => number.value,
            // There are as many numbers as words at most.
            None => free.next().unwrap_or(NAMES),
        };
        entries.iter().map(number).collect()
    }

    /// The names of the numbers of a sort, but for words that only the query
    /// has.
    pub fn named(&self, sort: Sort) -> BTreeMap<Number, String> {
        let all = self.numbers(sort).into_iter().zip(self.entries(sort));
        let used = all.filter(|(_, entry)| entry.used);
        used.map(|(number, entry)| (number, entry.word.clone()))
            .collect()
    }

    /// A role whose owner and name are ranks, in words.
    pub fn said(&self, role: Role) -> String {
        let word = |entries: &[Entry], rank: Number| entries[rank as usize].word.clone();
        let owner = word(&self.principals, role.owner);
        format!("{owner}.{}", word(&self.names, role.name))
    }

    fn entries(&self, sort: Sort) -> &Vec<Entry> {
        match sort {
            Sort::Principal => &self.principals,
            Sort::Name => &self.names,
        }
    }

    fn entries_mut(&mut self, sort: Sort) -> &mut Vec<Entry> {
        match sort {
            Sort::Principal => &mut self.principals,
            Sort::Name => &mut self.names,
        }
    }
}
