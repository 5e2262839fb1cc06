//! The constraints of a text: which lines are about which automaton, its
//! states, and its edges.

use std::collections::BTreeMap;

use bwlchareg::Number;

use crate::limits::{AUTOMATA, EDGES};
use crate::mistake::{quoted, Mistake, Place};
use crate::parse::reader::Word;
use crate::parse::statement::StateWord;
use crate::parse::states::States;
use crate::table::{Automaton, Edge, Label, Mark, StateSet};

/// The constraints so far. States are known by their ranks.
#[derive(Clone, Debug, Default)]
pub struct Constraints {
    all: Vec<Constraint>,
    /// The edges and their lines.
    pub edges: Vec<(Edge, usize)>,
    /// What the next line is about, if it is a constraint's.
    open: Option<Open>,
}

/// A constraint so far.
#[derive(Clone, Debug)]
struct Constraint {
    name: Word,
    /// What it demands, and the line on which that stands.
    mark: Option<(Mark, usize)>,
    start: Option<Set>,
    accept: Option<Set>,
    states: States,
}

/// A set of states, and the line on which it stands.
#[derive(Clone, Copy, Debug)]
struct Set {
    states: StateSet,
    line: usize,
}

/// The constraint that lines are about, by index.
#[derive(Clone, Copy, Debug)]
struct Open {
    index: usize,
    /// Whether `start`, `accept` and what it demands may still come.
    head: bool,
}

/// Which of an automaton's two sets.
#[derive(Clone, Copy, Debug, PartialEq, Eq)]
pub enum Which {
    /// The starting states.
    Start,
    /// The accepting states.
    Accept,
}

impl Constraints {
    /// A line that is about no constraint.
    pub fn close(&mut self) {
        self.open = None;
    }

    /// `constraint c`
    pub fn add(&mut self, name: &Word, place: Place) -> Result<(), Mistake> {
        if let Some(index) = self.index(name)? {
            let first = self.all[index].name.place.line;
            return Err(name.place.mistake(
                format_args!(
                    "there is already a constraint {} on line {first}",
                    quoted(&name.text)
                ),
                "write another name, or put further edges below `edges of`",
            ));
        }
        let index = self.all.len();
        if index == AUTOMATA {
            return Err(place.mistake(
                format_args!("{} would be the 9th constraint", quoted(&name.text)),
                "write at most 8",
            ));
        }
        self.all.push(Constraint {
            name: name.clone(),
            mark: None,
            start: None,
            accept: None,
            states: States::default(),
        });
        self.open = Some(Open { index, head: true });
        Ok(())
    }

    /// `edges of c`
    pub fn go_on(&mut self, name: &Word) -> Result<(), Mistake> {
        let index = self.index(name)?.ok_or_else(|| {
            name.place.mistake(
                format_args!("there is no constraint {} above", quoted(&name.text)),
                "write the name of one, or its `constraint` line above",
            )
        })?;
        self.open = Some(Open { index, head: false });
        Ok(())
    }

    /// `every word` or `some word`
    pub fn demand(&mut self, mark: Mark, place: Place) -> Result<(), Mistake> {
        let text = quoted(mark.text());
        let open = self.open.ok_or_else(|| outside(place, &text))?;
        let own = &mut self.all[open.index].mark;
        if let Some((earlier, line)) = own {
            let earlier = quoted(earlier.text());
            return Err(place.mistake(
                format_args!("{earlier} is already on line {line}"),
                "leave out one of the two lines",
            ));
        }
        if !open.head {
            return Err(below_edges(place, &text));
        }
        *own = Some((mark, place.line));
        Ok(())
    }

    /// `start ...` or `accept ...`
    pub fn set(&mut self, which: Which, states: &[StateWord], place: Place) -> Result<(), Mistake> {
        let word = match which {
            Which::Start => "`start`",
            Which::Accept => "`accept`",
        };
        let open = self.open.ok_or_else(|| outside(place, word))?;
        let constraint = &mut self.all[open.index];
        let own = match which {
            Which::Start => &mut constraint.start,
            Which::Accept => &mut constraint.accept,
        };
        if let Some(Set { line, .. }) = own {
            return Err(place.mistake(
                format_args!("{word} is already on line {line}"),
                "write all its states there",
            ));
        }
        if !open.head {
            return Err(below_edges(place, word));
        }
        *own = Some(Set {
            states: constraint.states.set(states)?,
            line: place.line,
        });
        Ok(())
    }

    /// `0 -- A.r --> 1`; the label has been read already.
    pub fn edge(
        &mut self,
        from: &StateWord,
        label: Label,
        to: &StateWord,
        place: Place,
    ) -> Result<(), Mistake> {
        let open = self.open.ok_or_else(|| outside(place, "an edge"))?;
        if self.edges.len() == EDGES {
            return Err(place.mistake("this would be the 129th edge", "write at most 128"));
        }
        self.open = Some(Open {
            head: false,
            ..open
        });
        let states = &mut self.all[open.index].states;
        let edge = Edge {
            automaton: open.index as Number + 1,
            from: states.rank(from)?,
            label,
            to: states.rank(to)?,
        };
        self.edges.push((edge, place.line));
        Ok(())
    }

    /// The number of the constraint with a name.
    pub fn number(&self, name: &Word) -> Result<Option<Number>, Mistake> {
        Ok(self.index(name)?.map(|index| index as Number + 1))
    }

    /// The automata, with the numbers of their states.
    pub fn automata(&self) -> Vec<Automaton> {
        let automaton = |constraint: &Constraint| {
            let numbered = |set: Set| constraint.states.numbered(set.states) as Number;
            Automaton {
                start: constraint.start.map_or(0, numbered),
                accept: constraint.accept.map_or(0, numbered),
                mark: constraint.mark.map_or(Mark::default(), |(mark, _)| mark),
            }
        };
        self.all.iter().map(automaton).collect()
    }

    /// The number of each state of an automaton, in the order of the ranks.
    pub fn states(&self, automaton: Number) -> Vec<Number> {
        self.all[automaton as usize - 1].states.numbers()
    }

    /// The line of each constraint.
    pub fn lines(&self) -> Vec<usize> {
        let lines = self.all.iter().map(|constraint| constraint.name.place.line);
        lines.collect()
    }

    /// The constraints' names, by number.
    pub fn names(&self) -> BTreeMap<Number, String> {
        let names = self.all.iter().map(|own| own.name.text.clone());
        (1..).zip(names).collect()
    }

    /// The states' names, by automaton and number.
    pub fn state_names(&self) -> BTreeMap<(Number, Number), String> {
        let mut names = BTreeMap::new();
        for (automaton, constraint) in (1..).zip(&self.all) {
            let words = constraint.states.words();
            names.extend(words.map(|(number, word)| ((automaton, number), word)));
        }
        names
    }

    fn index(&self, name: &Word) -> Result<Option<usize>, Mistake> {
        let mut names = self.all.iter().map(|constraint| &constraint.name.text);
        name.check_spelling(names.clone())?;
        Ok(names.position(|known| *known == name.text))
    }
}

/// A line about the whole of a constraint, where its edges have begun.
fn below_edges(place: Place, what: &str) -> Mistake {
    place.mistake(
        format_args!("{what} comes after an edge or `edges of`"),
        "write it right below `constraint`, above the edges",
    )
}

/// A line that belongs to a constraint, outside of any.
fn outside(place: Place, what: &str) -> Mistake {
    place.mistake(
        format_args!("{what} is outside any constraint"),
        "write a `constraint` line above",
    )
}
