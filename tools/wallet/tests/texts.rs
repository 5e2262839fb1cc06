//! Made-up texts: what is read is what they say, in their words and on their
//! lines, and it comes back from the text that is printed for it. A query in
//! words that no other line has is a mistake.

mod common;

use std::collections::BTreeMap;

use bwlchareg::Number;
use common::{assert_same, made_up, nameless};
use reference::random::Random;
use wallet::parse::parse;
use wallet::print::print;
use wallet::table::Mark;
use wallet::Wallet;

/// A text in the making, and what it says.
#[derive(Default)]
struct Text {
    lines: Vec<String>,
    /// Each credential's words, and its line.
    credentials: Vec<(String, usize)>,
    /// Each edge's words, and its line.
    edges: Vec<(String, usize)>,
    /// Each constraint's name, mark, starting states and accepting states.
    constraints: Vec<(String, Mark, Vec<String>, Vec<String>)>,
    query: Option<String>,
    /// The principals and the role names in the order in which they stand.
    principals: Vec<String>,
    names: Vec<String>,
    given: BTreeMap<String, Number>,
}

impl Text {
    fn new(random: &mut Random) -> Text {
        let mut text = Text::default();
        let constraints: Vec<String> = (0..random.below(5)).map(|n| format!("c{n}")).collect();
        let mut coming = constraints.clone();
        random.shuffle(&mut coming);
        for _ in 0..random.below(30) {
            match random.below(8) {
                0 => text.give_number(random),
                1 if text.query.is_none() => text.add_query(random),
                2 => text.lines.push("  # a comment: A.r <- B".to_string()),
                3 | 4 if !coming.is_empty() => {
                    let name = coming.pop().unwrap_or_default();
                    text.add_constraint(random, name);
                }
                _ if text.credentials.len() < 20 => text.add_credential(random, &constraints),
                _ => {}
            }
        }
        for name in coming {
            text.add_constraint(random, name);
        }
        text
    }

    fn principal(&mut self, random: &mut Random) -> String {
        noted(&mut self.principals, format!("A{}", random.below(9)))
    }

    fn name(&mut self, random: &mut Random) -> String {
        noted(&mut self.names, format!("r-{}", random.below(9)))
    }

    fn role(&mut self, random: &mut Random) -> String {
        let owner = self.principal(random);
        format!("{owner}.{}", self.name(random))
    }

    /// Gives a word a number, unless it has one or another word has that one.
    fn give_number(&mut self, random: &mut Random) {
        let number = random.between(1, 64);
        let (kind, sort) = *random.pick(&[("principals", "A"), ("names", "r-")]);
        let word = format!("{sort}{}", random.below(9));
        let same_sort = |other: &str| other.starts_with(sort);
        let mut given = self.given.iter();
        let taken = given.any(|(other, own)| *other == word || same_sort(other) && *own == number);
        if !taken {
            self.lines.push(format!("{kind} {word} = {number}"));
            match kind {
                "names" => noted(&mut self.names, word.clone()),
                _ => noted(&mut self.principals, word.clone()),
            };
            self.given.insert(word, number);
        }
    }

    fn add_query(&mut self, random: &mut Random) {
        let principal = self.principal(random);
        let query = format!("{principal} in {} within 3", self.role(random));
        self.lines.push(query.clone());
        self.query = Some(query);
    }

    /// The query's line, and its first word that no other line has.
    fn unknown(&self) -> Option<(usize, &str)> {
        let query = self.query.as_ref()?;
        let others = || self.lines.iter().filter(|line| *line != query);
        let mut words = query
            .split([' ', '.'])
            .filter(|word| word.starts_with(['A', 'r']));
        let word = words.find(|word| !others().any(|line| line.contains(*word)))?;
        let index = self.lines.iter().position(|line| line == query)?;
        Some((index + 1, word))
    }

    fn add_credential(&mut self, random: &mut Random, constraints: &[String]) {
        let owner = self.principal(random);
        let defined = format!("{owner}.{}", self.name(random));
        let body = match random.below(4) {
            0 => self.principal(random),
            1 => self.role(random),
            2 => {
                let first = self.name(random);
                format!("{owner}.{first}.{}", self.name(random))
            }
            _ => {
                let count = random.between(2, 3);
                let roles: Vec<String> = (0..count).map(|_| self.role(random)).collect();
                roles.join(" & ")
            }
        };
        let mut said = format!("{defined} <- {body}");
        if !constraints.is_empty() && random.one_in(3) {
            said += &format!(" under {}", random.pick(constraints));
        }
        self.lines.push(said.clone());
        self.credentials.push((said, self.lines.len()));
    }

    fn add_constraint(&mut self, random: &mut Random, name: String) {
        self.lines.push(format!("constraint {name}"));
        let pool = ["x", "some", "word", "0", "1", "2", "5"];
        let pool: Vec<&str> = pool.into_iter().filter(|_| !random.one_in(3)).collect();
        let mut sets = [Vec::new(), Vec::new()];
        let mut mark = Mark::EveryWord;
        let mut order = [0, 1, 2];
        random.shuffle(&mut order);
        for which in order {
            if random.one_in(6) {
                continue;
            }
            if which == 2 {
                mark = *random.pick(&[Mark::EveryWord, Mark::SomeWord]);
                self.lines.push(format!("  {}", mark.text()));
                continue;
            }
            let states = pool.iter().filter(|_| random.one_in(3));
            let mut states: Vec<String> = states.map(|state| state.to_string()).collect();
            random.shuffle(&mut states);
            let word = ["start", "accept"][which];
            self.lines.push(format!("  {word} {}", states.join(" ")));
            sets[which] = states;
        }
        let [start, accept] = sets;
        self.constraints.push((name, mark, start, accept));
        for _ in 0..random.below(6) {
            if pool.is_empty() {
                break;
            }
            self.add_edge(random, &pool);
        }
        if self.constraints.len() > 1 && random.one_in(2) && !pool.is_empty() {
            let earlier = random.pick(&self.constraints).0.clone();
            self.lines.push(format!("edges of {earlier}"));
            self.add_edge(random, &pool);
        }
    }

    fn add_edge(&mut self, random: &mut Random, states: &[&str]) {
        let label = match random.below(4) {
            0 => "any".to_string(),
            1 => self.role(random),
            2 => format!("any of {}", self.principal(random)),
            _ => format!("not {}", self.role(random)),
        };
        let (from, to) = (random.pick(states), random.pick(states));
        let said = format!("{from} -- {label} --> {to}");
        self.lines.push(format!("    {said}"));
        self.edges.push((said, self.lines.len()));
    }

    /// What a wallet says must be what the text says.
    fn assert_said(&self, wallet: &Wallet, text: &str) {
        let (table, names) = (&wallet.table, &wallet.names);
        let credentials = table.credentials.iter().map(|c| names.credential(table, c));
        let credentials = credentials.zip(wallet.lines.credentials.iter().copied());
        assert_eq!(credentials.collect::<Vec<_>>(), self.credentials, "{text}");
        let edges = table.edges.iter().map(|edge| names.edge(edge));
        let edges = edges.zip(wallet.lines.edges.iter().copied());
        assert_eq!(edges.collect::<Vec<_>>(), self.edges, "{text}");
        let query = wallet.query.map(|query| names.query(query));
        assert_eq!(query, self.query, "{text}");
        let principals = numbered(&self.principals, &self.given);
        assert_eq!(principals, names.principals, "{text}");
        assert_eq!(numbered(&self.names, &self.given), names.roles, "{text}");
        self.assert_sets(wallet, text);
    }

    fn assert_sets(&self, wallet: &Wallet, text: &str) {
        let automata = &wallet.table.automata;
        assert_eq!(automata.len(), self.constraints.len(), "{text}");
        let both = automata.iter().zip(&self.constraints);
        for (number, (automaton, (name, mark, start, accept))) in (1..).zip(both) {
            assert_eq!(wallet.names.constraint(number), *name, "{text}");
            assert_eq!(automaton.mark, *mark, "{text}");
            for (set, states) in [(automaton.start, start), (automaton.accept, accept)] {
                let members = (0..16).filter(|state| set & (1 << state) != 0);
                let members = members.map(|state| wallet.names.state(number, state));
                let mut members: Vec<String> = members.collect();
                let mut states = states.clone();
                members.sort();
                states.sort();
                assert_eq!(members, states, "{text}");
            }
        }
    }
}

/// A word, which now stands among others.
fn noted(words: &mut Vec<String>, word: String) -> String {
    if !words.contains(&word) {
        words.push(word.clone());
    }
    word
}

/// The numbers of some words: the given ones, and for each other the least
/// that neither a line gives nor an earlier word has.
fn numbered(words: &[String], given: &BTreeMap<String, Number>) -> BTreeMap<Number, String> {
    let mut numbers: BTreeMap<Number, String> = BTreeMap::new();
    for word in words {
        if let Some(number) = given.get(word) {
            numbers.insert(*number, word.clone());
        }
    }
    for word in words.iter().filter(|word| !given.contains_key(*word)) {
        let free = (1..).find(|number| !numbers.contains_key(number));
        numbers.insert(free.expect("a free number"), word.clone());
    }
    numbers
}

#[test]
fn texts_say_what_they_say_and_come_back() {
    let mut random = Random::new(2018);
    let mut unknown = 0;
    for _ in 0..6000 {
        let text = Text::new(&mut random);
        let written = text.lines.join("\n");
        let wallet = parse(written.as_bytes());
        if let Some((line, word)) = text.unknown() {
            let told = wallet
                .expect_err("a word that only the query has")
                .to_string();
            let place = format!("line {line}, column ");
            let words = format!(": `{word}` is not a ");
            assert!(
                told.starts_with(&place) && told.contains(&words),
                "{told}\n{written}"
            );
            unknown += 1;
            continue;
        }
        let wallet = wallet.unwrap_or_else(|mistake| panic!("{mistake}\n{written}"));
        text.assert_said(&wallet, &written);
        let printed = print(&wallet);
        let again = parse(printed.as_bytes());
        let again = again.unwrap_or_else(|mistake| panic!("{mistake}\n{printed}"));
        assert_same(&again, &wallet, &format!("{written}\n\n{printed}"));
        assert_eq!(print(&again), printed);
    }
    assert!((500..2000).contains(&unknown), "{unknown}");
}

#[test]
fn the_order_of_the_sections_and_the_spaces_say_nothing() {
    let mut random = Random::new(2019);
    for _ in 0..2000 {
        let (numbers, query) = made_up(&mut random);
        let text = print(&nameless(&numbers, Some(query)));
        let wallet = parse(text.as_bytes()).expect("a printed text");
        let other = rearranged(&mut random, &text);
        let again = parse(other.as_bytes());
        let again = again.unwrap_or_else(|mistake| panic!("{mistake}\n{other}"));
        assert_same(&again, &wallet, &other);
    }
}

/// A printed text with its sections in another order and other spaces. The
/// constraints' sections, whose order counts, remain in order.
fn rearranged(random: &mut Random, text: &str) -> String {
    let sections = text.split("\n\n");
    let is_constraint =
        |section: &&str| section.starts_with("constraint ") || section.starts_with("edges of ");
    let (constraints, mut others): (Vec<&str>, Vec<&str>) = sections.partition(is_constraint);
    others.push("");
    random.shuffle(&mut others);
    for section in constraints.iter().rev() {
        let place = random.below(others.len() + 1);
        let place = place.min(others.iter().position(is_constraint).unwrap_or(place));
        others.insert(place, section);
    }
    let lines: Vec<String> = others
        .iter()
        .flat_map(|section| section.lines())
        .map(|line| spaced(random, line))
        .collect();
    lines.join(if random.one_in(3) { "\r\n" } else { "\n" })
}

/// A line with other spaces, and now and then a comment or a blank line.
fn spaced(random: &mut Random, line: &str) -> String {
    let mut spaced = random.pick(&["", " ", "\t", "\n"]).to_string();
    for word in line.split(' ').filter(|word| !word.is_empty()) {
        spaced += word;
        spaced += *random.pick(&[" ", "  ", "\t", " \t "]);
    }
    spaced + *random.pick(&["", "# all", "#"])
}
