//! Meshes: eight automata with many edges, up to as many as a table may have.
//!
//! Automata have paths along the words of derivations, and all paths lead from
//! one state to another. They share the states between, so edges on one role lead
//! to one state from several, up and down. Automata share paths too, or all of a
//! path but an edge, so it matters whose an edge is. The edges stand in any order,
//! but the last is often one without which a record would be rejected.

use std::collections::BTreeSet;

use crate::derivation::Derivation;
use crate::generate::claims::numbers;
use crate::generate::constraints::{self, but, one, owned, Matched, Role, EVERY};
use crate::generate::growth::{Policy, Wish};
use crate::generate::marks;
use crate::generate::wallets::Wallet;
use crate::pairs::is_in;
use crate::random::Random;
use crate::records::{AutomatonRecord, EdgeRecord, Head, Records};
use crate::sorts::{self, HIGHEST};
use crate::table::{Table, LAST_STATE};
use crate::words::{comply, words};
use crate::Number;

/// So many derivations of the query are grown.
const DERIVATIONS: usize = 6;
/// How many automata there are.
const AUTOMATA: Number = Head::LIMITS.automata;

/// Gives eight automata to a wallet that has none, attached to some of its
/// credentials. The first derivation that is grown complies, if there is room for
/// the paths. Half of the time some automata, or all, have mark 1.
pub fn attach(random: &mut Random, wallet: &mut Wallet) {
    let mut mesh = Mesh::new(random, &wallet.records);
    let records = &mut wallet.records;
    records.automata = (0..AUTOMATA).map(|_| mesh.automaton(random)).collect();
    marks::draw_one_in(2, random, records);
    let seldom = random.between(1, 3) as usize;
    for credential in &mut records.credentials {
        if random.one_in(seldom) {
            credential[5] = random.between(1, AUTOMATA);
        }
    }
    let derivations = derivations(random, wallet);
    if let Some(first) = derivations.first() {
        mesh.accept(random, &wallet.records, first);
    }
    let words: Vec<Vec<Role>> = derivations.iter().flat_map(written_words).collect();
    mesh.fill(random, &words);
    random.shuffle(&mut mesh.edges);
    wallet.records.edges = mesh.edges;
    if let Some(first) = derivations.first() {
        put_needed_last(random, &mut wallet.records, first);
    }
}

/// Some derivations of a wallet's query, if there are any.
fn derivations(random: &mut Random, wallet: &Wallet) -> Vec<Derivation> {
    let policy = Policy::new(wallet.records.clone());
    let asked = wallet.query.read().expect("a valid query");
    let mut derivations = Vec::new();
    for _ in 0..DERIVATIONS {
        let wish = Wish {
            depth: asked.depth,
            nodes: *random.pick(&[1, 4, 16]),
            deep: random.one_in(2),
            repeats: false,
        };
        let grown = policy.grow(random, asked.goal, wish);
        let record = grown.map(|nodes| numbers(&nodes));
        let read = record.map(|record| Derivation::read(&policy.table, asked, &record));
        derivations.extend(read.map(|derivation| derivation.expect("a right record")));
    }
    derivations
}

/// The words of a derivation, as written.
fn written_words(derivation: &Derivation) -> Vec<Vec<Role>> {
    let written = |role: &sorts::Role| (role.owner.number(), role.name.number());
    let words = words(derivation).into_iter();
    words
        .map(|word| word.iter().map(written).collect())
        .collect()
}

/// Automata in the making.
struct Mesh {
    /// The states on paths, and those in which all paths begin and end.
    states: Vec<Number>,
    first: Number,
    last: Number,
    /// The roles of the table.
    roles: Vec<Role>,
    /// Whether each automaton may have label 4.
    may_have_4: Vec<bool>,
    /// How many edges there are to be.
    size: usize,
    edges: Vec<EdgeRecord>,
    /// The paths that there are.
    paths: Vec<Vec<EdgeRecord>>,
}

impl Mesh {
    /// No edges yet.
    fn new(random: &mut Random, records: &Records) -> Mesh {
        let mut states: Vec<Number> = (0..=LAST_STATE).collect();
        random.shuffle(&mut states);
        states.truncate(random.between(3, LAST_STATE + 1) as usize);
        let most = Head::LIMITS.edges;
        let size = match random.below(4) {
            0 => random.between(16, most),
            1 => random.between(100, most),
            _ => most,
        };
        Mesh {
            first: states[0],
            last: states[1],
            states,
            roles: constraints::defined(records),
            may_have_4: (0..AUTOMATA).map(|_| random.one_in(2)).collect(),
            size: size as usize,
            edges: Vec::new(),
            paths: Vec::new(),
        }
    }

    /// An automaton of mark 0: paths are accepted, and perhaps their ends.
    fn automaton(&self, random: &mut Random) -> AutomatonRecord {
        let mut set = |state: Number| {
            let more = match random.below(3) {
                0 => 1 << *random.pick(&self.states),
                _ => 0,
            };
            1 << state | more
        };
        [set(self.first), set(self.last), 0]
    }

    /// Adds an edge if there is room for it, and it is not there already.
    fn add(&mut self, edge: EdgeRecord) {
        if self.edges.len() < self.size && !self.edges.contains(&edge) {
            self.edges.push(edge);
        }
    }

    /// What an edge of an automaton on a role may have.
    fn matched(&self, random: &mut Random, automaton: Number, role: Role) -> Matched {
        let may_have_4 = self.may_have_4[automaton as usize - 1];
        match random.below(12) {
            0 => EVERY,
            1 | 2 => but(self.similar(random, role)),
            3..=5 if may_have_4 => owned(role.0),
            _ => one(role),
        }
    }

    /// Another role with the same owner or the same name, one of the table's if
    /// there is one.
    fn similar(&self, random: &mut Random, role: Role) -> Role {
        let others = self.roles.iter().filter(|&&other| other != role);
        let similar = others.filter(|other| other.0 == role.0 || other.1 == role.1);
        let similar: Vec<Role> = similar.copied().collect();
        match similar[..] {
            [] => (role.0 % HIGHEST + 1, role.1),
            _ => *random.pick(&similar),
        }
    }

    /// Gives an automaton a path along a word.
    fn path(&mut self, random: &mut Random, automaton: Number, word: &[Role]) {
        let mut path = Vec::new();
        let mut from = self.first;
        for (left, &role) in (0..word.len()).rev().zip(word) {
            let ends = left == 0;
            let edge = self.edge(random, [automaton, from], role, ends);
            self.add(edge);
            path.push(edge);
            from = edge[5];
        }
        self.paths.push(path);
    }

    /// An edge of an automaton from a state on a role, by which the path may
    /// end. Half of the time it is one that is there, if there is one.
    fn edge(&self, random: &mut Random, of: [Number; 2], role: Role, ends: bool) -> EdgeRecord {
        let leads_on = |to: Number| !ends || to == self.last;
        let fits =
            |edge: &&EdgeRecord| edge[..2] == of && edge[2..5] == one(role) && leads_on(edge[5]);
        let there = self.edges.iter().find(fits);
        if let Some(&edge) = there.filter(|_| random.one_in(2)) {
            return edge;
        }
        let [automaton, from] = of;
        let [label, owner, name] = self.matched(random, automaton, role);
        let to = match ends {
            true => self.last,
            false => *random.pick(&self.states),
        };
        [automaton, from, label, owner, name, to]
    }

    /// Gives an automaton a path that there is, or half of the time all of it
    /// but an edge.
    fn lend(&mut self, random: &mut Random, automaton: Number) {
        let mut path = random.pick(&self.paths).clone();
        if random.one_in(2) {
            path.remove(random.below(path.len()));
        }
        for [_, rest @ ..] in path {
            let [from, label, owner, name, to] = rest;
            self.add([automaton, from, label, owner, name, to]);
        }
    }

    /// Gives an automaton an edge between any two states.
    fn stray(&mut self, random: &mut Random, automaton: Number) {
        let role = *random.pick(&self.roles);
        let [label, owner, name] = self.matched(random, automaton, role);
        let [from, to] = [0; 2].map(|_| random.between(0, LAST_STATE));
        self.add([automaton, from, label, owner, name, to]);
    }

    /// Gives a path along each word of a derivation to every automaton that it
    /// uses.
    fn accept(&mut self, random: &mut Random, records: &Records, derivation: &Derivation) {
        let numbered = (1..).zip(&records.credentials);
        let used = numbered.filter(|(number, _)| is_in(*number, derivation.used_set()));
        let automata: BTreeSet<Number> = used.map(|(_, credential)| credential[5]).collect();
        let words = written_words(derivation);
        for &automaton in automata.range(1..) {
            for word in &words {
                self.path(random, automaton, word);
            }
        }
    }

    /// Adds paths along some words, and other edges, until there are enough.
    fn fill(&mut self, random: &mut Random, words: &[Vec<Role>]) {
        while self.edges.len() < self.size {
            let automaton = random.between(1, AUTOMATA);
            match random.below(8) {
                0..=2 if !words.is_empty() => {
                    let word = &words[random.below(words.len())];
                    self.path(random, automaton, word);
                }
                3..=6 if !self.paths.is_empty() => self.lend(random, automaton),
                _ => self.stray(random, automaton),
            }
        }
    }
}

/// Puts an edge last without which a derivation does not comply, if it complies
/// and there is such an edge.
fn put_needed_last(random: &mut Random, records: &mut Records, derivation: &Derivation) {
    let mut table = Table::read(&records.numbers()).expect("an accepted table");
    if comply(&table, derivation).is_err() {
        return;
    }
    let mut order: Vec<usize> = (0..table.edges.len()).collect();
    random.shuffle(&mut order);
    let needed = order.into_iter().find(|&index| {
        let edge = table.edges.remove(index);
        let needed = comply(&table, derivation).is_err();
        table.edges.insert(index, edge);
        needed
    });
    if let Some(index) = needed {
        let edge = records.edges.remove(index);
        records.edges.push(edge);
    }
}
