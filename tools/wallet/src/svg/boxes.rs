//! What the boxes of a picture say: a goal, the credential below it, and
//! under a box the word that ends there, or why the record is stopped there.

use crate::derivation::{numbered, Judged, Node};
use crate::svg::lines::{broken, columns, widest_piece, FURTHER};
use crate::table::Body;
use crate::tree::{dead, goal};
use crate::words::{roles, run, Word, Words};
use crate::Wallet;

/// What is written at a node.
#[derive(Clone, Debug, Default)]
pub struct Sheet {
    /// The node's number.
    pub number: String,
    /// The goal.
    pub goal: Vec<String>,
    /// The credential; nothing if it was not read.
    pub credential: Vec<String>,
    /// What stands under the box.
    pub under: Vec<String>,
    /// What stands on the branch that leads to the box; nothing on most.
    pub branch: Vec<String>,
    /// Whether something is to be seen at a glance.
    pub tone: Tone,
}

/// What is to be seen of a node at a glance.
#[derive(Clone, Copy, Debug, Default, PartialEq, Eq)]
pub enum Tone {
    /// Nothing.
    #[default]
    Plain,
    /// It ends a word that meets an automaton for which one word is enough.
    Good,
    /// It is at fault, or ends a word for which an automaton is not met.
    Bad,
}

impl Sheet {
    /// How many columns the box needs.
    pub fn columns(&self) -> usize {
        let below = self.goal.iter().skip(1).chain(&self.credential);
        let lines = below.chain(&self.under);
        let lines = lines.map(|line| columns(line)).max().unwrap_or(0);
        let first = self.goal.first().map_or(0, |line| columns(line));
        lines.max(first + self.beside())
    }

    /// The columns that the number takes beside the goal.
    fn beside(&self) -> usize {
        columns(&self.number) + 1
    }

    /// How many columns the box needs so that no word is broken.
    pub fn whole(&self) -> usize {
        let goal = self.goal.iter().map(|line| widest_piece(line));
        let goal = goal.map(|widest| widest + self.beside());
        let others = self.credential.iter().chain(&self.under);
        let widest = goal.chain(others.map(|line| widest_piece(line))).max();
        widest.unwrap_or(0) + columns(FURTHER)
    }

    /// The same with lines of at most so many columns.
    pub fn broken(&self, limit: usize) -> Sheet {
        let lines = |lines: &[String], limit| {
            let lines = lines.iter().flat_map(|line| broken(line, limit));
            lines.collect()
        };
        Sheet {
            goal: lines(&self.goal, limit.saturating_sub(self.beside())),
            credential: lines(&self.credential, limit),
            under: lines(&self.under, limit),
            branch: lines(&self.branch, limit),
            ..self.clone()
        }
    }
}

/// The sheets of all nodes, with long lines.
pub fn sheets(wallet: &Wallet, judged: &Judged, words: &Words) -> Vec<Sheet> {
    let nodes = &judged.nodes;
    let sheet = |node: &Node| Sheet {
        number: node.number.to_string(),
        goal: vec![goal(&wallet.names, node)],
        credential: credential(wallet, node).into_iter().collect(),
        branch: middle(wallet, nodes, node).into_iter().collect(),
        ..Sheet::default()
    };
    let mut sheets: Vec<Sheet> = nodes.iter().map(sheet).collect();
    for (number, word) in (1..).zip(&words.words) {
        let sheet = &mut sheets[word.leaf];
        let at_fault = words.is_at_fault(word);
        let rejected = if at_fault { ": rejected" } else { "" };
        sheet.under = vec![format!("word {number}{rejected}")];
        sheet.under.extend(judgements(wallet, judged, words, word));
        let meets = words
            .lenient()
            .any(|automaton| words.meets(word, automaton));
        sheet.tone = match (at_fault, meets) {
            (true, _) => Tone::Bad,
            (false, true) => Tone::Good,
            (false, false) => Tone::Plain,
        };
    }
    if let (Some(node), Some(reason)) = (judged.faulty(), judged.reason(&wallet.names)) {
        let sheet = &mut sheets[node.number - 1];
        sheet.under = vec![format!("at fault: {reason}")];
        sheet.tone = Tone::Bad;
    }
    sheets
}

/// A node's credential, if it was read: `1: Shop.discount <- Ann`.
fn credential(wallet: &Wallet, node: &Node) -> Option<String> {
    let number = node.credential?;
    let text = numbered(&wallet.table, number)
        .map(|credential| wallet.names.credential(&wallet.table, credential));
    Some(match text {
        Some(text) => format!("{number}: {text}"),
        None => number.to_string(),
    })
}

/// The middle through which a node's goal was asked, if its branch is the one
/// on which the middle must be a member.
fn middle(wallet: &Wallet, nodes: &[Node], node: &Node) -> Option<String> {
    let parent = nodes.get(node.parent?)?;
    let credential = numbered(&wallet.table, parent.credential?)?;
    let linked = matches!(credential.body, Body::Linked { .. });
    // The first child comes right after its parent.
    let first = parent.number + 1 == node.number;
    let name = wallet.names.principal(parent.middle?);
    (linked && first).then(|| format!("middle {name}"))
}

/// What each automaton says of a word, whether that is enough for it, and where
/// it has no state left.
fn judgements(wallet: &Wallet, judged: &Judged, words: &Words, word: &Word) -> Vec<String> {
    let roles = roles(judged, &judged.nodes[word.leaf]);
    let mut lines = Vec::new();
    for &automaton in &words.automata {
        let name = wallet.names.constraint(automaton);
        lines.push(match word.rejected_by(automaton) {
            true => format!("{name} rejects"),
            false if words.is_lenient(automaton) => format!("{name} accepts: met"),
            false => format!("{name} accepts"),
        });
        let sets = run(&wallet.table, automaton, &roles);
        lines.extend(dead(&wallet.names, &roles, &sets));
    }
    lines
}
