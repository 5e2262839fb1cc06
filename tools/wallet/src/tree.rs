//! A judged record as text: its nodes as an indented tree, its words, the
//! runs of its automata, and the verdict on the last line.
//!
//! A line that begins with `>>` is at fault. Where one word is enough for an
//! automaton, it is said which word meets it. Records can be very long; then the
//! first nodes and words are shown, what is at fault, and how many more there
//! are.

use bwlchareg::{Number, Refusal};

use crate::derivation::{ancestors, numbered, Judged, Node};
use crate::limits::NAMES;
use crate::names::Names;
use crate::refusal;
use crate::rows::{self, padded};
use crate::table::{Mark, Role, StateSet};
use crate::words::{attached, run, spelt, states, words, Word, Words};
use crate::Wallet;

/// So many nodes are shown, besides the one at fault and those above it.
pub const NODES_SHOWN: usize = 1_000;
/// So many words are shown, and so many runs of each automaton.
pub const WORDS_SHOWN: usize = 1_000;
/// So many words on which the automaton's judgement rests are shown after those.
pub const DECISIVE_SHOWN: usize = 10;
/// A tree whose goals take more columns than this is not lined up further.
const WIDEST: usize = 72;

/// What a line at fault begins with, and every other line of its block.
pub(crate) const FAULT: &str = ">>";
const NO_FAULT: &str = "  ";

/// The text of a judged record. The wallet is the one with which the record
/// was judged.
pub fn text(wallet: &Wallet, judged: &Judged) -> String {
    let words = words(wallet, judged);
    let mut lines = vec![wallet.names.query(judged.query)];
    if !judged.nodes.is_empty() {
        lines.push(String::new());
        tree(wallet, judged, &mut lines);
    }
    if !words.words.is_empty() {
        lines.push(String::new());
        word_list(wallet, judged, &words, &mut lines);
    }
    for &automaton in &words.automata {
        lines.push(String::new());
        runs(wallet, judged, &words, automaton, &mut lines);
    }
    lines.push(String::new());
    lines.push(verdict(wallet, judged, &words));
    lines.push(String::new());
    lines.join("\n")
}

/// The tree of a judged record and the verdict, without its words and runs; but
/// with the words that meet automata for which one word is enough.
pub fn short(wallet: &Wallet, judged: &Judged) -> String {
    let words = words(wallet, judged);
    let mut lines = Vec::new();
    tree(wallet, judged, &mut lines);
    for meeting in meetings(wallet, judged, &words) {
        let name = wallet.names.constraint(meeting.automaton);
        let (number, roles) = (meeting.number, meeting.roles.join(", "));
        lines.push(format!(
            "constraint {name} is met by word {number}: {roles}"
        ));
    }
    lines.push(verdict(wallet, judged, &words));
    lines.push(String::new());
    lines.join("\n")
}

/// That a word meets an automaton for which one word is enough.
pub struct Meeting {
    /// The automaton.
    pub automaton: Number,
    /// The word's number, from 1.
    pub number: usize,
    /// The word's roles, by their names.
    pub roles: Vec<String>,
}

/// For each automaton for which one word is enough, the first word that meets it,
/// if there is one.
pub fn meetings(wallet: &Wallet, judged: &Judged, words: &Words) -> Vec<Meeting> {
    let first = |automaton| {
        let mut numbered = (1..).zip(&words.words);
        let (number, word) = numbered.find(|(_, word)| words.meets(word, automaton))?;
        Some(Meeting {
            automaton,
            number,
            roles: role_names(wallet, judged, word),
        })
    };
    words.lenient().filter_map(first).collect()
}

/// The verdict: `accepted: used set 7 = credentials 1, 2, 3`, or `refused 14
/// at 1` and why.
pub fn verdict(wallet: &Wallet, judged: &Judged, words: &Words) -> String {
    match judged.verdict {
        Ok(set) => {
            let members = credentials(bwlchareg::credentials(set));
            format!("accepted: used set {set} = {members}")
        }
        Err(refusal) => refusal::told(refusal, reason(wallet, judged, words, refusal)),
    }
}

/// Why a record is refused.
pub fn reason(wallet: &Wallet, judged: &Judged, words: &Words, refusal: Refusal) -> String {
    let why = match refusal.number {
        14 => rejection(wallet, words, refusal.position),
        _ => judged.reason(&wallet.names),
    };
    why.unwrap_or_else(|| refusal.to_string())
}

/// Credentials by their numbers: `credentials 1, 2, 3`.
pub(crate) fn credentials<Value: ToString>(numbers: impl Iterator<Item = Value>) -> String {
    let listed: Vec<String> = numbers.map(|number| number.to_string()).collect();
    let plural = if listed.len() == 1 { "" } else { "s" };
    format!("credential{plural} {}", listed.join(", "))
}

/// How many words the automaton at this position rejects, or that it accepts none.
fn rejection(wallet: &Wallet, words: &Words, position: u64) -> Option<String> {
    let automaton = Number::try_from(position).ok()?;
    let said = match words.is_lenient(automaton) {
        true => "accepts none".to_string(),
        false => format!("rejects {}", words.rejected(automaton)),
    };
    let name = wallet.names.constraint(automaton);
    let all = counted(words.words.len(), "word");
    (!words.is_met(automaton)).then(|| format!("constraint {name} {said} of {all}"))
}

/// So many of something: `1 word`, `2 words`.
pub fn counted(count: usize, one: &str) -> String {
    let plural = if count == 1 { "" } else { "s" };
    format!("{count} {one}{plural}")
}

/// The lines of the tree.
fn tree(wallet: &Wallet, judged: &Judged, lines: &mut Vec<String>) {
    let nodes = &judged.nodes;
    let first = &nodes[..nodes.len().min(NODES_SHOWN)];
    let later = fault_later(judged);
    let layout = Layout::of(wallet, first.iter().chain(later.iter().copied()));
    let faulty = judged.faulty().map(|node| node.number);
    for node in first {
        lines.push(layout.line(wallet, node, faulty));
    }
    let more = nodes.len() - first.len() - later.len();
    if more > 0 {
        lines.push(format!("{NO_FAULT} ... and {}", counted(more, "more node")));
    }
    for node in later {
        lines.push(layout.line(wallet, node, faulty));
    }
    if let Some(reason) = judged.reason(&wallet.names) {
        let indent = judged.faulty().map_or(0, indent);
        lines.push(format!(
            "{FAULT} {:1$}{reason}",
            "",
            layout.number + indent + 2
        ));
    }
}

/// The node at fault and those above it, from the top down, as far as they
/// are not among the first ones.
fn fault_later(judged: &Judged) -> Vec<&Node> {
    let Some(node) = judged.faulty() else {
        return Vec::new();
    };
    let mut branch = vec![node];
    branch.extend(ancestors(&judged.nodes, node));
    branch.retain(|node| node.number > NODES_SHOWN);
    branch.reverse();
    branch
}

/// How far a node's goal is indented.
fn indent(node: &Node) -> usize {
    2 * node.level.saturating_sub(1) as usize
}

/// The columns of a tree's lines.
struct Layout {
    /// The width of the node's number.
    number: usize,
    /// The width of the indented goal.
    goal: usize,
}

impl Layout {
    /// The columns in which these nodes have room.
    fn of<'a>(wallet: &Wallet, nodes: impl Iterator<Item = &'a Node>) -> Layout {
        let mut layout = Layout { number: 1, goal: 0 };
        for node in nodes {
            let goal = indent(node) + rows::width(&goal(&wallet.names, node));
            layout.goal = layout.goal.max(goal).min(WIDEST);
            layout.number = layout.number.max(node.number.to_string().len());
        }
        layout
    }

    /// The line of a node.
    fn line(&self, wallet: &Wallet, node: &Node, faulty: Option<usize>) -> String {
        let mark = match faulty {
            Some(number) if number == node.number => FAULT,
            _ => NO_FAULT,
        };
        let goal = format!("{:1$}{2}", "", indent(node), goal(&wallet.names, node));
        let line = format!(
            "{mark} {:>3$}  {}  {}",
            node.number,
            padded(&goal, self.goal),
            through(wallet, node),
            self.number
        );
        line.trim_end().to_string()
    }
}

/// A node's goal.
pub fn goal(names: &Names, node: &Node) -> String {
    names.goal(node.goal.principal, node.goal.role)
}

/// What a node is proved through: its credential's number, line and text, and
/// its middle.
fn through(wallet: &Wallet, node: &Node) -> String {
    let Some(number) = node.credential else {
        return String::new();
    };
    let mut through = format!("credential {number}");
    if let Some(line) = wallet.lines.credential(number) {
        through += &format!(", line {line}");
    }
    if numbered(&wallet.table, number).is_some() {
        through += &format!(": {}", wallet.credential(number));
    }
    match node.middle {
        None | Some(0) => through,
        Some(middle @ 1..=NAMES) => {
            format!("{through}; middle {}", wallet.names.principal(middle))
        }
        Some(middle) => format!("{through}; middle {middle}"),
    }
}

/// The lines of the words.
fn word_list(wallet: &Wallet, judged: &Judged, words: &Words, lines: &mut Vec<String>) {
    lines.push("words".to_string());
    let width = width(words);
    for (number, word) in (1..).zip(&words.words).take(WORDS_SHOWN) {
        let roles = role_names(wallet, judged, word).join(", ");
        lines.push(format!("{NO_FAULT} {number:>width$}  {roles}"));
    }
    let more = words.words.len().saturating_sub(WORDS_SHOWN);
    lines.extend((more > 0).then(|| more_words(more)));
}

/// The roles of a word, by their names.
pub(crate) fn role_names(wallet: &Wallet, judged: &Judged, word: &Word) -> Vec<String> {
    let roles = spelt(judged, word);
    roles.iter().map(|role| wallet.names.role(*role)).collect()
}

/// The width of the greatest word's number.
fn width(words: &Words) -> usize {
    words.words.len().to_string().len()
}

/// The lines of an automaton: the credentials to which it is attached, and its
/// runs.
fn runs(
    wallet: &Wallet,
    judged: &Judged,
    words: &Words,
    automaton: Number,
    lines: &mut Vec<String>,
) {
    lines.push(heading(wallet, judged, automaton));
    let line = |own| run_row(wallet, judged, words, automaton, own);
    let numbered = (1..).zip(&words.words);
    lines.extend(numbered.clone().take(WORDS_SHOWN).map(line));
    let more = words.words.len().saturating_sub(WORDS_SHOWN);
    if more == 0 {
        return;
    }
    let hidden = numbered.skip(WORDS_SHOWN);
    // One rejected word decides, or one accepted word where that is enough.
    let lenient = words.is_lenient(automaton);
    let decisive = hidden.filter(|(_, word)| word.rejected_by(automaton) != lenient);
    let count = decisive.clone().count();
    let judged_so = if lenient { "accepted" } else { "rejected" };
    lines.push(format!("{}, {count} of them {judged_so}", more_words(more)));
    lines.extend(decisive.take(DECISIVE_SHOWN).map(line));
}

/// An automaton with the first words for which it is not met.
pub(crate) fn faults(
    wallet: &Wallet,
    judged: &Judged,
    words: &Words,
    automaton: Number,
    most: usize,
) -> Vec<String> {
    let at_fault = (1..).zip(&words.words);
    let at_fault = at_fault.filter(|(_, word)| words.is_fault(word, automaton));
    let rows = at_fault.clone().take(most);
    let rows = rows.map(|own| run_row(wallet, judged, words, automaton, own));
    let more = at_fault.count().saturating_sub(most);
    let heading = [heading(wallet, judged, automaton)].into_iter();
    let more = (more > 0).then(|| more_words(more));
    heading.chain(rows).chain(more).collect()
}

/// That there are more words.
fn more_words(more: usize) -> String {
    format!("{NO_FAULT} ... and {}", counted(more, "more word"))
}

/// The line of an automaton's run on a word, which has a number.
fn run_row(
    wallet: &Wallet,
    judged: &Judged,
    words: &Words,
    automaton: Number,
    (number, word): (usize, &Word),
) -> String {
    let mark = match words.is_fault(word, automaton) {
        true => FAULT,
        false => NO_FAULT,
    };
    let run = run_line(wallet, judged, automaton, word);
    let met = match words.meets(word, automaton) {
        true => "; met by this word",
        false => "",
    };
    format!("{mark} {number:>0$}  {run}{met}", width(words))
}

/// What stands above an automaton's runs.
fn heading(wallet: &Wallet, judged: &Judged, automaton: Number) -> String {
    let table = &wallet.table;
    let attached = attached(table, &judged.nodes, automaton);
    let own = table.automaton(automaton);
    let accepting = own.map_or(0, |own| own.accept as StateSet);
    let demands = match own.map(|own| own.mark) {
        Some(Mark::SomeWord) => ", demands some word",
        _ => "",
    };
    format!(
        "constraint {}, attached to {}, accepts in {}{demands}",
        wallet.names.constraint(automaton),
        credentials(attached.iter()),
        set(&wallet.names, automaton, accepting)
    )
}

/// An automaton's run on a word: whether it accepts, the sets of states with
/// the roles between them, and where no state is left.
fn run_line(wallet: &Wallet, judged: &Judged, automaton: Number, word: &Word) -> String {
    let roles = spelt(judged, word);
    let sets = run(&wallet.table, automaton, &roles);
    let mut line = match word.rejected_by(automaton) {
        true => "rejected:".to_string(),
        false => "accepted:".to_string(),
    };
    let names = &wallet.names;
    for (index, reached) in sets.iter().enumerate() {
        if let Some(role) = index.checked_sub(1).and_then(|index| roles.get(index)) {
            line += &format!(" {}", names.role(*role));
        }
        line += &format!(" {}", set(names, automaton, *reached));
    }
    match dead(names, &roles, &sets) {
        Some(place) => format!("{line}; {place}"),
        None => line,
    }
}

/// Where a run on these roles has no state left, and so rejects whatever comes
/// then.
pub fn dead(names: &Names, roles: &[Role], sets: &[StateSet]) -> Option<String> {
    let empty = sets.iter().position(|set| *set == 0)?;
    Some(match empty.checked_sub(1) {
        Some(index) => format!("no state left after {}", place(names, roles, index)?),
        None => "no state to start in".to_string(),
    })
}

/// A place in a word by its role, `Club.door`; by which one it is, `the 2nd
/// Club.friend`, where the role stands in the word more than once.
fn place(names: &Names, word: &[Role], index: usize) -> Option<String> {
    let role = *word.get(index)?;
    let name = names.role(role);
    let count = |roles: &[Role]| roles.iter().filter(|other| **other == role).count();
    Some(match (count(word), count(&word[..=index])) {
        (1, _) => name,
        (_, 1) => format!("the 1st {name}"),
        (_, 2) => format!("the 2nd {name}"),
        (_, 3) => format!("the 3rd {name}"),
        // A word has at most 16 roles.
        (_, number) => format!("the {number}th {name}"),
    })
}

/// A set of an automaton's states: `{0 2}`.
pub(crate) fn set(names: &Names, automaton: Number, set: StateSet) -> String {
    let states: Vec<String> = states(set)
        .map(|state| names.state(automaton, state))
        .collect();
    format!("{{{}}}", states.join(" "))
}
