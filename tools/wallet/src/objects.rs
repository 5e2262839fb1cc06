//! Answers as JSON objects. `docs/JSON.md` says what each field is.

use bwlchareg::{Number, Query, Refusal};

use crate::answer::Answer;
use crate::derivation::{Goal, Judged, Node};
use crate::explain::{members, met, reason, shown};
use crate::json::{Object, Value};
use crate::limits::NAMES;
use crate::table::{Mark, Role};
use crate::tree::{self, Meeting, NODES_SHOWN, WORDS_SHOWN};
use crate::words::{attached, run, spelt, states, words, Word, Words};
use crate::{proof, Wallet};

/// A refusal with its words.
pub fn refusal(refusal: Refusal, words: impl Into<String>) -> Object {
    Object::default()
        .with("number", refusal.number)
        .with("position", refusal.position)
        .with("text", words.into())
}

/// What is asked.
pub fn query(wallet: &Wallet, query: Query) -> Object {
    let names = &wallet.names;
    Object::default()
        .with("text", names.query(query))
        .with("principal", names.principal(query.principal))
        .with("owner", names.principal(query.owner))
        .with("name", names.role_name(query.name))
        .with("depth", query.depth)
}

/// What a wallet has that the checker accepts, or its refusal.
pub fn checked(wallet: &Wallet, answer: Result<(), Refusal>, object: Object) -> Object {
    let Wallet { table, names, .. } = wallet;
    object
        .with("accepted", answer.is_ok())
        .with("credentials", table.credentials.len())
        .with("principals", names.principals.len())
        .with("role_names", names.roles.len())
        .with("constraints", table.automata.len())
        .with_some("query", wallet.query.map(|asked| query(wallet, asked)))
        .with_some(
            "refusal",
            answer.err().map(|told| refusal(told, told.to_string())),
        )
}

/// The answer to a listing.
pub fn listed(wallet: &Wallet, asked: Query, answer: &Answer, object: Object) -> Object {
    let sets = match answer {
        Answer::Sets(sets) => Some(&sets[..]),
        Answer::Refused(told) if told.number == Refusal::NONE => Some(&[][..]),
        Answer::Refused(_) => None,
    };
    let sets = sets.map(|sets| sets.iter().map(|set| listed_set(wallet, asked, *set)));
    object
        .with("query", query(wallet, asked))
        .with_some("count", sets.as_ref().map(ExactSizeIterator::len))
        .with_some("sets", sets.map(Iterator::collect::<Value>))
        .with_some("refusal", unlisted(wallet, asked, answer))
}

/// Why there is no list.
pub fn unlisted(wallet: &Wallet, asked: Query, answer: &Answer) -> Option<Object> {
    let told = answer.refusal()?;
    Some(refusal(told, reason(wallet, asked, told)))
}

/// A listed set.
fn listed_set(wallet: &Wallet, asked: Query, number: u32) -> Object {
    let meeting =
        |meeting: Meeting| constraint(wallet, meeting.automaton).with("word", meeting.roles);
    let shown = shown(&wallet.table, number).into_iter();
    let met = met(wallet, asked, number).into_iter();
    set(wallet, number)
        .with(
            "shows",
            shown.map(|own| goal(wallet, own)).collect::<Value>(),
        )
        .with("meets", met.map(meeting).collect::<Value>())
}

/// A set with its credentials.
pub fn set(wallet: &Wallet, set: u32) -> Object {
    let credential = |number| {
        Object::default()
            .with("number", number)
            .with_some("line", wallet.lines.credential(number))
            .with("text", wallet.credential(number))
    };
    let credentials = members(&wallet.table, set).map(credential);
    Object::default()
        .with("set", set)
        .with("credentials", credentials.collect::<Value>())
}

/// A membership.
fn goal(wallet: &Wallet, goal: Goal) -> Object {
    Object::default()
        .with("principal", wallet.names.principal(goal.principal))
        .with("role", wallet.names.role(goal.role))
}

/// A constraint by its name and line.
pub fn constraint(wallet: &Wallet, automaton: Number) -> Object {
    Object::default()
        .with("constraint", wallet.names.constraint(automaton))
        .with_some("line", wallet.lines.automaton(automaton))
}

/// A set with its first record, or why that is not written; and whether the library
/// refuses the set or the record.
pub fn proved(wallet: &Wallet, asked: Query, number: u32) -> (Object, bool) {
    let object = set(wallet, number);
    match proof::first_record(wallet, asked, number) {
        Err(told) => {
            let words = proof::reason(wallet, asked, number, told);
            (object.with("refusal", refusal(told, words)), true)
        }
        Ok(record) => {
            let verdict = bwlchareg::verify(&wallet.table.numbers(), asked, &record);
            let accepted = verdict == Ok(number);
            let object = object.with("record", record).with("accepted", accepted);
            (object, !accepted)
        }
    }
}

/// A record that is judged: its nodes, its words, and the runs of the constraints.
pub fn verified(wallet: &Wallet, record: Vec<Number>, judged: &Judged, object: Object) -> Object {
    let words = words(wallet, judged);
    let nodes = judged.nodes.iter().take(NODES_SHOWN);
    let word = |word: &Word| role_names(wallet, &spelt(judged, word));
    let constraints = words.automata.iter();
    let constraints = constraints.map(|own| runs(wallet, judged, &words, *own, words.is_met(*own)));
    let told = judged.refusal().map(|told| {
        let words = tree::reason(wallet, judged, &words, told);
        refusal(told, words)
    });
    let accepted = judged.verdict.ok();
    object
        .with("query", query(wallet, judged.query))
        .with("record", record)
        .with("accepted", accepted.is_some())
        .with_some("used", accepted.map(|number| set(wallet, number)))
        .with_some("refusal", told)
        .with("node_count", judged.nodes.len())
        .with(
            "nodes",
            nodes.map(|own| node(wallet, own)).collect::<Value>(),
        )
        .with("word_count", words.words.len())
        .with(
            "words",
            words
                .words
                .iter()
                .take(WORDS_SHOWN)
                .map(word)
                .collect::<Value>(),
        )
        .with("constraints", constraints.collect::<Value>())
}

/// A node of a derivation.
fn node(wallet: &Wallet, node: &Node) -> Object {
    let middle = node.middle.filter(|middle| (1..=NAMES).contains(middle));
    Object::default()
        .with("number", node.number)
        .with("level", node.level)
        .with_some("parent", node.parent.map(|index| index + 1))
        .with("goal", goal(wallet, node.goal))
        .with_some("credential", node.credential)
        .with_some(
            "middle",
            middle.map(|middle| wallet.names.principal(middle)),
        )
}

/// A constraint with its runs on the words of a record, and whether they meet it.
pub fn runs(
    wallet: &Wallet,
    judged: &Judged,
    words: &Words,
    automaton: Number,
    is_met: bool,
) -> Object {
    let table = &wallet.table;
    let run = |word: &Word| {
        let roles = spelt(judged, word);
        let sets = run(table, automaton, &roles).into_iter();
        let sets = sets.map(|set| {
            let states = states(set).map(|state| wallet.names.state(automaton, state));
            states.collect::<Value>()
        });
        Object::default()
            .with("accepted", !word.rejected_by(automaton))
            .with("states", sets.collect::<Value>())
    };
    let mark = table
        .automaton(automaton)
        .map_or(Mark::EveryWord, |own| own.mark);
    let shown = words.words.iter().take(WORDS_SHOWN);
    constraint(wallet, automaton)
        .with("credentials", attached(table, &judged.nodes, automaton))
        .with("demands", mark.text())
        .with("met", is_met)
        .with("rejected", words.rejected(automaton))
        .with("runs", shown.map(run).collect::<Value>())
}

/// The roles of a word, by their names.
fn role_names(wallet: &Wallet, roles: &[Role]) -> Value {
    roles.iter().map(|role| wallet.names.role(*role)).collect()
}
