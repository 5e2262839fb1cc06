//! The words of a derivation, and the run of each constraint on them.

use bwlchareg::Number;

use crate::derivation::Judged;
use crate::report::constraints;
use crate::report::html::{classed, code, element, link, row, table, Html};
use crate::table::StateSet;
use crate::tree::{counted, dead, role_names, set, DECISIVE_SHOWN};
use crate::words::{roles, run, words, Word, Words};
use crate::Wallet;

/// So many words are shown, and so many runs of each constraint.
const WORDS_SHOWN: usize = 100;

/// The words of a judged record, with the runs of the constraints on them.
pub fn section(wallet: &Wallet, judged: &Judged) -> Html {
    let words = words(wallet, judged);
    let tables: Html = match words.automata.is_empty() {
        true => word_table(wallet, judged, &words),
        false => {
            let automata = words.automata.iter();
            automata
                .map(|automaton| run_table(wallet, judged, &words, *automaton))
                .collect()
        }
    };
    [element("h4", "Words and constraints"), tables].into()
}

/// The words alone, where no constraint reads them.
fn word_table(wallet: &Wallet, judged: &Judged, words: &Words) -> Html {
    let numbered = (1usize..).zip(&words.words).take(WORDS_SHOWN);
    let rows = numbered.map(|(number, word)| {
        let roles = role_names(wallet, judged, word).join(", ");
        row(number, [code(roles)])
    });
    let more = words.words.len().saturating_sub(WORDS_SHOWN);
    let more = (more > 0).then(|| more_row(&counted(more, "more word"), 1));
    let about = "No constraint is attached to these credentials";
    let heads = ["Word", "Its roles, from the question down to a leaf"];
    table("words", about, &heads, rows.chain(more))
}

/// The runs of a constraint: on the first words, and on further words on which its
/// judgement rests.
fn run_table(wallet: &Wallet, judged: &Judged, words: &Words, automaton: Number) -> Html {
    let numbered = (1usize..).zip(&words.words);
    let line = |(number, word): (usize, &Word)| {
        let verdict = verdict(words, word, automaton);
        row(number, [verdict, run_line(wallet, judged, automaton, word)])
    };
    let first = numbered.clone().take(WORDS_SHOWN).map(line);
    let hidden = numbered.skip(WORDS_SHOWN);
    let lenient = words.is_lenient(automaton);
    let decisive = hidden
        .clone()
        .filter(|(_, word)| word.rejected_by(automaton) != lenient);
    let judged_so = if lenient { "accepted" } else { "rejected" };
    let more = hidden.count();
    let said = format!(
        "{}, {} of them {judged_so}",
        counted(more, "more word"),
        decisive.clone().count()
    );
    let more = (more > 0).then(|| more_row(&said, 2));
    let rows = first
        .chain(more)
        .chain(decisive.take(DECISIVE_SHOWN).map(line));
    let heads = [
        "Word",
        "Verdict",
        "Run: the states before and after each role",
    ];
    table("runs", heading(wallet, words, automaton), &heads, rows)
}

/// What stands above the runs of a constraint.
fn heading(wallet: &Wallet, words: &Words, automaton: Number) -> Html {
    let count = words.words.len();
    let (accepted, rejected) = (count - words.rejected(automaton), words.rejected(automaton));
    let all = counted(count, "word");
    let said = match (words.is_lenient(automaton), words.is_met(automaton)) {
        (true, true) => format!(" demands some word, and accepts {accepted} of {all}: "),
        (true, false) => format!(" demands some word, and accepts none of {all}: "),
        (false, true) if count == 1 => " demands every word, and accepts the only one: ".into(),
        (false, true) => format!(" demands every word, and accepts all {all}: "),
        (false, false) => format!(" demands every word, and rejects {rejected} of {all}: "),
    };
    let verdict = match words.is_met(automaton) {
        true => classed("b", "good", "met"),
        false => classed("b", "bad", "not met"),
    };
    let name = code(wallet.names.constraint(automaton));
    let link = link(&constraints::place(automaton), name);
    ["Constraint ".into(), link, said.into(), verdict].into()
}

/// What a constraint says of a word.
fn verdict(words: &Words, word: &Word, automaton: Number) -> Html {
    match word.rejected_by(automaton) {
        false if words.is_lenient(automaton) => classed("b", "good", "accepted"),
        false => "accepted".into(),
        true if words.is_fault(word, automaton) => classed("b", "bad", "rejected"),
        true => "rejected".into(),
    }
}

/// The run of a constraint on a word.
fn run_line(wallet: &Wallet, judged: &Judged, automaton: Number, word: &Word) -> Html {
    let names = &wallet.names;
    let roles = roles(judged, &judged.nodes[word.leaf]);
    let sets = run(&wallet.table, automaton, &roles);
    let states = |states: &StateSet| element("b", set(names, automaton, *states));
    let first = sets.first().map(states);
    let steps = roles.iter().zip(sets.iter().skip(1));
    let steps = steps
        .map(|(role, reached)| [format!(" {} ", names.role(*role)).into(), states(reached)].into());
    let dead = dead(names, &roles, &sets).map(|place| format!("; {place}").into());
    let line: Html = first.into_iter().chain(steps).collect();
    [code(line), dead.into()].into()
}

/// A row that stands for more of the same, in a table with so many columns besides
/// the first.
fn more_row(said: &str, columns: usize) -> Html {
    let empty = (1..columns).map(|_| Html::default());
    let said = classed("span", "pale", format!("\u{2026} and {said}"));
    row("", empty.chain(std::iter::once(said)))
}
