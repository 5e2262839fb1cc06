//! The answer to a listing in words: the credentials of each set with their
//! lines, the memberships that showing the set tells, and the words by which it
//! meets constraints for which one word is enough; or why there is no list.

use bwlchareg::{Number, Query, Refusal};

use crate::answer::{Answer, CELLS};
use crate::derivation::{judge, numbered, Goal};
use crate::proof::short_record;
use crate::refusal;
use crate::rows::{padded, rows, width};
use crate::table::{Body, Mark, Table};
use crate::tree::{meetings, Meeting};
use crate::words::words;
use crate::Wallet;

/// The columns that a line of memberships or roles has at most, where names
/// allow it.
pub const COLUMNS: usize = 100;

/// What stands before a set's memberships.
const SHOWS: &str = "  shows ";

/// What an answer says of a wallet and its query.
pub fn explain(wallet: &Wallet, query: Query, answer: &Answer) -> String {
    match answer {
        Answer::Sets(sets) => {
            let heading = heading(wallet, query, sets.len());
            let sets = sets.iter().map(|set| explain_set(wallet, query, *set));
            heading + &sets.collect::<String>()
        }
        Answer::Refused(refusal) => refusal::told(*refusal, reason(wallet, query, *refusal)) + "\n",
    }
}

/// How many sets there are, and of what.
pub fn heading(wallet: &Wallet, query: Query, count: usize) -> String {
    let sets = if count == 1 {
        "set proves"
    } else {
        "sets prove"
    };
    format!("{count} minimal {sets} {}\n", wallet.names.query(query))
}

/// A set: its credentials, one on a line, what it shows, and what it meets.
fn explain_set(wallet: &Wallet, query: Query, set: u32) -> String {
    let rows = credentials(wallet, set).into_iter();
    let rows: String = rows.map(|row| format!("  {row}\n")).collect();
    let goals = shown(&wallet.table, set).into_iter();
    let goals = goals.map(|goal| wallet.names.goal(goal.principal, goal.role));
    let met = met(wallet, query, set).into_iter().map(|meeting| {
        let name = wallet.names.constraint(meeting.automaton);
        listed(&format!("  meets {name} by "), meeting.roles)
    });
    let shown = listed(SHOWS, goals.collect());
    format!("\nset {set}\n{rows}{shown}{}", met.collect::<String>())
}

/// The numbers of a set's credentials.
pub fn members(table: &Table, set: u32) -> impl Iterator<Item = Number> + '_ {
    let numbers = bwlchareg::credentials(set).filter_map(|number| Number::try_from(number).ok());
    numbers.filter(|number| numbered(table, *number).is_some())
}

/// The credentials of a set, each with its number and its line.
pub fn credentials(wallet: &Wallet, set: u32) -> Vec<String> {
    let texts = members(&wallet.table, set).map(|number| (number, wallet.credential(number)));
    let texts: Vec<(Number, String)> = texts.collect();
    let widest = texts.iter().map(|(_, text)| width(text)).max();
    let widest = widest.unwrap_or_default();
    let row = |(number, text): &(Number, String)| {
        let line = wallet.lines.credential(*number);
        let line = line.map_or(String::new(), |line| format!("  line {line}"));
        let text = padded(text, widest);
        format!("{number:>2}  {text}{line}").trim_end().to_string()
    };
    texts.iter().map(row).collect()
}

/// Who is shown to be in which role by a set: the members that its credentials of
/// kind 1 name, each once.
pub fn shown(table: &Table, set: u32) -> Vec<Goal> {
    let mut goals = Vec::new();
    for credential in members(table, set).filter_map(|number| numbered(table, number)) {
        if let Body::Member(principal) = credential.body {
            let role = credential.role;
            let goal = Goal { principal, role };
            if !goals.contains(&goal) {
                goals.push(goal);
            }
        }
    }
    goals
}

/// By which word of its first record a set meets each constraint for which one
/// word is enough. Nothing is said of a record that is too long to be looked at.
pub fn met(wallet: &Wallet, query: Query, set: u32) -> Vec<Meeting> {
    let table = &wallet.table;
    let automata = members(table, set).filter_map(|number| numbered(table, number));
    let mut automata = automata.filter_map(|credential| table.automaton(credential.automaton));
    if !automata.any(|automaton| automaton.mark == Mark::SomeWord) {
        return Vec::new();
    }
    let Some(record) = short_record(wallet, query, set) else {
        return Vec::new();
    };
    let judged = judge(wallet, query, &record);
    meetings(wallet, &judged, &words(wallet, &judged))
}

/// Items after some words, on as many lines as they need. All but the last end
/// with a comma.
fn listed(before: &str, items: Vec<String>) -> String {
    let indent = width(before);
    let rows = rows(items, COLUMNS.saturating_sub(indent + 1));
    let further = format!(",\n{:indent$}", "");
    format!("{before}{}\n", rows.join(&further))
}

/// Why there is no list.
pub fn reason(wallet: &Wallet, query: Query, refusal: Refusal) -> String {
    let asked = wallet.names.query(query);
    match refusal.number {
        Refusal::NONE => format!("there is no minimal set for {asked}"),
        Refusal::LONGER => format!("more than {CELLS} minimal sets prove {asked}"),
        _ => refusal.to_string(),
    }
}

#[cfg(test)]
mod tests {
    use super::explain;
    use crate::answer::Answer;
    use crate::parse::parse;
    use bwlchareg::Refusal;

    const TEXT: &str = "A.r <- A.s & A.t under c\n\nA.s <- B\nA.s <- B\nA.t <- Alexander\n\
        constraint c\n  start 0\n\n  0 -- any --> 0\nB in A.r within 2\n";

    fn said_of(text: &str, answer: Answer) -> String {
        let wallet = parse(text.as_bytes()).expect("a wallet");
        explain(&wallet, wallet.query.expect("a query"), &answer)
    }

    fn said(answer: Answer) -> String {
        said_of(TEXT, answer)
    }

    #[test]
    fn sets_are_said_by_their_credentials() {
        let expected = "\
2 minimal sets prove B in A.r within 2

set 3
   1  A.r <- A.s & A.t under c  line 1
   2  A.s <- B                  line 3
  shows B in A.s

set 14
   2  A.s <- B          line 3
   3  A.s <- B          line 4
   4  A.t <- Alexander  line 5
  shows B in A.s, Alexander in A.t
";
        assert_eq!(said(Answer::Sets(vec![3, 14])), expected);
    }

    #[test]
    fn many_memberships_are_wrapped() {
        let text = "Registry.licence <- Alexander\nRegistry.insured <- Alexander\n\
            Registry.audited <- Alexander\nRegistry.known <- Alexander\n\
            Alexander in Registry.known within 1\n";
        let said = said_of(text, Answer::Sets(vec![15]));
        let full = "
  shows Alexander in Registry.licence, Alexander in Registry.insured, Alexander in Registry.audited,
        Alexander in Registry.known
";
        assert!(said.ends_with(full), "{said}");
        let first = full.lines().nth(1).expect("a row");
        assert_eq!(first.chars().count(), 100);
        let longer = text.replace("licence", "licences");
        let said = said_of(&longer, Answer::Sets(vec![15]));
        let earlier = "
  shows Alexander in Registry.licences, Alexander in Registry.insured,
        Alexander in Registry.audited, Alexander in Registry.known
";
        assert!(said.ends_with(earlier), "{said}");
    }

    #[test]
    fn refusals_are_said() {
        let words = |number, position| said(Answer::Refused(Refusal { number, position }));
        let none = "refused 9: there is no minimal set for B in A.r within 2\n";
        assert_eq!(words(9, 0), none);
        let more = "refused 10: more than 4096 minimal sets prove B in A.r within 2\n";
        assert_eq!(words(10, 0), more);
        // The others are in the words of the checker.
        let field = "refused 8 at 4: the query's depth limit is out of range\n";
        assert_eq!(words(8, 4), field);
    }
}
