//! What the library answers, in words: the most useful first.

use bwlchareg::{Number, Refusal};

use crate::answer::Answer;
use crate::explain::{credentials, explain, heading};
use crate::limits::DEPTH;
use crate::proof::joined;
use crate::tree::{counted, faults, verdict};
use crate::why::names::name;
use crate::why::{By, Deeper, Finding, KeptOff, Least, Lone, Near, Obstacle, Sort, Unmet, Why};
use crate::words::words;
use crate::Wallet;

/// The most numbers of a record, and of a list, that a line has.
const NUMBERS_SHOWN: usize = 32;
const SETS_SHOWN: usize = 8;
/// The most words that are shown of those that a constraint rejects.
const FAULTS_SHOWN: usize = 3;
/// The most roles and names that are told one by one.
const MOST_TOLD: usize = 20;

/// The whole answer to the question why.
pub fn text(wallet: &Wallet, why: &Why) -> String {
    let mut text = match &why.answer {
        Answer::Sets(sets) => heading(wallet, why.query, sets.len()),
        refused => explain(wallet, why.query, refused),
    };
    for finding in findings_of(wallet, why) {
        text += &format!("\n{}\n", finding.sentence);
        for line in finding.details {
            text += &format!("  {line}\n");
        }
    }
    text
}

/// What was found out, in the order in which it is said.
pub fn findings_of(wallet: &Wallet, why: &Why) -> Vec<Finding> {
    let remedies = why.lone.iter().filter_map(|lone| remedy(wallet, why, lone));
    let mut found: Vec<Finding> = remedies.collect();
    // A depth limit that is enough is surer than a name that may be misspelt.
    let place = match why.least {
        Some(Least::Nowhere) => found.len(),
        _ => 0,
    };
    found.splice(place..place, depth(why));
    found.extend(constraints(wallet, why));
    found.extend(undefined(wallet, why));
    if is_none(&why.answer) {
        found.extend(missing(wallet, why));
        found.extend(suspects(wallet, why));
    }
    if why.cut_short {
        found.push(plain(
            "Not all was asked: the library takes too long for this wallet.",
        ));
    } else if found.is_empty() && why.answer.refusal().is_none() {
        found.push(plain(
            "Nothing was found that keeps a further set off the list.",
        ));
    }
    found
}

/// Whether there is no set.
fn is_none(answer: &Answer) -> bool {
    let refusal = answer.refusal();
    refusal.is_some_and(|refusal| refusal.number == Refusal::NONE)
}

/// A sentence with nothing below it.
fn plain(sentence: impl Into<String>) -> Finding {
    listed(sentence, Vec::new())
}

/// A sentence with lines below it, which are not too many.
fn listed(sentence: impl Into<String>, mut details: Vec<String>) -> Finding {
    let more = details.len().saturating_sub(MOST_TOLD);
    if more > 0 {
        details.truncate(MOST_TOLD);
        details.push(format!("... and {more} more"));
    }
    Finding {
        sentence: sentence.into(),
        details,
    }
}

/// The first of some numbers.
fn first<Value: ToString>(numbers: &[Value], most: usize, between: &str) -> String {
    let shown = joined(&numbers[..numbers.len().min(most)], between);
    match numbers.len() > most {
        true => format!("{shown}{between}..."),
        false => shown,
    }
}

/// The depth limit above the query's at which there is a set, or another one.
fn depth(why: &Why) -> Option<Finding> {
    if let Some(Deeper { depth, sets }) = &why.deeper {
        let sets = first(sets, SETS_SHOWN, ", ");
        let sentence =
            format!("Within {depth} the list has sets that are not on this one: {sets}.");
        return Some(plain(sentence));
    }
    let sentence = match (why.least?, why.least_unconstrained) {
        (Least::At(least), _) if least <= why.query.depth => return None,
        (Least::At(least), Some(Least::At(other))) if other != least => format!(
            "The least depth limit at which a set exists is {least}; without constraints it is \
             {other}."
        ),
        (Least::At(least), _) => {
            format!("The least depth limit at which a set exists is {least}.")
        }
        (Least::Nowhere, Some(Least::At(other))) => format!(
            "No depth limit up to {DEPTH} gives a set; without constraints the least that does \
             is {other}."
        ),
        (Least::Nowhere, Some(Least::Nowhere)) => {
            format!("No depth limit up to {DEPTH} gives a set, with constraints or without.")
        }
        (Least::Nowhere, None) => format!("No depth limit up to {DEPTH} gives a set."),
    };
    Some(plain(sentence))
}

/// That another name in the place of one gives sets that are not on the list.
fn remedy(wallet: &Wallet, why: &Why, lone: &Lone) -> Option<Finding> {
    let Near { number, answer } = lone.near.as_ref()?;
    let (query, Answer::Sets(sets)) = answer.as_ref()? else {
        return None;
    };
    let is_listed = |set| matches!(&why.answer, Answer::Sets(known) if known.contains(set));
    if sets.iter().all(is_listed) {
        return None;
    }
    let (new, old) = (name(wallet, lone.sort, *number), own_name(wallet, lone));
    let is_near = |own: &&Lone| (own.sort, own.number) == (lone.sort, *number);
    let here = place(lone);
    let names = match why.lone.iter().find(is_near) {
        // Either may be the wrong one.
        Some(near) => format!("one name for `{new}` {} and `{old}` {here}", place(near)),
        None => format!("`{new}` for `{old}` {here}"),
    };
    let heading = heading(wallet, *query, sets.len());
    let (said, sets) = (heading.trim_end(), first(sets, SETS_SHOWN, ", "));
    Some(plain(format!("With {names}, {said}: {sets}.")))
}

fn own_name(wallet: &Wallet, lone: &Lone) -> String {
    name(wallet, lone.sort, lone.number)
}

/// Where a name stands.
fn place(lone: &Lone) -> String {
    lone.line
        .map_or("in the query".to_string(), |line| format!("on line {line}"))
}

/// What would be listed without constraints, and each set that they keep off the
/// list.
fn constraints(wallet: &Wallet, why: &Why) -> Vec<Finding> {
    let Some(own) = why
        .unconstrained
        .as_ref()
        .filter(|own| !own.sets.is_empty())
    else {
        return Vec::new();
    };
    let more = if own.is_cut { "more than " } else { "" };
    let all = counted(own.sets.len(), "minimal set");
    let kept = match (&why.answer, own.kept_off_count) {
        (Answer::Sets(sets), 0) if *sets == own.sets => {
            return vec![plain("Without constraints the list is the same.")];
        }
        (Answer::Sets(_), 1) => "; one of them is not on the list",
        (Answer::Sets(_), count) => &format!("; {count} of them are not on the list"),
        _ => "",
    };
    let sentence = format!("Without constraints {more}{all} would prove it{kept}.");
    let mut found = vec![plain(sentence)];
    found.extend(own.kept_off.iter().map(|set| kept_off(wallet, set)));
    let left = own.kept_off_count - own.kept_off.len();
    if left > 0 {
        found.push(plain(format!("{} left out.", counted(left, "further set"))));
    }
    found
}

/// A set that constraints keep off the list, and which ones do.
fn kept_off(wallet: &Wallet, own: &KeptOff) -> Finding {
    let constraint = |automaton: Number| {
        let name = wallet.names.constraint(automaton);
        let line = wallet.lines.automaton(automaton);
        line.map_or(name.clone(), |line| format!("{name} (line {line})"))
    };
    let enough = own.obstacles.iter().filter(|obstacle| obstacle.is_enough);
    let enough: Vec<String> = enough.map(|own| constraint(own.automaton)).collect();
    let why = match enough.len() {
        0 => "each of its constraints can be met, but not all by one record".to_string(),
        1 => format!("no record of it meets constraint {}", enough[0]),
        _ => format!(
            "no record of it meets any of the constraints {}",
            enough.join(", ")
        ),
    };
    let mut details = credentials(wallet, own.set);
    if let Some(judged) = &own.judged {
        let words = words(wallet, judged);
        let numbers = first(&judged.numbers(), NUMBERS_SHOWN, " ");
        details.push(format!("by the record {numbers}"));
        let rejecting = own.obstacles.iter().filter(|obstacle| obstacle.rejects);
        for Obstacle { automaton, .. } in rejecting {
            details.extend(faults(wallet, judged, &words, *automaton, FAULTS_SHOWN));
        }
        details.push(verdict(wallet, judged, &words));
    } else {
        details.push("its first record is too long to be looked at".to_string());
    }
    Finding {
        sentence: format!("Set {}: {why}.", own.set),
        details,
    }
}

/// The roles that no credential defines.
fn undefined(wallet: &Wallet, why: &Why) -> Option<Finding> {
    let row = |unmet: &Unmet| {
        let role = wallet.names.role(unmet.role);
        format!("{role}, asked for by {}", asking(wallet, unmet))
    };
    let rows: Vec<String> = why.undefined.iter().map(row).collect();
    let sentence = format!("No credential defines {}", these_roles(rows.len())?);
    Some(listed(sentence, rows))
}

/// The roles into which no credential puts the query's principal.
fn missing(wallet: &Wallet, why: &Why) -> Option<Finding> {
    let names = &wallet.names;
    let row = |unmet: &Unmet| {
        let others: Vec<String> = unmet
            .others
            .iter()
            .map(|own| names.principal(*own))
            .collect();
        let (role, others) = (names.role(unmet.role), others.join(", "));
        let asking = asking(wallet, unmet);
        format!("{role}, asked for by {asking}; its credentials name {others}")
    };
    let rows: Vec<String> = why.missing.iter().map(row).collect();
    let principal = names.principal(why.query.principal);
    let roles = these_roles(rows.len())?;
    Some(listed(
        format!("No credential puts {principal} into {roles}"),
        rows,
    ))
}

/// So many roles that are told below.
fn these_roles(count: usize) -> Option<&'static str> {
    match count {
        0 => None,
        1 => Some("this role:"),
        _ => Some("these roles:"),
    }
}

/// What asks for a role.
fn asking(wallet: &Wallet, unmet: &Unmet) -> String {
    let one = |by: &By| match by {
        By::Query => match wallet.lines.query {
            Some(line) => format!("the query, line {line}"),
            None => "the query".to_string(),
        },
        By::Credential(number) => match wallet.lines.credential(*number) {
            Some(line) => format!("credential {number}, line {line}"),
            None => format!("credential {number}"),
        },
    };
    unmet.by.iter().map(one).collect::<Vec<String>>().join("; ")
}

/// The names that stand on one line only, as far as no remedy has them.
fn suspects(wallet: &Wallet, why: &Why) -> Option<Finding> {
    let mut told: Vec<(Sort, Number)> = Vec::new();
    for lone in &why.lone {
        if let (Some(near), Some(_)) = (&lone.near, remedy(wallet, why, lone)) {
            told.extend([(lone.sort, lone.number), (lone.sort, near.number)]);
        }
    }
    let row = |lone: &Lone| {
        let own = format!("`{}` {}", own_name(wallet, lone), place(lone));
        let Some(near) = &lone.near else {
            return own;
        };
        let like = name(wallet, lone.sort, near.number);
        match &near.answer {
            Some((_, answer)) if is_none(answer) => {
                format!("{own}; with `{like}` in its place there is no set either")
            }
            _ => format!("{own}; much like `{like}`"),
        }
    };
    let rest = why.lone.iter();
    let rest = rest.filter(|lone| !told.contains(&(lone.sort, lone.number)));
    let rows: Vec<String> = rest.map(row).collect();
    let sentence = match rows.len() {
        0 => return None,
        1 => "This name stands on one line only:",
        _ => "These names stand on one line only:",
    };
    Some(listed(sentence, rows))
}
