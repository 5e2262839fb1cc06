//! What is shown of a record agrees with what the checker says of it, on
//! made-up tables and records: the nodes, the node at fault and why, the
//! words, and the runs of the automata.

#[allow(dead_code)]
mod shown;

use std::collections::{BTreeMap, BTreeSet};

use bwlchareg::{layout, Number, Query, Refusal};
use reference::derivation::Derivation;
use reference::generate::claims::{Claim, Grown};
use reference::generate::growth::Policy;
use reference::generate::{every, policies, valid};
use reference::random::Random;
use shown::claims::{made_up, query, wallet};
use wallet::derivation::{judge, read, Fault, Goal, Judged, Node, Why};
use wallet::table::{Automaton, Body, Cell, Credential, Edge, Label, Mark, Role, Table};
use wallet::tree::{meetings, text, NODES_SHOWN, WORDS_SHOWN};
use wallet::words::{accepts, roles, run, used_credentials, words, Words};
use wallet::{svg, Wallet};

/// How often each answer and each reason came up.
type Tally = BTreeMap<String, usize>;

/// Judges a claim, and checks everything that is shown of it. A claim whose
/// table is refused has no wallet.
fn check(claim: &Claim, tally: &mut Tally) {
    let Some(wallet) = wallet(claim) else {
        return;
    };
    let judged = judge(&wallet, query(claim), &claim.record);
    let library = bwlchareg::verify(&claim.table, query(claim), &claim.record);
    assert_eq!(judged.verdict, library);
    let key = match judged.refusal() {
        None => "accepted".to_string(),
        Some(refusal) => format!("refused {}", refusal.number),
    };
    *tally.entry(key).or_default() += 1;
    match judged.refusal().map(|refusal| refusal.number) {
        Some(1..=10 | 17) => check_unread(&judged),
        Some(11..=13) => check_fault(&wallet, claim, &judged, tally),
        _ => check_tree(&wallet, claim, &judged, tally),
    }
    check_nodes(&wallet, &judged);
    check_text(&wallet, &judged);
}

/// Nothing is read of a record whose table or query is refused.
fn check_unread(judged: &Judged) {
    assert_eq!(judged.nodes, []);
    assert_eq!(judged.fault, None);
}

/// A record that is stopped is stopped where the checker says, and the reason
/// is the first that applies.
fn check_fault(wallet: &Wallet, claim: &Claim, judged: &Judged, tally: &mut Tally) {
    let (nodes, fault) = read(&wallet.table, judged.query, &claim.record);
    let fault = fault.expect("a fault");
    assert_eq!((&judged.nodes, judged.fault), (&nodes, Some(fault)));
    let refusal = Refusal {
        number: fault.why.refusal(),
        position: fault.node as u64,
    };
    assert_eq!(judged.refusal(), Some(refusal));
    let reason = judged.reason(&wallet.names).expect("a reason");
    assert!(!reason.is_empty());
    assert_eq!(words(wallet, judged), Default::default());
    let why = format!("{:?}", fault.why);
    let why = why.split('(').next().unwrap_or_default();
    *tally.entry(why.to_string()).or_default() += 1;
    if let Why::Remaining(count) = fault.why {
        assert_eq!(fault.node, nodes.len() + 1);
        assert_eq!(layout::NODE * nodes.len() + count, claim.record.len());
        assert!(count > 0 && judged.faulty().is_none());
    } else {
        assert_eq!(fault.node, nodes.len());
        let node = judged.faulty().expect("the node at fault");
        assert_eq!(first_reason(wallet, claim, judged, node), fault.why);
    }
}

/// Why a node is at fault, told from the numbers alone and in the order of
/// docs/DEFINITION.md, "Records".
fn first_reason(wallet: &Wallet, claim: &Claim, judged: &Judged, node: &Node) -> Why {
    let Goal { principal, role } = node.goal;
    let rest = &claim.record[layout::NODE * (node.number - 1)..];
    let &[number, middle, ..] = rest else {
        return match rest {
            [] => Why::NoneLeft,
            _ => Why::OneLeft,
        };
    };
    let count = wallet.table.credentials.len();
    if number == 0 || number as usize > count {
        return Why::NoCredential(number);
    }
    let place = layout::credential(&claim.table, number as usize);
    let [owner, name, kind, first, ..] = claim.table[place] else {
        panic!("a table with {count} credentials");
    };
    if (owner, name) != (role.owner, role.name) {
        return Why::OtherRole(Role { owner, name });
    }
    if kind == 1 && first != principal {
        return Why::OtherPrincipal(first);
    }
    if kind == 3 && !(1..=64).contains(&middle) {
        return Why::MiddleOutOfRange(middle);
    }
    if kind != 3 && middle != 0 {
        return Why::MiddleNotZero(middle);
    }
    if node.level > judged.query.depth {
        return Why::TooDeep(judged.query.depth);
    }
    // The node above at a level is the last one that the record has there.
    let last_at = |level| judged.nodes.iter().rfind(|above| above.level == level);
    let mut above = (1..node.level).filter_map(last_at);
    match above.find(|above| above.goal == node.goal) {
        Some(above) => Why::OnBranch(above.number),
        None => panic!("nothing is wrong with {node:?}"),
    }
}

/// A record that is one whole tree is read whole, and its words and runs are
/// those by which the checker judges it.
fn check_tree(wallet: &Wallet, claim: &Claim, judged: &Judged, tally: &mut Tally) {
    assert_eq!(judged.fault, None);
    assert_eq!(
        read(&wallet.table, judged.query, &claim.record),
        (judged.nodes.clone(), None)
    );
    assert_eq!(layout::NODE * judged.nodes.len(), claim.record.len());
    let used = used_credentials(&judged.nodes);
    let set: u32 = used.iter().map(|number| 1 << (number - 1)).sum();
    let words = words(wallet, judged);
    check_words(wallet, claim, judged, set);
    let mut automata = words.automata.iter();
    let unmet = automata.find(|&&automaton| !is_met(wallet, &words, automaton));
    match unmet {
        None => assert_eq!(judged.verdict, Ok(set)),
        Some(&automaton) => {
            let (number, position) = (14, u64::from(automaton));
            assert_eq!(judged.verdict, Err(Refusal { number, position }));
        }
    }
    for &automaton in &words.automata {
        let mark = wallet.table.automata[automaton as usize - 1].mark;
        let met = is_met(wallet, &words, automaton);
        assert_eq!(words.is_met(automaton), met);
        *tally.entry(format!("{mark:?} met: {met}")).or_default() += 1;
    }
}

/// Whether an automaton accepts as many of the words as it demands.
fn is_met(wallet: &Wallet, words: &Words, automaton: Number) -> bool {
    let rejected = words.rejected(automaton);
    match wallet.table.automata[automaton as usize - 1].mark {
        Mark::EveryWord => rejected == 0,
        Mark::SomeWord => rejected < words.words.len(),
    }
}

/// The words, the used automata and their runs are those of the second
/// implementation.
fn check_words(wallet: &Wallet, claim: &Claim, judged: &Judged, set: u32) {
    let table = reference::table::Table::read(&claim.table).expect("an accepted table");
    let asked = claim.query.read().expect("a valid query");
    let derivation = Derivation::read(&table, asked, &claim.record).expect("a whole tree");
    assert_eq!(derivation.used_set(), set);
    let expected = reference::words::words(&derivation);
    let words = words(wallet, judged);
    assert_eq!(words.words.len(), expected.len());
    for (word, expected) in words.words.iter().zip(&expected) {
        let roles = roles(judged, &judged.nodes[word.leaf]);
        let numbers = roles.iter().map(|role| (role.owner, role.name));
        let other = expected.iter();
        let other = other.map(|role| (role.owner.number(), role.name.number()));
        assert!(numbers.eq(other));
        for &automaton in &words.automata {
            let accepted = reference::words::accepts(&table, automaton, expected);
            assert_eq!(!word.rejected_by(automaton), accepted);
            let run = run(&wallet.table, automaton, &roles);
            assert_eq!(run.len(), roles.len() + 1);
            let last = run.last().copied().unwrap_or_default();
            assert_eq!(accepts(&wallet.table, automaton, last), accepted);
        }
    }
    let used = used_credentials(&judged.nodes);
    let attached = used
        .iter()
        .map(|&number| wallet.table.credentials[number as usize - 1].automaton);
    let attached: BTreeSet<Number> = attached.filter(|&automaton| automaton != 0).collect();
    assert!(attached.iter().eq(&words.automata));
}

/// Every node stands where it is said to stand, and rests on its children.
fn check_nodes(wallet: &Wallet, judged: &Judged) {
    for (index, node) in judged.nodes.iter().enumerate() {
        assert_eq!(node.number, index + 1);
        let last = index + 1 == judged.nodes.len();
        assert!(node.is_whole() || (last && judged.fault.is_some()));
        match node.parent {
            None => assert_eq!((index, node.level), (0, 1)),
            Some(parent) => {
                assert!(parent < index);
                let above = &judged.nodes[parent];
                assert_eq!(node.level, above.level + 1);
                let number = above.credential.expect("a node that was read");
                let credential = &wallet.table.credentials[number as usize - 1];
                let linked = matches!(credential.body, Body::Linked { .. });
                let first = parent + 1 == index;
                let principal = match (linked && first, above.middle) {
                    (true, Some(middle)) => middle,
                    _ => above.goal.principal,
                };
                assert_eq!(node.goal.principal, principal);
            }
        }
    }
}

/// The text ends with the verdict, and marks what is at fault.
fn check_text(wallet: &Wallet, judged: &Judged) {
    let text = text(wallet, judged);
    let last = text.lines().last().unwrap_or_default();
    let marked = text.lines().filter(|line| line.starts_with(">>")).count();
    match judged.refusal() {
        None => {
            assert!(last.starts_with("accepted: used set "), "{last}");
            assert_eq!(marked, 0);
        }
        Some(Refusal { number, position }) => {
            let said = format!("refused {number} at {position}: ");
            assert!(last.starts_with(&said), "{last}");
            let expected = match judged.fault.map(|fault| fault.why) {
                Some(Why::Remaining(_)) => 1,
                Some(_) => 2,
                None if number == 14 => faulty_runs(wallet, judged),
                None => 0,
            };
            assert_eq!(marked, expected, "{text}");
        }
    }
    if judged.nodes.len() <= NODES_SHOWN {
        // A fault and the verdict may say a goal once more.
        let lines = text.lines().filter(|line| !line.contains("on the branch"));
        let shown = lines.filter(|line| line.contains(" in P")).count();
        // The question has a goal, and so has every node.
        assert_eq!(shown, judged.nodes.len() + 1, "{text}");
    }
    check_shown_runs(judged, &text);
    check_meetings(wallet, judged, &text);
}

/// How many runs of used automata that are not met reject, of a record without
/// hidden words.
fn faulty_runs(wallet: &Wallet, judged: &Judged) -> usize {
    let words = words(wallet, judged);
    assert!(words.words.len() <= WORDS_SHOWN);
    let automata = words.automata.iter();
    let unmet = automata.filter(|&&automaton| !is_met(wallet, &words, automaton));
    unmet.map(|&automaton| words.rejected(automaton)).sum()
}

/// Every word that an automaton accepts for which one word is enough is said to
/// meet it, and the first of them where the words are not shown.
fn check_meetings(wallet: &Wallet, judged: &Judged, text: &str) {
    let words = words(wallet, judged);
    if words.words.len() > WORDS_SHOWN {
        return;
    }
    let lenient = words
        .automata
        .iter()
        .filter(|&&automaton| wallet.table.automata[automaton as usize - 1].mark == Mark::SomeWord);
    let accepted = lenient.map(|&automaton| words.words.len() - words.rejected(automaton));
    let accepted: Vec<usize> = accepted.collect();
    let met = text
        .lines()
        .filter(|line| line.ends_with("; met by this word"));
    assert!(
        met.clone().all(|line| line.contains("  accepted: ")),
        "{text}"
    );
    assert_eq!(met.count(), accepted.iter().sum(), "{text}");
    let demands = text
        .lines()
        .filter(|line| line.ends_with(", demands some word"));
    assert_eq!(demands.count(), accepted.len(), "{text}");
    let meetings = meetings(wallet, judged, &words);
    let count = accepted.iter().filter(|count| **count > 0).count();
    assert_eq!(meetings.len(), count);
    for meeting in meetings {
        let earlier = &words.words[..meeting.number];
        let rejected = earlier
            .iter()
            .filter(|word| word.rejected_by(meeting.automaton));
        assert_eq!(rejected.count(), meeting.number - 1, "{text}");
        let line = format!(" {}  {}\n", meeting.number, meeting.roles.join(", "));
        assert!(text.contains(&line), "{line} in {text}");
    }
}

/// The lowest automaton with a marked run is the one at which the record is
/// refused. A run in which no state is left says so.
fn check_shown_runs(judged: &Judged, text: &str) {
    let mut present = 0;
    let mut lowest = None;
    for line in text.lines() {
        if let Some(rest) = line.strip_prefix("constraint constraint-") {
            let number = rest.split(',').next().unwrap_or_default();
            present = number.parse().expect("an automaton's number");
        } else if line.starts_with(">>") && line.contains("rejected:") {
            lowest = lowest.or(Some(present));
            assert_eq!(line.contains("{}"), line.contains("; no state "), "{line}");
            check_place(line);
        }
    }
    let refusal = judged.refusal().filter(|refusal| refusal.number == 14);
    assert_eq!(lowest, refusal.map(|refusal| refusal.position));
}

/// The role after which no state is left is the one before the first empty
/// set, and says which one it is where the run has it more than once.
fn check_place(line: &str) {
    let Some((run, place)) = line.split_once("; no state left after ") else {
        return;
    };
    let (before, _) = run.split_once(" {}").expect("an empty set");
    let role = before.rsplit(' ').next().unwrap_or_default();
    let count = |run: &str| run.split(' ').filter(|word| *word == role).count();
    let which = match count(run) {
        1 => String::new(),
        _ => format!("the {}", count(before)),
    };
    assert!(place.starts_with(&which) && place.ends_with(role), "{line}");
    assert_eq!(place == role, which.is_empty(), "{line}");
}

#[track_caller]
fn met(tally: &Tally, key: &str, least: usize) {
    let count = tally.get(key).copied().unwrap_or_default();
    assert!(count >= least, "{key}: {count} times only, in {tally:?}");
}

#[test]
fn made_up_records_are_shown_as_they_are_judged() {
    let mut tally = Tally::new();
    made_up(1, 500, |claim| check(claim, &mut tally));
    println!("{tally:?}");
    met(&tally, "accepted", 2_000);
    for number in [11, 12, 13, 14] {
        met(&tally, &format!("refused {number}"), 500);
    }
    met(&tally, "refused 8", 100);
    for why in ["NoneLeft", "OneLeft", "Remaining", "NoCredential"] {
        met(&tally, why, 100);
    }
    for why in ["OtherRole", "OtherPrincipal", "MiddleOutOfRange"] {
        met(&tally, why, 100);
    }
    for why in ["MiddleNotZero", "TooDeep", "OnBranch"] {
        met(&tally, why, 100);
    }
    for mark in [Mark::EveryWord, Mark::SomeWord] {
        for is_met in [true, false] {
            met(&tally, &format!("{mark:?} met: {is_met}"), 200);
        }
    }
}

#[test]
fn every_simple_change_of_small_records_is_shown_as_it_is_judged() {
    let mut tally = Tally::new();
    let mut random = Random::new(2);
    let mut bases = 0;
    while bases < 20 {
        let policy = Policy::new(policies::records(&mut random));
        let Some(grown) = Grown::new(&mut random, &policy) else {
            continue;
        };
        if !(3..=12).contains(&grown.nodes.len()) {
            continue;
        }
        bases += 1;
        let claim = grown.claim();
        every::change(&claim).for_each(|(claim, _)| check(&claim, &mut tally));
        every::cut(&claim).for_each(|(claim, _)| check(&claim, &mut tally));
        every::too_deep(&claim, grown.levels()).for_each(|(claim, _)| check(&claim, &mut tally));
        let longer = every::longer(&claim).filter(|(claim, _)| claim.record.len() < 1_000);
        longer.for_each(|(claim, _)| check(&claim, &mut tally));
    }
    println!("{tally:?}");
    met(&tally, "refused 12", 2_000);
    met(&tally, "refused 11", 200);
}

#[test]
fn grown_records_have_the_nodes_that_were_grown() {
    let mut random = Random::new(3);
    let mut compared = 0;
    while compared < 500 {
        let policy = Policy::new(policies::unconstrained(&mut random));
        let Some(grown) = Grown::new(&mut random, &policy) else {
            continue;
        };
        compared += 1;
        let claim = grown.claim();
        let wallet = wallet(&claim).expect("an accepted table");
        let judged = judge(&wallet, query(&claim), &claim.record);
        let shown = judged.nodes.iter().map(|node| {
            let Goal { principal, role } = node.goal;
            let numbers = (node.credential, node.middle, node.level);
            (numbers, (principal, role.owner, role.name))
        });
        let expected = grown.nodes.iter().map(|node| {
            let numbers = (Some(node.credential), Some(node.middle), node.level);
            let role = node.goal.role;
            let goal = (node.goal.principal.number(), role.owner.number());
            (numbers, (goal.0, goal.1, role.name.number()))
        });
        assert!(shown.eq(expected));
    }
}

/// Everything is shown of a record, whatever it is.
fn show(wallet: &Wallet, query: Query, record: &[Number]) -> Judged {
    let judged = judge(wallet, query, record);
    let numbers = wallet.table.numbers();
    assert_eq!(judged.verdict, bwlchareg::verify(&numbers, query, record));
    check_text(wallet, &judged);
    let drawn = svg::picture(wallet, &judged).is_ok();
    let drawable = (1..=svg::MOST_NODES).contains(&judged.nodes.len());
    assert_eq!(drawn, drawable);
    judged
}

/// Attaches a constraint that looks at the owners of roles alone.
fn constrain_owners(random: &mut Random, table: &mut Table, credential: Number) {
    table.automata.push(Automaton {
        start: random.between(1, 3),
        accept: random.between(1, 3),
        mark: *random.pick(&[Mark::EveryWord, Mark::SomeWord]),
    });
    let automaton = table.automata.len() as Number;
    table.credentials[credential as usize - 1].automaton = automaton;
    for _ in 0..random.between(2, 6) {
        let owner = random.pick(&table.credentials).role.owner;
        table.edges.push(Edge {
            automaton,
            from: random.between(0, 1),
            label: Label::Of(owner),
            to: random.between(0, 1),
        });
    }
}

#[test]
fn constraints_on_owners_are_shown_as_they_are_judged() {
    let mut random = Random::new(7);
    let (mut accepted, mut rejected) = (0, 0);
    while accepted + rejected < 1_000 {
        let policy = Policy::new(policies::unconstrained(&mut random));
        let Some(grown) = Grown::new(&mut random, &policy) else {
            continue;
        };
        let claim = grown.claim();
        let mut wallet = wallet(&claim).expect("an accepted table");
        constrain_owners(&mut random, &mut wallet.table, claim.record[0]);
        match show(&wallet, query(&claim), &claim.record).refusal() {
            None => accepted += 1,
            Some(refusal) => {
                assert_eq!((refusal.number, refusal.position), (14, 1));
                rejected += 1;
            }
        }
    }
    let both = accepted > 100 && rejected > 100;
    assert!(both, "{accepted} accepted, {rejected} rejected");
}

/// A number from a range that is wrong now and then.
fn number(random: &mut Random, highest: Number) -> Number {
    match random.below(64) {
        0 => 0,
        1 => highest.wrapping_add(1),
        2 => random.between(0, Number::MAX),
        _ => random.between(1, highest.clamp(1, 4)),
    }
}

fn any_query(random: &mut Random) -> Query {
    Query {
        principal: number(random, 64),
        owner: number(random, 64),
        name: number(random, 64),
        depth: number(random, 16),
    }
}

fn any_record(random: &mut Random) -> Vec<Number> {
    let length = random.below(40);
    let greatest = *random.pick(&[2, 20, 64, Number::MAX]);
    (0..length)
        .map(|index| match (index % 2, random.below(4)) {
            (1, 1..) => 0,
            _ => random.between(0, greatest),
        })
        .collect()
}

#[test]
fn any_numbers_are_shown_with_accepted_tables() {
    let mut random = Random::new(4);
    for _ in 0..3_000 {
        let head = valid::head(&mut random);
        let numbers = valid::records(&mut random, head).numbers();
        let table = Table::of_numbers(&numbers).expect("an accepted table");
        let wallet = Wallet {
            table,
            ..Wallet::default()
        };
        let record = any_record(&mut random);
        show(&wallet, any_query(&mut random), &record);
    }
}

fn any_role(random: &mut Random) -> Role {
    Role {
        owner: number(random, 64),
        name: number(random, 64),
    }
}

fn any_body(random: &mut Random) -> Body {
    match random.below(4) {
        0 => Body::Member(number(random, 64)),
        1 => Body::Contained(any_role(random)),
        2 => Body::Linked {
            first: number(random, 64),
            second: number(random, 64),
        },
        _ => Body::Parts(number(random, 3)),
    }
}

/// A table of any records. Most are refused.
fn any_table(random: &mut Random) -> Table {
    let mut table = Table::default();
    for _ in 0..random.below(6) {
        table.credentials.push(Credential {
            role: any_role(random),
            body: any_body(random),
            automaton: *random.pick(&[0, 0, 1, 2]),
        });
    }
    for index in 0..random.below(5) as Number {
        let any = number(random, 4);
        table.cells.push(Cell {
            role: any_role(random),
            next: *random.pick(&[0, index + 2, any]),
        });
    }
    for _ in 0..random.below(3) {
        table.automata.push(Automaton {
            start: random.between(0, 3),
            accept: random.between(0, 3),
            mark: *random.pick(&[Mark::EveryWord, Mark::SomeWord]),
        });
    }
    for _ in 0..random.below(4) {
        let role = any_role(random);
        table.edges.push(Edge {
            automaton: number(random, 2),
            from: *random.pick(&[0, 0, 1, 15, 16]),
            label: *random.pick(&[
                Label::Only(role),
                Label::Any,
                Label::Not(role),
                Label::Of(role.owner),
            ]),
            to: number(random, 15),
        });
    }
    table
}

#[test]
fn any_numbers_are_shown_with_any_tables() {
    let mut random = Random::new(5);
    let (mut refused, mut read) = (0, 0);
    for _ in 0..20_000 {
        let wallet = Wallet {
            table: any_table(&mut random),
            ..Wallet::default()
        };
        let record = any_record(&mut random);
        let judged = show(&wallet, any_query(&mut random), &record);
        match judged.refusal() {
            Some(Refusal { number: 1..=8, .. }) => refused += 1,
            _ => read += 1,
        }
    }
    assert!(refused > 500 && read > 500, "{refused} and {read}");
}

#[test]
fn millions_of_numbers_are_no_trouble() {
    let mut random = Random::new(6);
    let record: Vec<Number> = (0..4_000_000).map(|_| random.between(0, 20)).collect();
    let wallet = Wallet {
        table: shown::constrained_shop().table,
        ..Wallet::default()
    };
    let judged = show(&wallet, shown::Q, &record);
    assert!(judged.refusal().is_some());
    let mut longer = vec![4, 0];
    longer.extend(record);
    let judged = show(&wallet, shown::Q, &longer);
    let fault = Fault {
        node: 2,
        why: Why::Remaining(4_000_000),
    };
    assert_eq!(judged.fault, Some(fault));
}
