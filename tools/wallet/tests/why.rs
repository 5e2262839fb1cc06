//! What `wallet why` says: by hand; and on made-up wallets, where the second
//! implementation gives the same answers to all that was asked.

mod common;
mod tool;

use std::collections::BTreeSet;
use std::time::Duration;

use bwlchareg::{layout, Number, Query, Refusal};
use common::{made_up, marked, nameless, query};
use reference::generate::{crossed, wallets};
use reference::random::Random;
use wallet::answer::Answer;
use wallet::parse::parse;
use wallet::print::print;
use wallet::table::{Body, Role};
use wallet::why::{findings, text, why, why_within, Deeper, Least, Sort, Why};
use wallet::Wallet;

use tool::{indented, run, CONSTRAINED};

/// A query as the second implementation takes it.
fn asked(query: Query) -> reference::Query {
    let Query {
        principal,
        owner,
        name,
        depth,
    } = query;
    reference::Query::from_numbers([principal, owner, name, depth])
}

/// What the second implementation lists, if anything.
fn listed(table: &[Number], query: Query) -> Option<Vec<u32>> {
    let mut cells = vec![0; 4096];
    let count = reference::list(table, asked(query), &mut cells).ok()?;
    cells.truncate(count);
    Some(cells)
}

/// A table with the automata that are kept.
fn with(table: &[Number], is_kept: impl Fn(Number) -> bool) -> Vec<Number> {
    let mut table = table.to_vec();
    for number in 1..=layout::counts(&table)[0] {
        let automaton = layout::credential(&table, number).end - 1;
        if !is_kept(table[automaton]) {
            table[automaton] = 0;
        }
    }
    table
}

/// The least depth limit at which the second implementation finds a set.
fn least(table: &[Number], asked: Query) -> Least {
    let found = (1..=16).find(|&depth| listed(table, Query { depth, ..asked }).is_some());
    found.map_or(Least::Nowhere, Least::At)
}

/// The sets of an answer; none where it is refused.
fn sets(answer: &Answer) -> Vec<u32> {
    match answer {
        Answer::Sets(sets) => sets.clone(),
        Answer::Refused(_) => Vec::new(),
    }
}

/// How often each thing came up.
#[derive(Debug, Default)]
struct Seen {
    deeper: usize,
    kept_off: usize,
    rejecting: usize,
    undefined: usize,
    missing: usize,
    tried: usize,
    remedies: usize,
}

/// Asks the second implementation all that the library was asked.
fn compare(numbers: &[Number], asked: Query, seen: &mut Seen) {
    let wallet = print(&nameless(numbers, Some(asked)));
    let wallet = parse(wallet.as_bytes()).expect("a printed text");
    let why = why(&wallet, asked);
    assert!(!why.cut_short);
    let expected = listed(numbers, asked).unwrap_or_default();
    assert_eq!(sets(&why.answer), expected);
    let bare = with(numbers, |_| false);
    assert_eq!(why.least, Some(least(numbers, asked)));
    let constrained = bare != numbers;
    let bare_least = constrained.then(|| least(&bare, asked));
    assert_eq!(why.least_unconstrained, bare_least);
    compare_deeper(numbers, &why, seen);
    assert_eq!(why.unconstrained.is_some(), constrained);
    if constrained {
        compare_unconstrained(numbers, &why, seen);
    }
    compare_roles(&bare, &wallet, &why, seen);
    compare_names(&wallet, &why, seen);
    let said = text(&wallet, &why);
    assert!(findings(&wallet, asked)
        .iter()
        .all(|own| said.contains(&own.sentence)));
}

/// The sets of a list that are not on another.
fn others(sets: Vec<u32>, known: &[u32]) -> Vec<u32> {
    sets.into_iter()
        .filter(|set| !known.contains(set))
        .collect()
}

fn compare_deeper(numbers: &[Number], why: &Why, seen: &mut Seen) {
    let known = sets(&why.answer);
    let mut deeper = (why.query.depth + 1..=16).map(|depth| {
        let list = listed(numbers, Query { depth, ..why.query });
        let sets = others(list.unwrap_or_default(), &known);
        Deeper { depth, sets }
    });
    let first = deeper.find(|deeper| !deeper.sets.is_empty() && !known.is_empty());
    assert_eq!(why.deeper, first);
    seen.deeper += usize::from(first.is_some());
}

fn compare_unconstrained(numbers: &[Number], why: &Why, seen: &mut Seen) {
    let own = why
        .unconstrained
        .as_ref()
        .expect("a list without constraints");
    let bare = with(numbers, |_| false);
    let expected = listed(&bare, why.query).unwrap_or_default();
    assert_eq!(own.sets, expected);
    let kept_off = others(expected, &sets(&why.answer));
    assert_eq!(own.kept_off_count, kept_off.len());
    for (own, set) in own.kept_off.iter().zip(kept_off) {
        assert_eq!(own.set, set);
        seen.kept_off += 1;
        let Some(judged) = &own.judged else {
            continue;
        };
        assert_eq!(judged.refusal().map(|refusal| refusal.number), Some(14));
        let record = judged
            .nodes
            .iter()
            .flat_map(|node| [node.credential, node.middle]);
        let record: Vec<Number> = record.flatten().collect();
        assert!(!own.obstacles.is_empty());
        for obstacle in &own.obstacles {
            let alone = with(numbers, |automaton| automaton == obstacle.automaton);
            let list = listed(&alone, why.query).unwrap_or_default();
            assert_eq!(obstacle.is_enough, !list.contains(&set));
            let verdict = reference::verify(&alone, asked(why.query), &record);
            assert_eq!(obstacle.rejects, verdict.is_err());
            seen.rejecting += usize::from(obstacle.rejects);
        }
    }
}

/// Whether the second implementation finds that a principal is in a role.
fn is_in(bare: &[Number], principal: Number, role: Role) -> bool {
    let Role { owner, name } = role;
    let asked = Query {
        principal,
        owner,
        name,
        depth: 16,
    };
    listed(bare, asked).is_some()
}

/// The roles that are asked for, and whether of the query's principal.
fn wanted(bare: &[Number], wallet: &Wallet, asked: Query) -> BTreeSet<(Role, bool)> {
    let table = &wallet.table;
    let mut wanted = BTreeSet::new();
    let mut waiting = vec![(Role::asked(asked), true)];
    while let Some((role, own)) = waiting.pop() {
        if !wanted.insert((role, own)) {
            continue;
        }
        for credential in table.credentials.iter().filter(|own| own.role == role) {
            match credential.body {
                Body::Member(_) => {}
                Body::Contained(other) => waiting.push((other, own)),
                Body::Parts(first) => {
                    waiting.extend(table.parts(first).into_iter().map(|part| (part, own)));
                }
                Body::Linked { first, second } => {
                    let owner = role.owner;
                    let link = Role { owner, name: first };
                    waiting.push((link, false));
                    let middles = wallet.names.principals.keys();
                    let middles = middles.filter(|middle| is_in(bare, **middle, link));
                    waiting.extend(middles.map(|&owner| {
                        let name = second;
                        (Role { owner, name }, own)
                    }));
                }
            }
        }
    }
    wanted
}

fn compare_roles(bare: &[Number], wallet: &Wallet, why: &Why, seen: &mut Seen) {
    let wanted = wanted(bare, wallet, why.query);
    let definers = |role: Role| {
        wallet
            .table
            .credentials
            .iter()
            .filter(move |own| own.role == role)
    };
    let is_plain = |role| definers(role).all(|own| matches!(own.body, Body::Member(_)));
    let undefined = wanted
        .iter()
        .filter(|(role, _)| definers(*role).count() == 0);
    let undefined: BTreeSet<Role> = undefined.map(|(role, _)| *role).collect();
    let own: BTreeSet<Role> = why.undefined.iter().map(|unmet| unmet.role).collect();
    assert_eq!(own, undefined);
    let missing = wanted.iter().filter(|(role, own)| {
        let there = definers(*role).count() > 0;
        *own && there && is_plain(*role) && !is_in(bare, why.query.principal, *role)
    });
    let missing: BTreeSet<Role> = missing.map(|(role, _)| *role).collect();
    let own: BTreeSet<Role> = why.missing.iter().map(|unmet| unmet.role).collect();
    assert_eq!(own, missing);
    seen.undefined += undefined.len();
    seen.missing += missing.len();
}

/// The words of a text's line.
fn words(line: &str) -> Vec<&str> {
    let is_in_name = |sign: char| sign.is_alphanumeric() || sign == '-';
    line.split(|sign| !is_in_name(sign)).collect()
}

fn compare_names(wallet: &Wallet, why: &Why, seen: &mut Seen) {
    let text = print(wallet);
    // The roles of `cell` lines stand in the text twice, and in the table once.
    if text.contains("cell ") {
        return;
    }
    let numbering = |line: &&str| line.starts_with("principals ") || line.starts_with("names ");
    let stand = |name: &str| {
        let lines = text.lines().filter(|line| !numbering(line));
        lines.filter(|line| words(line).contains(&name)).count()
    };
    let name = |sort, number| match sort {
        Sort::Principal => wallet.names.principal(number),
        Sort::RoleName => wallet.names.role_name(number),
    };
    let known = wallet
        .names
        .principals
        .values()
        .chain(wallet.names.roles.values());
    let lone: BTreeSet<String> = known.filter(|name| stand(name) == 1).cloned().collect();
    let own = why.lone.iter().map(|own| name(own.sort, own.number));
    assert_eq!(own.collect::<BTreeSet<String>>(), lone);
    for own in &why.lone {
        let old = name(own.sort, own.number);
        let line = own.line.and_then(|line| text.lines().nth(line - 1));
        assert!(line.is_some_and(|line| words(line).contains(&old.as_str())));
        let Some(near) = &own.near else {
            continue;
        };
        let new = name(own.sort, near.number);
        let changed = text.lines().map(|line| match numbering(&line) {
            true => format!("{line}\n"),
            false => format!("{}\n", replaced(line, &old, &new)),
        });
        let changed = parse(changed.collect::<String>().as_bytes()).expect("a text");
        let (asked, answer) = near.answer.as_ref().expect("an answer");
        let numbers = changed.table.numbers();
        assert_eq!(sets(answer), listed(&numbers, *asked).unwrap_or_default());
        let own = changed.query.expect("a query");
        let deeper = Query {
            depth: asked.depth,
            ..own
        };
        assert_eq!(*asked, deeper);
        if asked.depth > own.depth {
            assert_eq!(least(&numbers, own), Least::At(asked.depth));
        }
        seen.tried += 1;
        seen.remedies += usize::from(*answer != why.answer);
    }
}

/// A line with one word in the place of another.
fn replaced(line: &str, old: &str, new: &str) -> String {
    let mut line = format!(" {line} ");
    let ends = [" ", ".", ","];
    for (before, after) in ends.iter().flat_map(|one| ends.map(|other| (*one, other))) {
        let (from, to) = (
            format!("{before}{old}{after}"),
            format!("{before}{new}{after}"),
        );
        line = line.replace(&from, &to).replace(&from, &to);
    }
    line
}

#[test]
fn the_second_implementation_gives_the_same_answers() {
    let mut random = Random::new(2024);
    let mut seen = Seen::default();
    for round in 0..300 {
        let (numbers, asked) = match round % 3 {
            0 => made_up(&mut random),
            kind => {
                let grown = match kind {
                    1 => wallets::made_up(&mut random),
                    _ => crossed::made_up(&mut random),
                };
                let mut asked = query(grown.query);
                asked.depth = asked.depth.saturating_sub(random.between(0, 2)).max(1);
                if random.one_in(3) {
                    asked.principal = random.between(1, 6);
                }
                (marked(&mut random, grown.records.numbers()), asked)
            }
        };
        compare(&numbers, asked, &mut seen);
    }
    println!("{seen:?}");
    let often = [
        seen.kept_off,
        seen.rejecting,
        seen.undefined,
        seen.missing,
        seen.tried,
    ];
    assert!(often.iter().all(|count| *count > 50), "{seen:?}");
    assert!(seen.deeper > 10 && seen.remedies > 5, "{seen:?}");
}

fn said(text: &str) -> String {
    let wallet = parse(text.as_bytes()).expect("a wallet");
    let asked = wallet.query.expect("a query");
    wallet::why::text(&wallet, &why(&wallet, asked))
}

const SHOP: &str = "Shop.discount <- Shop.accredited.student\nShop.accredited <- School\n\
    School.student <- Ann\nAnn in Shop.discount within 2\n";

#[test]
fn nothing_is_in_the_way() {
    let words = "1 minimal set proves Ann in Shop.discount within 2\n\n\
        Nothing was found that keeps a further set off the list.\n";
    assert_eq!(said(SHOP), words);
}

#[test]
fn the_depth_limit_is_too_low() {
    let refused = "refused 9: there is no minimal set for Ann in Shop.discount within 1\n";
    let low = SHOP.replace("within 2", "within 1");
    let words = "\nThe least depth limit at which a set exists is 2.\n";
    assert_eq!(said(&low), format!("{refused}{words}"));
    // Set 8 is there, and set 7 would be.
    let words = "1 minimal set proves Ann in Shop.discount within 1\n\n\
        Within 2 the list has sets that are not on this one: 7.\n";
    assert_eq!(said(&format!("{low}Shop.discount <- Ann\n")), words);
}

#[test]
fn a_name_is_misspelt() {
    let refused = "refused 9: there is no minimal set for Ann in Shop.discount within 2\n";
    let more = "School.staff <- Bob\nBob.student <- School\nShop.accredited <- Bob\n";
    for (right, slip, names) in [
        // Each of the two stands once, and may be the wrong one.
        (
            "accredited <-",
            "acredited <-",
            "one name for `accredited` on line 1 and `acredited` on line 2",
        ),
        (
            "student <-",
            "studnet <-",
            "one name for `student` on line 1 and `studnet` on line 3",
        ),
        (
            "School\n",
            "Schol\n",
            "one name for `Schol` on line 2 and `School` on line 3",
        ),
    ] {
        let words = format!(
            "{refused}\nWith {names}, 1 minimal set proves Ann in Shop.discount within 2: 7.\n\n\
             No depth limit up to 16 gives a set.\n"
        );
        let said = said(&SHOP.replace(right, slip));
        assert!(said.starts_with(&words), "{said}");
    }
    for (right, slip, names) in [
        (
            "accredited <- School",
            "acredited <- School",
            "`accredited` for `acredited` on line 2",
        ),
        (
            "student <- Ann",
            "studnet <- Ann",
            "`student` for `studnet` on line 3",
        ),
        (
            "School.student",
            "school.student",
            "`School` for `school` on line 3",
        ),
        (
            "accredited <- School",
            "accredited <- Schol",
            "`School` for `Schol` on line 2",
        ),
    ] {
        let said = said(&format!("{}{more}", SHOP.replace(right, slip)));
        let words = "1 minimal set proves Ann in Shop.discount within 2: 7.\n";
        let words = format!("{refused}\nWith {names}, {words}");
        assert!(said.starts_with(&words), "{said}");
    }
    // Also where the depth limit is too low for the right name.
    let text = SHOP.replace("student <-", "studnet <-");
    let text = text.replace("within 2", "within 1");
    let words = "\nWith one name for `student` on line 1 and `studnet` on line 3, 1 minimal set \
        proves Ann in Shop.discount within 2: 7.\n";
    assert!(said(&text).contains(words), "{}", said(&text));
}

#[test]
fn a_credential_is_missing() {
    let text = SHOP.replace("School.student <- Ann", "School.staff <- Ann");
    let words = "refused 9: there is no minimal set for Ann in Shop.discount within 2\n\n\
        No depth limit up to 16 gives a set.\n\n\
        No credential defines this role:\n\
        \x20 School.student, asked for by credential 1, line 1\n\n\
        These names stand on one line only:\n\
        \x20 `student` on line 1\n\
        \x20 `staff` on line 3\n";
    assert_eq!(said(&text), words);
    let text = SHOP.replace(
        "student <- Ann",
        "student <- Bob\nSchool.student <- Eve\nBob.a <- Ann",
    );
    let words = "\n\nNo credential puts Ann into this role:\n\
        \x20 School.student, asked for by credential 1, line 1; its credentials name Bob, Eve\n\n\
        These names stand on one line only:\n\
        \x20 `Eve` on line 4\n\
        \x20 `a` on line 5\n";
    assert!(said(&text).ends_with(words), "{}", said(&text));
}

#[test]
fn a_constraint_is_in_the_way() {
    let done = run(&["why", CONSTRAINED], b"");
    assert_eq!((done.code, done.err.as_str()), (Some(0), ""));
    let words = "\
1 minimal set proves Ann in Shop.discount within 2

Without constraints 2 minimal sets would prove it; one of them is not on the list.

Set 7: no record of it meets constraint not-for-discounts (line 10).
   1  Shop.discount <- Shop.accredited.student       line 5
   2  Shop.accredited <- School                      line 6
   3  School.student <- Ann under not-for-discounts  line 7
  by the record 1 2 2 0 3 0
  constraint not-for-discounts, attached to credential 3, accepts in {1}
  >> 1  rejected: {0} Shop.discount {} Shop.accredited {}; no state left after Shop.discount
  >> 2  rejected: {0} Shop.discount {} School.student {}; no state left after Shop.discount
  refused 14 at 1: constraint not-for-discounts rejects 2 of 2 words
";
    assert_eq!(done.text(), words);
    // The status is that of the list.
    let none = [
        "why",
        CONSTRAINED,
        "--query",
        "School in Shop.discount within 2",
    ];
    assert_eq!(run(&none, b"").code, Some(1));
}

/// B is in Y.y by Y.z or by Y.w, and all credentials are needed in either case.
/// One constraint is against the first way and one against the second.
const TWO_WAYS: &str = "\
A.r <- A.l & Y.y & A.k & A.j
A.l <- Y.z & Y.w
A.k <- A.m.t
A.j <- A.m.u
A.m <- Y.y
Y.y <- Y.z
Y.y <- Y.w
Y.z <- B under not-z
Y.w <- B under not-w
Y.z <- M
Y.w <- N
M.t <- B
N.u <- B
B in A.r within 5

constraint not-z
  start 0
  accept 1 2 3
  0 -- any --> 1
  1 -- Y.y --> 2
  1 -- not Y.y --> 3
  2 -- not Y.z --> 3
  3 -- any --> 3

constraint not-w
  start 0
  accept 1 2 3
  0 -- any --> 1
  1 -- Y.y --> 2
  1 -- not Y.y --> 3
  2 -- not Y.w --> 3
  3 -- any --> 3
";

#[test]
fn constraints_that_can_be_met_but_not_together() {
    let said = said(TWO_WAYS);
    let words = "\n\nSet 8191: each of its constraints can be met, but not all by one record.\n";
    assert!(said.contains(words), "{said}");
    assert!(
        said.contains("\n  refused 14 at 1: constraint not-z rejects "),
        "{said}"
    );
    for other in ["not-z", "not-w"] {
        let one = TWO_WAYS.replace(&format!(" under {other}"), "");
        let wallet = parse(one.as_bytes()).expect("a wallet");
        let why = why(&wallet, wallet.query.expect("a query"));
        assert_eq!(sets(&why.answer), [8191]);
    }
}

#[test]
fn without_time_nothing_more_is_asked() {
    let wallet = parse(SHOP.replace("within 2", "within 1").as_bytes()).expect("a wallet");
    let asked = wallet.query.expect("a query");
    let why = why_within(&wallet, asked, Duration::ZERO);
    assert!(why.cut_short);
    assert_eq!((why.least, &why.unconstrained), (None, &None));
    let words = "refused 9: there is no minimal set for Ann in Shop.discount within 1\n\n\
        Not all was asked: the library takes too long for this wallet.\n";
    assert_eq!(text(&wallet, &why), words);
}

#[test]
fn a_wallet_that_is_refused_is_not_asked_about() {
    let wallet = parse(SHOP.as_bytes()).expect("a wallet");
    let asked = Query {
        depth: 17,
        ..wallet.query.expect("a query")
    };
    let why = why(&wallet, asked);
    let refusal = why.answer.refusal().map(|refusal| refusal.number);
    assert_eq!(refusal, Some(8));
    assert_ne!(refusal, Some(Refusal::NONE));
    assert_eq!(findings(&wallet, asked), []);
}

#[test]
fn the_document_shows_what_is_printed() {
    let document = include_str!("../../../docs/WALLET.md");
    let shop = include_str!("../../../examples/shop.wallet");
    let slip = shop.replace("accredited <- School", "accredited <- Schol");
    let slip = slip.replace("Shop.discount <- Ann\n", "");
    assert!(
        document.contains(&indented(&said(&slip))),
        "{}",
        said(&slip)
    );
    let done = run(&["explain", tool::SHOP], b"8\nsets 1\n");
    assert!(document.contains(&indented(&done.err)), "{}", done.err);
}
