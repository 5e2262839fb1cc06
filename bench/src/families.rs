//! The tables on which the listing call is timed.

use reference::generate::constraints::{self, Constraint};
use reference::generate::shapes::{self, Way};
use reference::generate::wallets::{self, Place, Plan, Wallet};
use reference::generate::wide;
use reference::query::DEEPEST;
use reference::random::Random;
use reference::records::{Head, Records};
use reference::{shop, Number};

/// So many of the ways to the goal get a constraint where some get one.
const CONSTRAINED: usize = Head::LIMITS.automata as usize;

/// A table with what it is.
pub type Named = (String, Wallet);

/// The shop's table T or U, with query Q.
pub fn shop(table: &[Number]) -> Wallet {
    Wallet {
        records: Records::read(table).expect("a table that is accepted"),
        query: shop::Q,
    }
}

/// So many wallets of 20 credentials of which so many bear on the query.
pub fn bearing(random: &mut Random, count: usize, bearing: Number, place: Place) -> Vec<Wallet> {
    let plan = Plan {
        bearing,
        others: Head::LIMITS.credentials - bearing,
        place,
    };
    let mut wallet = || {
        let mut wallet = wallets::planned(random, plan);
        wallet.query.depth = DEEPEST;
        wallet
    };
    (0..count).map(|_| wallet()).collect()
}

/// So many grown wallets, most of them with automata.
pub fn grown(random: &mut Random, count: usize) -> Vec<Wallet> {
    (0..count).map(|_| wallets::made_up(random)).collect()
}

/// Sixteen levels, each but the last a chain of four times the next: one set,
/// with more than a thousand million nodes.
pub fn sixteen_levels() -> Wallet {
    Wallet {
        records: wide::records(DEEPEST),
        query: wide::query(DEEPEST),
    }
}

/// Tables of one shape in several sizes.
pub fn growing() -> Vec<Named> {
    let sixteen = "sixteen levels, one role four times".to_string();
    let families = [
        vec![(sixteen, sixteen_levels())],
        layers(),
        choices(),
        ladders(),
        constrained_ladders(),
        rungs(),
        containments(),
        ways(),
        constrained_ways(),
    ];
    families.concat()
}

/// Chains of chains.
fn layers() -> Vec<Named> {
    let layers = |count| {
        let what = format!("four different roles, layers {count}");
        (what, shapes::layers(count))
    };
    (1..=4).map(layers).collect()
}

/// A chain of roles of which each has several definers. The chain's credential
/// comes first, unless the name says otherwise.
fn choices() -> Vec<Named> {
    use shapes::Place::{First, Last, Middle};
    let equal = |each: Number| {
        let what = format!("four roles, each defined {each} times");
        (what, shapes::choices(&[each; 4], First))
    };
    let others = [
        ("roles defined 6, 6, 6 times", &[6, 6, 6][..], First),
        ("roles defined 1, 3, 6, 9 times", &[1, 3, 6, 9], First),
        ("roles defined 4, 5, 5, 5 times", &[4, 5, 5, 5], First),
        ("the same, chain in the middle", &[4, 5, 5, 5], Middle),
        ("the same, chain last", &[4, 5, 5, 5], Last),
    ];
    let others = others.map(|(what, definers, place)| {
        let wallet = shapes::choices(definers, place);
        (what.to_string(), wallet)
    });
    (1..=4).map(equal).chain(others).collect()
}

/// Ladders with two sides, the longest last.
fn ladders() -> Vec<Named> {
    let ladder = |principals: Number| {
        let what = format!("ladder of {} of kind 3", 2 * principals);
        (what, shapes::ladder(principals))
    };
    (2..=5).map(ladder).collect()
}

/// The longest of them, with an automaton on the credential that every
/// derivation uses.
fn constrained_ladders() -> Vec<Named> {
    let constraints = [
        ("at most 5 roles", Constraint::at_most(5)),
        ("role 2.2 nowhere", Constraint::nowhere((2, 2))),
    ];
    let constrained = |(words, constraint)| {
        let mut wallet = shapes::ladder(5);
        let last = wallet.records.credentials.len() - 1;
        constrain(&mut wallet, &constraint, [last]);
        (format!("the same, words: {words}"), wallet)
    };
    constraints.map(constrained).to_vec()
}

/// Ladders with people to be tried as middles on every rung.
fn rungs() -> Vec<Named> {
    let sizes = [(5, 5), (10, 5), (15, 5), (10, 10)];
    let ladder = |(rungs, people)| {
        let what = format!("ladder of {rungs} of kind 3, people {people}");
        (what, shapes::rungs(rungs, people))
    };
    sizes.map(ladder).to_vec()
}

/// Ladders of containments.
fn containments() -> Vec<Named> {
    let ladder = |roles: Number| {
        let what = format!("ladder of {} of kind 2", 2 * roles);
        (what, shapes::containments(roles))
    };
    [3, 5, 7, 9].map(ladder).to_vec()
}

/// How many credentials each way to the goal has, with what these ways are. To
/// leave the goal unproved, one of each way must go: for that the last have the
/// most choices that twenty credentials allow, 1,458.
const WAYS: [(&str, &[Number]); 4] = [
    ("10 ways of 2", &[2; 10]),
    ("6 ways of 3", &[3; 6]),
    ("5 ways of 4", &[4; 5]),
    ("6 ways of 3, 1 of 2", &[3, 3, 3, 3, 3, 3, 2]),
];

/// Ways to the goal that have no credential in common.
fn ways() -> Vec<Named> {
    let ways = |(words, each): (&str, _)| (words.to_string(), shapes::ways(each, Way::Chain));
    WAYS.map(ways).to_vec()
}

/// Such ways, some of them with constraints.
fn constrained_ways() -> Vec<Named> {
    let barred = |(words, each): (&str, &[Number])| {
        let some = each.len() / 2;
        (format!("{words}, nothing on {some}"), barred(each))
    };
    let constrained = |(words, each): (&str, &[Number])| {
        let some = each.len().min(CONSTRAINED);
        let what = format!("{words}, constraints on {some}");
        (what, constrained(each))
    };
    [WAYS.map(barred), WAYS.map(constrained)].concat()
}

/// Such ways, of which every other has a credential that accepts no word.
fn barred(each: &[Number]) -> Wallet {
    let mut wallet = shapes::ways(each, Way::Chain);
    let nothing = Constraint::nothing(&mut Random::new(0));
    let others: Vec<usize> = lasts(each).skip(1).step_by(2).collect();
    constrain(&mut wallet, &nothing, others);
    wallet
}

/// Such ways, of which each, while there are automata, shuts out the next: on
/// its last credential stands that a role of the next is nowhere.
fn constrained(each: &[Number]) -> Wallet {
    let mut wallet = shapes::ways(each, Way::Chain);
    let nexts = lasts(each).cycle().skip(1);
    for (last, next) in lasts(each).zip(nexts).take(CONSTRAINED) {
        let [owner, name, ..] = wallet.records.credentials[next];
        let shut_out = Constraint::nowhere((owner, name));
        constrain(&mut wallet, &shut_out, [last]);
    }
    wallet
}

/// The indices of the last credential of each way.
fn lasts(each: &[Number]) -> impl Iterator<Item = usize> + Clone + '_ {
    let ends = each.iter().scan(0, |end, each| {
        *end += *each as usize;
        Some(*end)
    });
    ends.map(|end| end - 1)
}

/// Adds an automaton to a table and attaches it to the credentials at these
/// indices.
fn constrain(
    wallet: &mut Wallet,
    constraint: &Constraint,
    credentials: impl IntoIterator<Item = usize>,
) {
    let mut random = Random::new(0);
    let number = constraints::add(&mut random, &mut wallet.records, constraint);
    let number = number.expect("there is room for an automaton");
    for index in credentials {
        wallet.records.credentials[index][5] = number;
    }
}

#[cfg(test)]
mod tests {
    use super::growing;
    use std::collections::BTreeSet;

    #[test]
    fn the_tables_are_valid_and_have_different_names() {
        let growing = growing();
        for (what, wallet) in &growing {
            let table = wallet.records.numbers();
            let valid = reference::check_query(&table, wallet.query);
            assert_eq!(valid, Ok(()), "{what}");
        }
        let names: BTreeSet<&String> = growing.iter().map(|(what, _)| what).collect();
        assert_eq!(names.len(), growing.len());
        assert!(names.iter().all(|name| name.len() <= 38));
    }
}
