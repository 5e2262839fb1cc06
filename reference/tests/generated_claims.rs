//! That the generators of records make what they say, and reach every shape
//! of derivation.

mod owning;

use std::collections::{BTreeMap, BTreeSet};

use reference::derivation::NODE;
use reference::generate::claims::{table, Claim, Grown};
use reference::generate::constraints::{self, Constraint};
use reference::generate::growth::{Node, Policy, Wish};
use reference::generate::spoil::spoil;
use reference::generate::wrongs::Wrong;
use reference::generate::{every, policies, wide};
use reference::query::DEEPEST;
use reference::random::Random;
use reference::records::{Head, Records};
use reference::sorts::{Goal, Role};
use reference::table::Table;
use reference::words::accepts;
use reference::{check, shop, verify, Number, Refusal};

const SEED: u64 = 7;

/// What a record is answered with.
type Verdict = Result<u32, Refusal>;

/// 0 for an accepted record, else the refusal's number.
fn number(verdict: Verdict) -> u32 {
    verdict.err().map_or(0, |refusal| refusal.number)
}

fn judge(claim: &Claim) -> Verdict {
    verify(&claim.table, claim.query, &claim.record)
}

/// Hands over some thousand grown records.
fn each_grown(mut use_it: impl FnMut(&mut Random, &Grown)) {
    let mut random = Random::new(SEED);
    for _ in 0..900 {
        let policy = Policy::new(table(&mut random));
        for _ in 0..2 {
            if let Some(grown) = Grown::new(&mut random, &policy) {
                use_it(&mut random, &grown);
            }
        }
    }
}

/// How many grown records are as wanted.
fn found(wanted: impl Fn(&Grown) -> bool) -> usize {
    let mut found = 0;
    each_grown(|_, grown| found += usize::from(wanted(grown)));
    found
}

#[test]
fn policies_are_accepted_and_have_goals() {
    let mut random = Random::new(SEED);
    for _ in 0..1_000 {
        let records = policies::records(&mut random);
        assert_eq!(check(&records.numbers()), Ok(()), "{records:?}");
        assert!(!Policy::new(records).goals().is_empty());
    }
}

#[test]
fn policies_have_everything_that_a_table_can_have() {
    let mut random = Random::new(SEED);
    let drawn: Vec<Records> = (0..2_000).map(|_| policies::records(&mut random)).collect();
    let found = |there: &dyn Fn(&Records) -> bool| drawn.iter().any(there);
    for kind in 1..=4 {
        assert!(found(&|r| r.credentials.iter().any(|c| c[2] == kind)));
    }
    for automaton in 0..=Head::LIMITS.automata {
        assert!(found(&|r| r.head().automata == automaton));
        assert!(found(&|r| r.credentials.iter().any(|c| c[5] == automaton)));
    }
    for label in 1..=4 {
        assert!(found(&|r| r.edges.iter().any(|e| e[2] == label)));
    }
    let [with_4, all] = owning::automata(&drawn);
    assert!((all / 4..all / 2).contains(&with_4), "{with_4} of {all}");
    assert!(found(&|r| r.head().credentials == Head::LIMITS.credentials));
    let shared = |r: &Records| {
        let mut met = BTreeSet::new();
        let nexts = r.cells.iter().map(|cell| cell[2]);
        nexts
            .filter(|&next| next != 0)
            .any(|next| !met.insert(next))
    };
    assert!(found(&shared), "two cells with one next");
    let inside = |r: &Records| {
        let starts = r.credentials.iter().filter(|c| c[2] == 4).map(|c| c[3]);
        let nexts: BTreeSet<Number> = r.cells.iter().map(|cell| cell[2]).collect();
        starts.into_iter().any(|start| nexts.contains(&start))
    };
    assert!(found(&inside), "a chain that begins inside another");
}

#[test]
fn grown_records_derive_their_query() {
    each_grown(|_, grown| {
        let claim = grown.claim();
        let number = number(judge(&claim));
        assert!(number == 0 || number == 14, "{number}: {claim:?}");
    });
}

#[test]
fn grown_records_are_of_every_depth_and_size() {
    let mut depths = BTreeSet::new();
    let mut widest = 0;
    each_grown(|_, grown| {
        depths.insert(grown.levels());
        widest = widest.max(grown.nodes.len());
    });
    assert_eq!(depths, (1..=DEEPEST).collect());
    assert!(widest > 200, "{widest}");
    assert!(found(|grown| grown.levels() == grown.query.depth) > 0);
    assert!(found(|grown| grown.levels() < grown.query.depth) > 0);
}

#[test]
fn grown_records_have_nodes_of_every_kind() {
    for kind in 1..=4 {
        assert!(found(|grown| grown.nodes.iter().any(|node| grown.kind(node) == kind)) > 0);
    }
    for middle in [1, 64] {
        assert!(found(|grown| grown.nodes.iter().any(|node| node.middle == middle)) > 0);
    }
    let own = |node: &Node| node.middle == node.goal.principal.number();
    assert!(found(|grown| grown.nodes.iter().any(own)) > 0);
}

#[test]
fn grown_records_repeat_credentials_and_roles_beside_each_other() {
    let credential_twice = |grown: &Grown| {
        let used: BTreeSet<Number> = grown.nodes.iter().map(|node| node.credential).collect();
        used.len() < grown.nodes.len()
    };
    assert!(found(credential_twice) > 0);
    let two_ways = |grown: &Grown| {
        let mut ways = BTreeMap::new();
        let mut nodes = grown.nodes.iter();
        nodes.any(|node| *ways.entry(node.goal).or_insert(node.credential) != node.credential)
    };
    assert!(found(two_ways) > 0, "one goal by two credentials");
}

/// The branch of each node, from the top one down.
fn branches(grown: &Grown) -> Vec<Vec<Goal>> {
    let mut branch = Vec::new();
    let mut goals = |node: &Node| {
        branch.truncate(node.level as usize - 1);
        branch.push(node.goal);
        branch.clone()
    };
    grown.nodes.iter().map(&mut goals).collect()
}

#[test]
fn grown_records_have_a_role_again_on_a_branch_and_no_pair() {
    let again = |branch: &Vec<Goal>, same: &dyn Fn(Goal, Goal) -> bool| {
        let (&last, above) = branch.split_last().expect("the node itself");
        above.iter().any(|&goal| same(goal, last))
    };
    let any = |grown: &Grown, same: &dyn Fn(Goal, Goal) -> bool| {
        branches(grown).iter().any(|branch| again(branch, same))
    };
    assert_eq!(found(|grown| any(grown, &|one, other| one == other)), 0);
    let roles = found(|grown| any(grown, &|one, other| one.role == other.role));
    assert!(roles > 200, "{roles}");
    assert!(found(|grown| any(grown, &|one, other| one.principal == other.principal)) > roles);
}

#[test]
fn kept_records_are_accepted_and_use_an_automaton() {
    let mut tried = 0;
    let mut kept = 0;
    each_grown(|random, grown| {
        tried += 1;
        if let Some(grown) = grown.kept(random) {
            kept += 1;
            let used = judge(&grown.claim()).expect("accepted");
            let numbered = grown.records.credentials.iter().enumerate();
            let mut used = numbered.filter(|(index, _)| (used >> index) & 1 == 1);
            assert!(used.any(|(_, credential)| credential[5] != 0));
        }
    });
    assert!(kept > tried / 2, "{kept} of {tried}");
}

#[test]
fn every_wrong_leads_where_it_says() {
    let mut met = BTreeSet::new();
    each_grown(|random, grown| {
        for wrong in Wrong::all() {
            if let Some(claim) = spoil(random, grown, wrong) {
                let number = number(judge(&claim));
                let right = wrong.refusal().is_none_or(|refusal| number == refusal);
                assert!(right, "{wrong}: {number}: {claim:?}");
                met.insert((wrong, number));
            }
        }
    });
    for wrong in Wrong::all() {
        for number in wrong.expected() {
            assert!(met.contains(&(wrong, number)), "{wrong}: {number}");
        }
    }
}

#[test]
fn every_wrong_has_words_of_its_own() {
    let words: BTreeSet<String> = Wrong::all().iter().map(Wrong::to_string).collect();
    assert_eq!(words.len(), Wrong::all().len());
}

#[test]
fn every_simple_way_of_spoiling_the_shop() {
    let claim = Claim {
        table: shop::T.to_vec(),
        query: shop::Q,
        record: shop::R.to_vec(),
    };
    for (claim, wrong) in every::cut(&claim) {
        let node = (claim.record.len() / NODE) as u64 + 1;
        assert_eq!(judge(&claim), Err(Refusal::new(11, node)), "{wrong}");
    }
    for (claim, wrong) in every::longer(&claim) {
        assert_eq!(judge(&claim), Err(Refusal::new(11, 4u64)), "{wrong}");
    }
    for (claim, wrong) in every::too_deep(&claim, 2) {
        assert_eq!(judge(&claim), Err(Refusal::new(13, 2u64)), "{wrong}");
    }
    // Whichever number is another, its node or the next one is wrong.
    let changes: Vec<Verdict> = every::change(&claim)
        .map(|(claim, _)| judge(&claim))
        .collect();
    let numbers: BTreeSet<u32> = changes.into_iter().map(number).collect();
    assert_eq!(numbers, BTreeSet::from([12]));
}

/// Whether a constraint accepts a word, given by the owners and names of its
/// roles.
fn accepts_roles(constraint: &Constraint, roles: &[(Number, Number)]) -> bool {
    let mut records = Records::read(&shop::T).expect("T is accepted");
    constraints::add(&mut Random::new(SEED), &mut records, constraint);
    let table = Table::read(&records.numbers()).expect("accepted");
    let roles = roles.iter();
    let word = roles.map(|&(owner, name)| Role::read(owner, name).expect("a role"));
    accepts(&table, 1, &word.collect::<Vec<Role>>())
}

/// The same for a word that is given by the names of its roles, all of one owner.
fn constraint_accepts(constraint: &Constraint, names: &[Number]) -> bool {
    let roles: Vec<(Number, Number)> = names.iter().map(|&name| (9, name)).collect();
    accepts_roles(constraint, &roles)
}

/// The same for a word that is given by the owners of its roles, whose names are
/// the same the other way round.
fn owners_accepted(constraint: &Constraint, owners: &[Number]) -> bool {
    let names = owners.iter().rev();
    let roles: Vec<(Number, Number)> = owners.iter().copied().zip(names.copied()).collect();
    accepts_roles(constraint, &roles)
}

#[test]
fn constraints_accept_what_they_say() {
    let role = (9, 2);
    let mut random = Random::new(SEED);
    let nothing = Constraint::nothing(&mut random);
    for (constraint, accepted, rejected) in [
        (Constraint::everything(), vec![&[1][..], &[1, 2]], vec![]),
        (nothing, vec![], vec![&[1][..], &[1, 2]]),
        (Constraint::first(role), vec![&[2, 1]], vec![&[1, 2]]),
        (Constraint::last(role), vec![&[1, 2], &[2]], vec![&[2, 1]]),
        (Constraint::somewhere(role), vec![&[1, 2, 3]], vec![&[1, 3]]),
        (Constraint::nowhere(role), vec![&[1, 3]], vec![&[1, 2, 3]]),
        (
            Constraint::not_second(role),
            vec![&[2], &[2, 1, 2]],
            vec![&[1, 2]],
        ),
        (
            Constraint::right_after(role, (9, 3)),
            vec![&[1, 2, 3, 1]],
            vec![&[2, 1, 3]],
        ),
        (
            Constraint::at_most(2),
            vec![&[1], &[1, 2]],
            vec![&[1, 2, 3]],
        ),
    ] {
        assert!(accepted
            .iter()
            .all(|word| constraint_accepts(&constraint, word)));
        assert!(!rejected
            .iter()
            .any(|word| constraint_accepts(&constraint, word)));
    }
}

#[test]
fn constraints_by_owner_accept_what_they_say() {
    for (constraint, accepted, rejected) in [
        (
            Constraint::owned_by(&[2]),
            vec![&[2][..], &[2, 2]],
            vec![&[3][..], &[2, 3], &[3, 2]],
        ),
        (
            Constraint::owned_by(&[2, 3]),
            vec![&[2], &[3], &[3, 2, 2]],
            vec![&[1], &[2, 3, 1]],
        ),
        (
            Constraint::handed_over(2, 3),
            vec![&[2], &[3], &[2, 2, 3, 3]],
            vec![&[3, 2], &[2, 3, 2], &[1]],
        ),
        (
            Constraint::first_of(2),
            vec![&[2, 1, 3]],
            vec![&[1, 2], &[3, 1, 2]],
        ),
        (
            Constraint::last_of(2),
            vec![&[1, 3, 2], &[2]],
            vec![&[2, 1], &[2, 1, 3]],
        ),
    ] {
        let accepts = |word: &&[Number]| owners_accepted(&constraint, word);
        assert!(accepted.iter().all(accepts), "{constraint:?}");
        assert!(!rejected.iter().any(accepts), "{constraint:?}");
    }
}

#[test]
fn wide_records_have_very_many_nodes() {
    for levels in 1..=6 {
        let record = wide::record(levels);
        assert_eq!((record.len() / NODE) as u64, wide::nodes(levels));
        let table = wide::records(levels).numbers();
        let used = (1 << levels) - 1;
        assert_eq!(verify(&table, wide::query(levels), &record), Ok(used));
    }
    assert_eq!(check(&wide::records(DEEPEST).numbers()), Ok(()));
}

#[test]
fn only_the_last_branches_of_a_made_up_wide_record_are_the_deepest() {
    let mut random = Random::new(SEED);
    let policy = Policy::new(wide::made_up(&mut random));
    let goal = wide::query(10).read().expect("a valid query").goal;
    let wish = Wish {
        depth: 10,
        nodes: 100_000,
        deep: true,
        repeats: false,
    };
    let nodes = policy.grow(&mut random, goal, wish).expect("grown");
    assert_eq!(nodes.len(), 87_382);
    let deepest = nodes.iter().position(|node| node.level == 10);
    assert!(deepest.is_some_and(|index| index > 65_535));
}
