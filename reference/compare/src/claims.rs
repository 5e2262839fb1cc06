//! The claims on which the verdicts of the two sides are compared.

use reference::generate::claims::{self, Claim, Grown};
use reference::generate::clubs;
use reference::generate::constraints::{self, Constraint};
use reference::generate::growth::{Policy, Wish};
use reference::generate::spoil::spoil;
use reference::generate::wrongs::Wrong;
use reference::generate::{every, full, policies, wide};
use reference::random::Random;
use reference::records::Head;
use reference::{shop, Number};

/// So many small records are spoiled number by number.
const BASES: usize = 60;
/// A small record has at most so many nodes.
const SMALL: usize = 12;
/// So many records of more than 65,535 nodes are spoiled in every way.
const WIDE: usize = 2;
/// So many records are grown from a table at most.
const FROM_ONE_TABLE: u64 = 4;
/// In so many ways is a made-up record spoiled.
const SPOILED: usize = 7;

/// A claim, and the way in which it was spoiled.
pub struct Submitted {
    /// The claim.
    pub claim: Claim,
    /// What is wrong with it; nothing if it derives its query.
    pub wrong: Option<Wrong>,
}

/// A claim that derives its query.
fn right(claim: Claim) -> Submitted {
    let wrong = None;
    Submitted { claim, wrong }
}

/// A claim that was spoiled.
fn spoiled((claim, wrong): (Claim, Wrong)) -> Submitted {
    let wrong = Some(wrong);
    Submitted { claim, wrong }
}

/// Hands over the fixed claims, which are the same for every seed.
pub fn fixed(judge: &mut impl FnMut(Submitted)) {
    let mut random = Random::new(0);
    for (claim, levels) in bases(&mut random) {
        every::change(&claim).for_each(|claim| judge(spoiled(claim)));
        every::cut(&claim).for_each(|claim| judge(spoiled(claim)));
        every::longer(&claim).for_each(|claim| judge(spoiled(claim)));
        every::too_deep(&claim, levels).for_each(|claim| judge(spoiled(claim)));
        judge(right(claim));
    }
    for _ in 0..WIDE {
        wide_claims(&mut random, judge);
    }
    widest(judge);
}

/// The claims that are spoiled number by number, and how deep they go: those
/// of the shop, that of a club, those of a table of many edges, and small ones.
fn bases(random: &mut Random) -> Vec<(Claim, Number)> {
    let claim = |table: &[Number], record: &[Number]| Claim {
        table: table.to_vec(),
        query: shop::Q,
        record: record.to_vec(),
    };
    let mut bases = Vec::new();
    for table in [&shop::T[..], &shop::U] {
        bases.push((claim(table, &shop::R), 2));
        bases.push((claim(table, &[4, 0]), 1));
    }
    let line = clubs::line(3, 1);
    let by_all = [1, 3, 1, 2, 2, 0, 3, 0, 4, 0];
    let club = Claim {
        query: line.query,
        ..claim(&line.records.numbers(), &by_all)
    };
    bases.push((club, 3));
    for way in full::WAYS {
        let edges = Head::LIMITS.edges;
        let way = Claim {
            query: full::ASKED,
            ..claim(&full::records(edges).numbers(), &way)
        };
        bases.push((way, 4));
    }
    while bases.len() < BASES {
        let policy = Policy::new(policies::records(random));
        if let Some(grown) = Grown::new(random, &policy) {
            if (3..=SMALL).contains(&grown.nodes.len()) {
                bases.push((grown.claim(), grown.levels()));
            }
        }
    }
    bases
}

/// Hands over a record of more than 65,535 nodes, spoiled in every way.
fn wide_claims(random: &mut Random, judge: &mut impl FnMut(Submitted)) {
    let policy = Policy::new(wide::made_up(random));
    let query = wide::query(10);
    let wish = Wish {
        depth: query.depth,
        nodes: usize::MAX / 4,
        deep: true,
        repeats: false,
    };
    let goal = query.read().expect("a valid query").goal;
    let nodes = policy.grow(random, goal, wish).expect("a derivation");
    let records = policy.records.clone();
    let grown = Grown {
        policy: &policy,
        records,
        query,
        nodes,
    };
    let grown = grown.kept(random).unwrap_or(grown);
    let claim = grown.claim();
    every::too_deep(&claim, grown.levels()).for_each(|claim| judge(spoiled(claim)));
    judge(right(claim));
    for wrong in Wrong::all() {
        if let Some(claim) = spoil(random, &grown, wrong) {
            judge(spoiled((claim, wrong)));
        }
    }
}

/// Hands over a record of more than a million nodes, as it is, with a number
/// left over, and cut. Its leaves use an automaton that accepts every word.
fn widest(judge: &mut impl FnMut(Submitted)) {
    const LEVELS: Number = 11;
    let mut records = wide::records(LEVELS);
    let leaf = (records.credentials[10][0], records.credentials[10][1]);
    let constraint = Constraint::last(leaf);
    let number = constraints::add(&mut Random::new(0), &mut records, &constraint);
    records.credentials[10][5] = number.expect("there is room for an automaton");
    let claim = Claim {
        table: records.numbers(),
        query: wide::query(LEVELS),
        record: wide::record(LEVELS),
    };
    let mut longer = claim.clone();
    longer.record.push(0);
    judge(spoiled((longer, Wrong::LongerByOne)));
    let mut cut = claim.clone();
    cut.record.pop();
    judge(spoiled((cut, Wrong::CutInsideNode)));
    judge(right(claim));
}

/// Hands over so many made-up records, each as it is and spoiled in several
/// ways. Every second one has an automaton more, by which it is accepted.
pub fn made_up(random: &mut Random, count: u64, judge: &mut impl FnMut(Submitted)) {
    let wrongs = Wrong::all();
    let mut made = 0;
    while made < count {
        let policy = Policy::new(claims::table(random));
        for _ in 0..FROM_ONE_TABLE.min(count - made) {
            let Some(grown) = Grown::new(random, &policy) else {
                continue;
            };
            made += 1;
            let kept = match random.below(2) {
                0 => None,
                _ => grown.kept(random),
            };
            let grown = kept.unwrap_or(grown);
            judge(right(grown.claim()));
            for _ in 0..SPOILED {
                let wrong = *random.pick(&wrongs);
                if let Some(claim) = spoil(random, &grown, wrong) {
                    judge(spoiled((claim, wrong)));
                }
            }
        }
    }
}
