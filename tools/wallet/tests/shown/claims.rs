//! Made-up wallets with records, right ones and wrong ones.

use bwlchareg::{layout, Query};
use reference::generate::claims::{Claim, Grown};
use reference::generate::growth::Policy;
use reference::generate::policies;
use reference::generate::spoil::spoil;
use reference::generate::wrongs::Wrong;
use reference::random::Random;
use wallet::table::Table;
use wallet::Wallet;

/// So many records are grown from a table.
const FROM_ONE_TABLE: usize = 4;
/// In so many ways is each of them spoiled.
const SPOILED: usize = 8;

/// The wallet of a claim, if its table is accepted.
pub fn wallet(claim: &Claim) -> Option<Wallet> {
    let table = Table::of_numbers(&claim.table).ok()?;
    Some(Wallet {
        table,
        ..Wallet::default()
    })
}

/// The query of a claim.
pub fn query(claim: &Claim) -> Query {
    let [principal, owner, name, depth] = claim.query.numbers();
    Query {
        principal,
        owner,
        name,
        depth,
    }
}

/// A claim with any marks in its table, if that is accepted.
fn marked(random: &mut Random, claim: &Claim) -> Option<Claim> {
    bwlchareg::check(&claim.table).ok()?;
    let mut claim = claim.clone();
    for number in 1..=layout::counts(&claim.table)[2] {
        let mark = layout::automaton(&claim.table, number).end - 1;
        claim.table[mark] = random.between(layout::EVERY_WORD, layout::SOME_WORD);
    }
    Some(claim)
}

/// Hands over records that are grown from so many tables, each as it is, with
/// a constraint that it keeps, and spoiled in several ways; and each of them with
/// other marks.
pub fn made_up(seed: u64, tables: usize, mut judge: impl FnMut(&Claim)) {
    let mut random = Random::new(seed);
    let mut marks = Random::new(seed + 1);
    let mut judge = |claim: &Claim| {
        judge(claim);
        if let Some(other) = marked(&mut marks, claim) {
            judge(&other);
        }
    };
    let wrongs = Wrong::all();
    for _ in 0..tables {
        let policy = Policy::new(policies::records(&mut random));
        for _ in 0..FROM_ONE_TABLE {
            let Some(grown) = Grown::new(&mut random, &policy) else {
                continue;
            };
            judge(&grown.claim());
            if let Some(kept) = grown.kept(&mut random) {
                judge(&kept.claim());
            }
            for _ in 0..SPOILED {
                let wrong = *random.pick(&wrongs);
                if let Some(claim) = spoil(&mut random, &grown, wrong) {
                    judge(&claim);
                }
            }
        }
    }
}
