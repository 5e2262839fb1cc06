//! Small clubs whose friends are the friends of their friends, with automata that
//! count: each demands a word whose number of roles it divides. How many roles the
//! words of a record have goes by who leads to whom.

use bwlchareg::layout::SOME_WORD;
use reference::generate::clubs::clique;
use reference::generate::shapes::{from_records, GOAL, OWNER};
use reference::generate::wallets::Wallet;
use reference::records::{CredentialRecord, Head, Records};
use reference::Number;

use crate::families::Named;

/// So many automata there are.
const AUTOMATA: Number = Head::LIMITS.automata;
/// The name of everybody's role, which is the one that is asked about.
const FRIEND: Number = GOAL;
/// Who is asked about in a ring.
const ASKED: Number = 3;
/// The depth limit.
const DEPTH: Number = 8;

/// All clubs: with few counters and with many, and each of them with one that
/// accepts nothing in the place of the first.
pub fn clubs() -> Vec<Named> {
    let rings = [4, 5].map(|people| (format!("ring of {people}"), ring(people)));
    let cliques = [2, 3].map(|people| (format!("clique of {people}"), clique(people)));
    let clubs = rings.into_iter().chain(cliques);
    let counted = clubs.flat_map(|(what, club)| {
        [("few", 3), ("many", 1)].map(|(words, apart)| {
            let what = format!("{what}, {words} counters");
            (what, counted(club.clone(), apart))
        })
    });
    let both = counted.flat_map(|(what, wallet)| {
        let never = (format!("{what}, one never"), unmet(wallet.clone()));
        [(what, wallet), never]
    });
    both.collect()
}

/// So many people in a ring, each of whom has the next as a friend, and the friends
/// of friends as friends.
fn ring(people: Number) -> Wallet {
    let all = || OWNER..OWNER + people;
    let rules = all().map(|person| [person, FRIEND, 3, FRIEND, FRIEND, 0]);
    let names = all().map(|person| {
        let next = OWNER + (person - OWNER + 1) % people;
        [person, FRIEND, 1, next, 0, 0]
    });
    let credentials: Vec<CredentialRecord> = rules.chain(names).collect();
    let mut wallet = from_records(credentials, Vec::new());
    wallet.query.principal = ASKED;
    wallet
}

/// The club with eight counters, of which the first is on the first credential, the
/// next one on the credential so many further, and so on while there are some.
fn counted(mut wallet: Wallet, apart: usize) -> Wallet {
    (1..=AUTOMATA).for_each(|_| add_counter(&mut wallet.records));
    let bearers = wallet.records.credentials.iter_mut().step_by(apart);
    for (credential, automaton) in bearers.zip(1..=AUTOMATA) {
        credential[5] = automaton;
    }
    wallet.query.depth = DEPTH;
    wallet
}

/// Adds the next counter: the first goes to and fro between two states, and each has
/// one state more than the one before. It accepts where it started.
fn add_counter(records: &mut Records) {
    records.automata.push([1, 1, SOME_WORD]);
    let automaton = records.head().automata;
    let states = automaton + 1;
    let around = |state: Number| [automaton, state, 2, 0, 0, (state + 1) % states];
    records.edges.extend((0..states).map(around));
}

/// The club whose first counter accepts nothing.
fn unmet(mut wallet: Wallet) -> Wallet {
    wallet.records.automata[0][1] = 0;
    wallet
}
