//! Nets, and other tables with many edges: that they are valid, that their lists
//! and first records are what the definition says, and that their edges share
//! what they are to share.

mod by_definition;
mod every_record;

use std::collections::BTreeSet;

use by_definition::{compared, listed};
use reference::generate::wallets::Wallet;
use reference::generate::{full, nets};
use reference::random::Random;
use reference::records::{EdgeRecord, Head, Records};
use reference::{check_query, verify, Number, Refusal};

const SEED: u64 = 7;
/// A table is left aside if it takes more steps to find all records.
const STEPS: usize = 4_000;

/// Some nets of at most so many credentials.
fn drawn(most: Number, count: usize) -> Vec<Wallet> {
    let mut random = Random::new(SEED);
    (0..count)
        .map(|_| nets::made_up(&mut random, most))
        .collect()
}

/// How many of some nets are as wanted.
fn found(nets: &[Wallet], wanted: impl Fn(&Records) -> bool) -> usize {
    nets.iter().filter(|net| wanted(&net.records)).count()
}

/// Whether something holds of two edges of a table.
fn any_two(records: &Records, holds: impl Fn(&EdgeRecord, &EdgeRecord) -> bool) -> bool {
    let edges = &records.edges;
    let holds_before =
        |index: usize| (edges[..index].iter()).any(|other| holds(&edges[index], other));
    (0..edges.len()).any(holds_before)
}

/// The roles that a table defines.
fn roles(records: &Records) -> BTreeSet<[Number; 2]> {
    let credentials = records.credentials.iter();
    credentials.map(|record| [record[0], record[1]]).collect()
}

/// The wallet without its last edge.
fn without_last(wallet: &Wallet) -> Wallet {
    let mut wallet = wallet.clone();
    wallet.records.edges.pop();
    wallet
}

#[test]
fn nets_are_valid_and_no_larger_than_asked_for() {
    for most in [8, 13, 20] {
        for net in drawn(most, 100) {
            let valid = check_query(&net.records.numbers(), net.query);
            assert_eq!(valid, Ok(()), "{net:?}");
            let head = net.records.head();
            assert!(head.credentials <= most, "{net:?}");
            assert_eq!(head.automata, Head::LIMITS.automata);
        }
    }
}

#[test]
fn lists_and_first_records_of_nets_are_what_the_definition_says() {
    let [nets, sets] = compared(STEPS, &drawn(20, 400));
    assert!(nets > 200 && sets > 400, "{nets}, {sets}");
}

#[test]
fn nets_have_everything_that_a_table_can_have() {
    let nets = drawn(20, 400);
    for kind in 1..=4 {
        let has_kind = |r: &Records| r.credentials.iter().any(|c| c[2] == kind);
        assert!(found(&nets, has_kind) > 200, "kind {kind}");
    }
    for label in 1..=4 {
        let has_label = |r: &Records| r.edges.iter().any(|e| e[2] == label);
        assert!(found(&nets, has_label) > 300, "label {label}");
    }
    for automaton in 1..=Head::LIMITS.automata {
        let attached = |r: &Records| r.credentials.iter().any(|c| c[5] == automaton);
        assert!(found(&nets, attached) > 200, "automaton {automaton}");
    }
    let most = Head::LIMITS.edges;
    assert!(found(&nets, |r| r.head().edges == most) > 150);
    assert!(found(&nets, |r| r.head().edges < 100) > 20);
}

#[test]
fn edges_of_nets_share_states_and_labels() {
    let nets = drawn(20, 100);
    // From different states with one label to one state, and the other way round.
    let to_one = |e: &EdgeRecord, f: &EdgeRecord| e[0] == f[0] && e[1] != f[1] && e[2..] == f[2..];
    let from_one = |e: &EdgeRecord, f: &EdgeRecord| e[..5] == f[..5] && e[5] != f[5];
    assert!(found(&nets, |r| any_two(r, to_one)) > 90);
    assert!(found(&nets, |r| any_two(r, from_one)) > 90);
    // Equal but for the automaton, and never quite equal.
    let twins = |e: &EdgeRecord, f: &EdgeRecord| e[0] != f[0] && e[1..] == f[1..];
    assert!(found(&nets, |r| any_two(r, twins)) > 90);
    assert_eq!(found(&nets, |r| any_two(r, |e, f| e == f)), 0);
    let up = |r: &Records| r.edges.iter().any(|e| e[1] < e[5]);
    let down = |r: &Records| r.edges.iter().any(|e| e[1] > e[5]);
    assert_eq!([found(&nets, up), found(&nets, down)], [100, 100]);
}

#[test]
fn nets_have_many_roles_that_differ_little() {
    let nets = drawn(20, 400);
    let counts: BTreeSet<usize> = nets.iter().map(|net| roles(&net.records).len()).collect();
    assert!(counts.is_superset(&(4..=20).collect()), "{counts:?}");
    for index in [0, 1] {
        let differ_elsewhere = |r: &Records| {
            let kept: BTreeSet<Number> = roles(r).iter().map(|role| role[index]).collect();
            kept.len() < roles(r).len()
        };
        assert!(found(&nets, differ_elsewhere) > 390);
    }
    let several = |r: &Records| roles(r).len() < r.credentials.len();
    assert!(found(&nets, several) > 200);
}

#[test]
fn the_last_edge_of_a_net_often_matters() {
    let nets = drawn(20, 400);
    let matters = |net: &&Wallet| listed(net) != listed(&without_last(net));
    let matters: Vec<&Wallet> = nets.iter().filter(matters).collect();
    let full = matters
        .iter()
        .filter(|net| net.records.head().edges == Head::LIMITS.edges);
    let [matters, full] = [matters.len(), full.count()];
    assert!(matters > 80 && full > 40, "{matters}, {full}");
}

/// A full table with so many edges.
fn full_table(edges: Number) -> Wallet {
    Wallet {
        records: full::records(edges),
        query: full::ASKED,
    }
}

#[test]
fn a_full_table_has_two_ways_and_the_second_goes_by_the_last_edge() {
    for edges in full::FEWEST..=Head::LIMITS.edges {
        let wallet = full_table(edges);
        assert_eq!(wallet.records.head().numbers(), [8, 0, 8, edges]);
        assert_eq!(listed(&wallet), [85, 170], "{edges}");
        assert_eq!(listed(&without_last(&wallet)), [85], "{edges}");
    }
}

#[test]
fn the_last_edge_helps_no_other_automaton() {
    let mut wallet = full_table(Head::LIMITS.edges);
    for automaton in 1..=8 {
        wallet.records.edges[127][0] = automaton;
        let table = wallet.records.numbers();
        let verdicts = full::WAYS.map(|way| verify(&table, wallet.query, &way));
        let second = match automaton {
            8 => Ok(170),
            _ => Err(Refusal::new(14, 8u64)),
        };
        assert_eq!(verdicts, [Ok(85), second], "{automaton}");
    }
}

#[test]
fn automata_of_a_full_table_share_edges_of_every_label() {
    let records = full::records(Head::LIMITS.edges);
    for label in 1..=4 {
        let of = |automaton: Number| {
            let edges = records.edges.iter();
            let own = edges.filter(move |e| e[0] == automaton && e[2] == label);
            own.map(|e| &e[1..]).collect::<BTreeSet<_>>()
        };
        for automaton in 1..8 {
            let shared = &of(automaton) & &of(automaton + 1);
            assert!(!shared.is_empty(), "label {label}, automaton {automaton}");
        }
    }
}
