//! From a set of the list to its proof: the first record of the set, as the
//! library writes it, with the verifier's judgement of it; or why there is none.

use bwlchareg::{Number, Query, Refusal};

use crate::derivation::judge;
use crate::refusal;
use crate::tree;
use crate::Wallet;

/// A record with more numbers is not written.
pub const MOST_CELLS: usize = 1_048_576;
/// A record with more numbers is not short.
const SHORT: usize = 4_096;

/// The most sets that a message offers.
const OFFERED: usize = 8;

/// The first record of a set, or the library's refusal of the set.
pub fn first_record(wallet: &Wallet, query: Query, set: u32) -> Result<Vec<Number>, Refusal> {
    bwlchareg::first_record(&wallet.table.numbers(), query, set, MOST_CELLS)
}

/// The first record of a set, if there is one and it is short.
pub fn short_record(wallet: &Wallet, query: Query, set: u32) -> Option<Vec<Number>> {
    bwlchareg::first_record(&wallet.table.numbers(), query, set, SHORT).ok()
}

/// A refusal of a set, with its words.
pub fn refused(wallet: &Wallet, query: Query, set: u32, refusal: Refusal) -> String {
    refusal::told(refusal, reason(wallet, query, set, refusal))
}

/// Why a set has no record that is written.
pub fn reason(wallet: &Wallet, query: Query, set: u32, refusal: Refusal) -> String {
    match refusal.number {
        Refusal::NOT_LISTED => {
            let asked = wallet.names.query(query);
            let offer = offer(wallet, query);
            format!("set {set} is not on the list for {asked}, which {offer}")
        }
        Refusal::LONGER_RECORD => {
            format!(
                "the record of set {set} has more than {MOST_CELLS} numbers, and is not printed"
            )
        }
        _ => refusal.to_string(),
    }
}

/// What the list has: its first sets, or none.
fn offer(wallet: &Wallet, query: Query) -> String {
    let mut sets = [0; OFFERED];
    let answer = bwlchareg::list(&wallet.table.numbers(), query, &mut sets);
    let named = |sets: &[u32]| joined(sets, ", ");
    match answer {
        Ok(count) => format!("has {}", named(&sets[..count])),
        Err(refusal) if refusal.number == Refusal::LONGER => {
            format!("begins with {}, ...", named(&sets))
        }
        Err(_) => "is empty: there is no minimal set".to_string(),
    }
}

/// The numbers of a record as one line, which can be read again.
pub fn numbers(record: &[Number]) -> String {
    joined(record, " ") + "\n"
}

/// Numbers with something between them.
pub(crate) fn joined<Value: ToString>(numbers: &[Value], between: &str) -> String {
    let all: Vec<String> = numbers.iter().map(Value::to_string).collect();
    all.join(between)
}

/// What is printed of a set, and whether the library has refused.
pub struct Block {
    /// The text.
    pub text: String,
    /// Whether there is no record, or one that the verifier does not accept
    /// with the set.
    pub refused: bool,
}

/// A set with its record, which stands on a line of its own, and with its tree
/// and the verifier's verdict.
pub fn block(wallet: &Wallet, query: Query, set: u32) -> Block {
    match first_record(wallet, query, set) {
        Ok(record) => proved(wallet, query, set, &record),
        Err(refusal) => Block {
            text: format!("\nset {set}\n{}\n", refused(wallet, query, set, refusal)),
            refused: true,
        },
    }
}

/// A set with a record.
pub fn proved(wallet: &Wallet, query: Query, set: u32, record: &[Number]) -> Block {
    let judged = judge(wallet, query, record);
    let (numbers, tree) = (numbers(record), tree::short(wallet, &judged));
    Block {
        text: format!("\nset {set}, by the record\n{numbers}{tree}"),
        refused: judged.verdict != Ok(set),
    }
}
