//! The record of a minimal set that comes of handing out demanded words in fixed
//! shares: a way of writing that is easily thought of, and wrong.
//!
//! Under an automaton of mark 1 some word is owed, and at each node it has to be
//! said which premises owe what. The shares are tried in a fixed order, and the
//! first by which every premise can pay what it owes is kept; then each premise
//! has its least record with that. But which premise pays best depends on what
//! those before it pay anyway, and on what those behind it still can.

use std::fmt;

use reference::pairs::is_in;
use reference::patience::Patience;
use reference::query::Asked;
use reference::sorts::{Goal, Principal};
use reference::table::{Demand, Table};
use reference::ways::{middles, ways, Way};
use reference::words::Standing;
use reference::Number;

/// The order in which shares are tried.
#[derive(Clone, Copy, Debug, PartialEq, Eq, PartialOrd, Ord)]
pub enum Order {
    /// Every automaton's word is first asked of the first premise.
    FirstPays,
    /// Every automaton's word is first asked of the last premise.
    LastPays,
}

impl Order {
    /// Both orders.
    pub const ALL: [Order; 2] = [Order::FirstPays, Order::LastPays];
}

impl fmt::Display for Order {
    fn fmt(&self, out: &mut fmt::Formatter<'_>) -> fmt::Result {
        out.pad(match self {
            Order::FirstPays => "the first pays",
            Order::LastPays => "the last pays",
        })
    }
}

/// The record of a minimal set by shares in this order; nothing if it takes more
/// than so many steps.
pub fn record(
    steps: u64,
    table: &Table,
    asked: Asked,
    set: u32,
    order: Order,
) -> Option<Vec<Number>> {
    let mut sharing = Sharing {
        table,
        set,
        order,
        every: used(table, set, Demand::EveryWord),
        depth: asked.depth as usize,
        middles: middles(table),
        patience: Patience::new(steps),
    };
    let owed = used(table, set, Demand::SomeWord);
    sharing.goal(asked.goal, &[], &Standing::start(table), owed)?
}

/// The automata that demand so and are attached to credentials of a set:
/// automaton i counts 2^(i-1).
fn used(table: &Table, set: u32, demand: Demand) -> u32 {
    let numbered = (1..).zip(&table.credentials);
    let used = numbered.filter(|(number, _)| is_in(*number, set));
    let automata = used.filter_map(|(_, credential)| credential.automaton);
    let demands = |number: &Number| table.automata[*number as usize - 1].demand == demand;
    let automata = automata.filter(demands);
    automata.fold(0, |all, number| all | 1 << (number - 1))
}

/// A record in the writing.
struct Sharing<'a> {
    table: &'a Table,
    set: u32,
    order: Order,
    /// The used automata that demand every word.
    every: u32,
    depth: usize,
    middles: Vec<Principal>,
    patience: Patience,
}

impl Sharing<'_> {
    /// The least record of a goal below these goals that pays what is owed, by
    /// shares; if there is one, and patience for it.
    fn goal(
        &mut self,
        goal: Goal,
        above: &[Goal],
        before: &Standing,
        owed: u32,
    ) -> Option<Option<Vec<Number>>> {
        self.patience.spend(1)?;
        if above.len() >= self.depth || above.contains(&goal) {
            return Some(None);
        }
        let branch = [above, &[goal]].concat();
        let standing = before.after(self.table, goal.role);
        for way in ways(self.table, &self.middles, goal) {
            if is_in(way.credential, self.set) {
                let record = self.way(&way, &branch, &standing, owed)?;
                if record.is_some() {
                    return Some(record);
                }
            }
        }
        Some(None)
    }

    /// The same by one way.
    fn way(
        &mut self,
        way: &Way,
        branch: &[Goal],
        standing: &Standing,
        owed: u32,
    ) -> Option<Option<Vec<Number>>> {
        let node = [way.credential, way.middle];
        if way.premises.is_empty() {
            let breaks = standing.rejecting(self.table) & self.every != 0;
            let pays = owed & !standing.accepting(self.table) == 0;
            return Some((!breaks && pays).then(|| node.to_vec()));
        }
        for shares in shares(owed, way.premises.len(), self.order) {
            let record = self.premises(way, branch, standing, &shares)?;
            if let Some(record) = record {
                return Some(Some([&node[..], &record].concat()));
            }
        }
        Some(None)
    }

    /// The records of the premises, each with its share.
    fn premises(
        &mut self,
        way: &Way,
        branch: &[Goal],
        standing: &Standing,
        shares: &[u32],
    ) -> Option<Option<Vec<Number>>> {
        let mut record = Vec::new();
        for (&premise, &share) in way.premises.iter().zip(shares) {
            match self.goal(premise, branch, standing, share)? {
                Some(below) => record.extend(below),
                None => return Some(None),
            }
        }
        Some(Some(record))
    }
}

/// Every way to share what is owed among so many premises, in order.
fn shares(owed: u32, premises: usize, order: Order) -> Vec<Vec<u32>> {
    let mut all = vec![vec![0; premises]];
    let numbers = (1..=8).filter(|&number| is_in(number, owed));
    for number in numbers {
        let mut longer = Vec::new();
        for shares in all {
            for premise in 0..premises {
                let payer = match order {
                    Order::FirstPays => premise,
                    Order::LastPays => premises - 1 - premise,
                };
                let mut shares = shares.clone();
                shares[payer] |= 1 << (number - 1);
                longer.push(shares);
            }
        }
        all = longer;
    }
    all
}

#[cfg(test)]
mod tests {
    use reference::listing::minimal_sets;
    use reference::query::Query;
    use reference::records::Records;
    use reference::table::Table;

    use super::{record, shares, Order};

    /// The goal rests on 1.2 three times, which is by membership or by 1.3. Some
    /// word has to end in 1.2, and some to pass through 1.3.
    fn thrice() -> Table {
        let records = Records {
            credentials: vec![
                [1, 1, 4, 1, 0, 2],
                [1, 2, 1, 9, 0, 0],
                [1, 2, 2, 1, 3, 0],
                [1, 3, 1, 9, 0, 1],
            ],
            cells: vec![[1, 2, 2], [1, 2, 3], [1, 2, 0]],
            automata: vec![[1, 2, 1]; 2],
            edges: vec![
                [1, 0, 2, 0, 0, 0],
                [1, 0, 1, 1, 2, 1],
                [2, 0, 2, 0, 0, 0],
                [2, 0, 1, 1, 3, 1],
                [2, 1, 2, 0, 0, 1],
            ],
        };
        Table::read(&records.numbers()).expect("an accepted table")
    }

    #[test]
    fn every_word_is_asked_of_every_premise() {
        let first = [[5, 0], [1, 4], [4, 1], [0, 5]];
        assert_eq!(shares(5, 2, Order::FirstPays), first);
        let last = [[0, 5], [4, 1], [1, 4], [5, 0]];
        assert_eq!(shares(5, 2, Order::LastPays), last);
        assert_eq!(shares(0, 3, Order::FirstPays), [[0, 0, 0]]);
    }

    #[test]
    fn fixed_shares_give_a_later_record() {
        let (table, query) = (thrice(), Query::from_numbers([9, 1, 1, 3]));
        let asked = query.read().expect("a valid query");
        let sets = minimal_sets(&table, asked);
        assert_eq!(sets.iter().map(|m| m.set).collect::<Vec<_>>(), [15]);
        // The first record is 1 0, 2 0, 2 0, 3 0 4 0.
        let later = vec![1, 0, 2, 0, 3, 0, 4, 0, 2, 0];
        for order in Order::ALL {
            let shared = record(1_000, &table, asked, 15, order);
            assert_eq!(shared.as_ref(), Some(&later), "{order:?}");
        }
        assert_eq!(record(3, &table, asked, 15, Order::FirstPays), None);
    }
}
