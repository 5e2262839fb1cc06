//! Every record for a query, found in the plainest way.
#![allow(dead_code)] // each test uses a part

use reference::sorts::Goal;
use reference::table::Table;
use reference::{Number, Query};

/// A table is left aside if it takes more steps to find all records.
const STEPS: usize = 400;

/// A search for every record, by trying every credential and every middle.
struct Search<'a> {
    table: &'a Table,
    depth: usize,
    steps: usize,
}

impl Search<'_> {
    /// Every record for a goal below these goals, unless it takes too long.
    fn records(&mut self, goal: Goal, above: &[Goal]) -> Option<Vec<Vec<Number>>> {
        if above.len() >= self.depth || above.contains(&goal) {
            return Some(Vec::new());
        }
        self.steps = self.steps.checked_sub(1)?;
        let branch = [above, &[goal]].concat();
        let mut all = Vec::new();
        for credential in 1..=self.table.credentials.len() as Number {
            for middle in 0..=64 {
                if let Some(premises) = self.table.premises(goal, credential, middle) {
                    all.extend(self.through(vec![credential, middle], &premises, &branch)?);
                }
            }
        }
        Some(all)
    }

    /// Every record that begins with a node that has these premises. They are
    /// put before each other from the last on: most middles fail there.
    fn through(
        &mut self,
        node: Vec<Number>,
        premises: &[Goal],
        branch: &[Goal],
    ) -> Option<Vec<Vec<Number>>> {
        let mut ends = vec![Vec::new()];
        for &premise in premises.iter().rev() {
            if ends.is_empty() {
                break;
            }
            let below = self.records(premise, branch)?;
            self.steps = self.steps.checked_sub(ends.len() * below.len())?;
            let mut joined = Vec::new();
            for one in &below {
                joined.extend(ends.iter().map(|other| [&one[..], other].concat()));
            }
            ends = joined;
        }
        Some(ends.iter().map(|end| [&node[..], end].concat()).collect())
    }
}

/// Every record that derives a query, unless it takes too long.
pub fn records(table: &[Number], query: Query) -> Option<Vec<Vec<Number>>> {
    records_within(STEPS, table, query)
}

/// The same, unless it takes more steps than these.
pub fn records_within(steps: usize, table: &[Number], query: Query) -> Option<Vec<Vec<Number>>> {
    let table = Table::read(table).ok()?;
    let asked = query.read().ok()?;
    let mut search = Search {
        table: &table,
        depth: asked.depth as usize,
        steps,
    };
    search.records(asked.goal, &[])
}
