//! Times the writing of the records of grown wallets: one for each set of each
//! list.

use std::time::Duration;

use super::record::Written;
use super::spread;
use crate::listing::{Listing, CELLS};
use crate::peers::wallets::{of_size, sizes};
use crate::sheet::{Form, Lines};
use crate::timing::alone;

/// How long a round of one call on a wallet lasts at the least.
pub const ROUND: Duration = Duration::from_micros(20);

/// The figures of some wallets: the time of each list, and for each of its sets
/// what there is to say of the record.
#[derive(Default)]
struct Figures {
    lists: Vec<f64>,
    writes: Vec<f64>,
    verdicts: Vec<f64>,
    nodes: Vec<f64>,
    of_list: Vec<f64>,
    of_verdict: Vec<f64>,
}

/// The wallets on which the ways of listing are compared.
pub fn grown() -> Vec<Listing> {
    sizes().flat_map(of_size).collect()
}

/// Times the list of every wallet that has a minimal set, and the writing and
/// verifying of a record for each set.
pub fn time(form: Form) {
    let mut figures = Figures::default();
    grown().iter().for_each(|wallet| figures.add(wallet));
    figures.print(form);
}

impl Figures {
    /// Adds those of a wallet, if it has a minimal set.
    fn add(&mut self, wallet: &Listing) {
        let mut cells = [0; CELLS];
        let Ok((_, list)) = alone(ROUND, || wallet.library(&mut cells)) else {
            return;
        };
        self.lists.push(list);
        for record in Written::all(wallet) {
            let [write, verdict] = record.times(ROUND);
            self.writes.push(write);
            self.verdicts.push(verdict);
            self.nodes.push(record.nodes() as f64);
            self.of_list.push(write / list);
            self.of_verdict.push(write / verdict);
        }
    }

    /// Prints a line for each sort.
    fn print(self, form: Form) {
        let title = "grown wallets that have a minimal set, time of one call";
        let heads = ["calls", "median", "99th percentile", "worst"];
        let lines = Lines::begin(form, &form.timed(title), &heads);
        let (lists, sets) = (self.lists.len(), self.writes.len());
        let line = |what: &str, figures: Vec<f64>, words: &dyn Fn(f64) -> String| {
            let [median, high, worst] = spread(figures).map(words);
            lines.line(&[what, &median, &high, &worst]);
        };
        let (time, ratio) = (|time| form.time(time, 0), |ratio| form.ratio(ratio));
        line(&format!("list, {lists} wallets"), self.lists, &time);
        line(&format!("write, {sets} sets"), self.writes, &time);
        line("verify, the same records", self.verdicts, &time);
        line("write / list", self.of_list, &ratio);
        line("write / verify", self.of_verdict, &ratio);
        line("nodes of a record", self.nodes, &|nodes| nodes.to_string());
    }
}

#[cfg(test)]
mod tests {
    use super::{grown, Figures};

    #[test]
    fn each_set_of_each_list_has_its_figures() {
        let mut figures = Figures::default();
        let wallets: Vec<_> = grown().into_iter().step_by(10).collect();
        wallets.iter().for_each(|wallet| figures.add(wallet));
        let lists = wallets.iter().map(|wallet| wallet.library_list());
        let lists = lists.map(|list| list.expect("an accepted wallet").len());
        let (some, sets) = (lists.clone().filter(|&sets| sets > 0), lists.sum());
        assert_eq!(figures.lists.len(), some.count());
        assert_eq!(figures.writes.len(), sets);
        assert_eq!(figures.of_verdict.len(), sets);
    }
}
