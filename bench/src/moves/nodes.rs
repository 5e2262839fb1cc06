//! Nodes in each second on records of very many nodes, by each side and by the
//! loop that does the least.

use std::time::Duration;

use super::edges::Edges;
use super::limit::{Limit, Prepared, Told};
use super::tables::{long, Recorded};
use crate::builds::{ratio, Side, Sides, Turns};
use crate::listing::Listing;
use crate::sheet::{Form, Lines};

const TURNS: Turns = Turns {
    round: Duration::from_millis(5),
    long: Duration::from_millis(400),
};

/// Times the verdicts on long records.
pub fn time(form: Form, sides: &Sides, limit: &Limit) {
    let title = "verifying records of very many nodes, nodes per second, all accepted";
    let lines = Lines::begin(form, title, &heads(sides));
    for table in long() {
        for edges in Edges::ALL {
            let times = times(sides, limit, &table.with(edges));
            let first = [&table.what, &table.nodes().to_string(), edges.words()].map(String::from);
            lines.line(&[first.to_vec(), cells(form, table.nodes(), &times)].concat());
        }
    }
}

/// The heads of the columns.
fn heads(sides: &Sides) -> Vec<String> {
    let mut heads = ["records", "nodes", "automata, edges"].to_vec();
    heads.extend(sides.names());
    heads.extend(sides.are_two().then_some("after / before"));
    heads.push("limit");
    let ratios = sides.names().iter().map(|name| format!("limit / {name}"));
    heads.into_iter().map(String::from).chain(ratios).collect()
}

/// The cells of the figures, of which the limit's time comes last.
fn cells(form: Form, nodes: usize, times: &[f64]) -> Vec<String> {
    let (limit, sides) = times.split_last().expect("the limit's time");
    let per_second = |time: &f64| form.per_second(nodes as f64 / time * 1e9);
    let change = ratio(sides).map(|ratio| form.close_ratio(ratio));
    let ratios = sides.iter().map(|time| form.close_ratio(time / limit));
    let figures = sides.iter().map(per_second).chain(change);
    figures.chain([per_second(limit)]).chain(ratios).collect()
}

/// The times of one verdict by each side, and of one walk of the loop.
fn times(sides: &Sides, limit: &Limit, table: &Recorded) -> Vec<f64> {
    let (listing, what) = (Listing::of(&table.wallet), &table.what);
    let prepared = Prepared::new(table);
    assert_eq!(listing.verify(&table.record), Ok(table.set), "{what}");
    let mut told = Told::default();
    let mut walk = || told = limit.walk(&prepared);
    let verify = |side: Side, _: &mut ()| side.verify(&listing, &table.record);
    let times = sides.times_beside(TURNS, what, &(), verify, Some(&mut walk));
    told.accepting &= attached(table);
    assert_eq!(told, expected(table), "{what}");
    times
}

/// What the loop must tell of a record that is accepted: each automaton of a used
/// credential accepts every word.
fn expected(table: &Recorded) -> Told {
    Told {
        nodes: table.nodes() as u64,
        used: table.set,
        accepting: attached(table),
    }
}

/// The automata of the used credentials.
fn attached(table: &Recorded) -> u32 {
    let credentials = table.wallet.records.credentials.iter().enumerate();
    let used = credentials.filter(|(index, _)| (table.set >> index) & 1 == 1);
    let automata = used
        .map(|(_, record)| record[5])
        .filter(|&automaton| automaton > 0);
    automata.fold(0, |all, automaton| all | 1 << (automaton - 1))
}

#[cfg(test)]
mod tests {
    use super::{attached, cells, heads};
    use crate::builds::Sides;
    use crate::moves::edges::Edges;
    use crate::moves::tables::short;
    use crate::sheet::Form;

    #[test]
    fn times_are_nodes_per_second_and_ratios() {
        let both = cells(Form::Markdown, 1_000, &[1e5, 5e4, 2e4]);
        let millions = ["10.0 million", "20.0 million", "2.00", "50.0 million"];
        assert_eq!(both, [&millions[..], &["5.00", "2.50"]].concat());
        let alone = cells(Form::Markdown, 1_000, &[1e5, 2e4]);
        assert_eq!(alone, ["10.0 million", "50.0 million", "5.00"]);
        assert_eq!(heads(&Sides::of(&[])).len(), 3 + alone.len());
    }

    #[test]
    fn automata_of_used_credentials_are_attached() {
        let short = short();
        let used = [0, 1, 9].map(|index| attached(&short[index].with(Edges::Many)));
        assert_eq!(used, [0b1, 0b111, 0b1111_1111]);
        assert_eq!(attached(&short[9].with(Edges::None)), 0);
    }
}
