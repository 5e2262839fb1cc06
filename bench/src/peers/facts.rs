//! A table and a query as facts for the answer set program in
//! `bench/asp/minimal.lp`: a fact for each record, number for number.

use std::fmt::Display;

use reference::query::Query;
use reference::records::Records;
use reference::Number;

/// The facts, one a line.
pub fn facts(records: &Records, query: Query) -> String {
    let mut facts = String::new();
    add(&mut facts, "query", &query.numbers());
    for (number, record) in (1..).zip(&records.credentials) {
        add_numbered(&mut facts, "credential", number, record);
    }
    for (number, record) in (1..).zip(&records.cells) {
        add_numbered(&mut facts, "cell", number, record);
    }
    for (number, record) in (1..).zip(&records.automata) {
        add_numbered(&mut facts, "automaton", number, record);
    }
    for record in &records.edges {
        add(&mut facts, "edge", record);
    }
    facts
}

/// Adds a fact that begins with the record's number.
fn add_numbered(facts: &mut String, predicate: &str, number: Number, record: &[Number]) {
    add(facts, predicate, &[&[number], record].concat());
}

/// Adds a fact.
fn add(facts: &mut String, predicate: &str, numbers: &[impl Display]) {
    let numbers: Vec<String> = numbers.iter().map(|number| number.to_string()).collect();
    *facts += &format!("{predicate}({}).\n", numbers.join(","));
}

#[cfg(test)]
mod tests {
    use super::facts;
    use reference::records::Records;
    use reference::shop::{Q, U};

    #[test]
    fn every_record_is_a_fact() {
        let mut records = Records::read(&U).expect("the shop's table");
        records.cells = vec![[1, 3, 2], [2, 2, 0]];
        let expected = "\
            query(4,1,1,2).\n\
            credential(1,1,1,3,3,2,0).\n\
            credential(2,1,3,1,2,0,0).\n\
            credential(3,2,2,1,4,0,1).\n\
            credential(4,1,1,1,4,0,0).\n\
            cell(1,1,3,2).\n\
            cell(2,2,2,0).\n\
            automaton(1,1,2,0).\n\
            edge(1,0,3,1,1,1).\n\
            edge(1,1,2,0,0,1).\n";
        assert_eq!(facts(&records, Q), expected);
    }
}
