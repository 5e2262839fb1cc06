//! From a wallet to its text, in one layout: numbers, cells, credentials,
//! constraints, query. Read again, the text gives the same numbers.

mod cells;
mod constraints;
mod naming;
mod states;

use std::collections::BTreeMap;

use bwlchareg::Number;

use crate::names::Names;
use crate::rows::rows;
use crate::table::{Body, Cell, Credential, Table};
use crate::Wallet;

/// The columns that a line of numbers has at most, where words allow it.
const COLUMNS: usize = 80;

/// The text of a wallet whose table, and whose query if it has one, the checker
/// accepts. Numbers without a name get one that nothing else has.
pub fn print(wallet: &Wallet) -> String {
    let table = &wallet.table;
    let mut names = naming::chosen(wallet);
    let given = cells::given(table);

    let mut sections = vec![numbers(&names)];
    let cells = (1..).zip(&table.cells[..given]);
    sections.push(
        cells
            .map(|(number, own)| cell(&names, number, own))
            .collect(),
    );
    let credentials = table.credentials.iter();
    sections.push(
        credentials
            .map(|own| credential(table, &names, own, given))
            .collect(),
    );
    sections.extend(constraints::blocks(table, &mut names));
    let query = wallet.query.iter();
    sections.push(query.map(|query| names.query(*query)).collect());

    sections.retain(|lines| !lines.is_empty());
    let sections = sections.iter().map(|lines| lines.join("\n") + "\n");
    sections.collect::<Vec<String>>().join("\n")
}

/// The lines that give principals and role names their numbers.
fn numbers(names: &Names) -> Vec<String> {
    let mut lines = wrapped("principals", &names.principals);
    lines.extend(wrapped("names", &names.roles));
    lines
}

/// Lines that begin with a word and give names their numbers.
fn wrapped(word: &str, names: &BTreeMap<Number, String>) -> Vec<String> {
    let items = names
        .iter()
        .map(|(number, name)| format!("{name} = {number}"));
    let rows = rows(items, COLUMNS - word.len() - 1).into_iter();
    rows.map(|row| format!("{word} {row}")).collect()
}

/// `cell 1 = B.s then 2`
fn cell(names: &Names, number: Number, cell: &Cell) -> String {
    let role = names.role(cell.role);
    match cell.next {
        0 => format!("cell {number} = {role}"),
        next => format!("cell {number} = {role} then {next}"),
    }
}

/// A credential's line. Its chain begins at a `cell` line if its first cell is
/// one of those.
fn credential(table: &Table, names: &Names, credential: &Credential, given: usize) -> String {
    let mut line = names.arrow(table, credential);
    if let Body::Parts(first) = credential.body {
        if (first as usize) <= given {
            line += &format!(" at cell {first}");
        }
    }
    if credential.automaton != 0 {
        line += &format!(" under {}", names.constraint(credential.automaton));
    }
    line
}
