//! Names for a table's numbers, and how its records are said with them.

use std::collections::BTreeMap;

use bwlchareg::{Number, Query};

use crate::table::{Body, Credential, Edge, Label, Role, Table};

/// So many characters of a word are compared with another.
const COMPARED: usize = 40;

/// The names of a wallet's numbers. A number without a name has a name made
/// of the number, so that everything can be said.
#[derive(Clone, Debug, Default, PartialEq, Eq)]
pub struct Names {
    /// The principals' names, by number.
    pub principals: BTreeMap<Number, String>,
    /// The role names, by number.
    pub roles: BTreeMap<Number, String>,
    /// The constraints' names, by automaton number.
    pub constraints: BTreeMap<Number, String>,
    /// The states' names, by automaton number and state.
    pub states: BTreeMap<(Number, Number), String>,
}

impl Names {
    /// A principal's name, `P7` for a 7 without one.
    pub fn principal(&self, number: Number) -> String {
        named(&self.principals, &number, || format!("P{number}"))
    }

    /// A role name's name, `r7` for a 7 without one.
    pub fn role_name(&self, number: Number) -> String {
        named(&self.roles, &number, || format!("r{number}"))
    }

    /// A constraint's name, `constraint-7` for a 7 without one.
    pub fn constraint(&self, automaton: Number) -> String {
        named(&self.constraints, &automaton, || {
            format!("constraint-{automaton}")
        })
    }

    /// A state's name, its number where it has none.
    pub fn state(&self, automaton: Number, state: Number) -> String {
        named(&self.states, &(automaton, state), || state.to_string())
    }

    /// A role: `Shop.discount`.
    pub fn role(&self, role: Role) -> String {
        format!(
            "{}.{}",
            self.principal(role.owner),
            self.role_name(role.name)
        )
    }

    /// A membership: `Ann in Shop.discount`.
    pub fn goal(&self, principal: Number, role: Role) -> String {
        format!("{} in {}", self.principal(principal), self.role(role))
    }

    /// A query: `Ann in Shop.discount within 2`.
    pub fn query(&self, query: Query) -> String {
        let goal = self.goal(query.principal, Role::asked(query));
        format!("{goal} within {}", query.depth)
    }

    /// A credential's text without its constraint:
    /// `Shop.discount <- Shop.accredited.student`.
    pub fn arrow(&self, table: &Table, credential: &Credential) -> String {
        let body = match credential.body {
            Body::Member(principal) => self.principal(principal),
            Body::Contained(role) => self.role(role),
            Body::Linked { first, second } => format!(
                "{}.{}.{}",
                self.principal(credential.role.owner),
                self.role_name(first),
                self.role_name(second)
            ),
            Body::Parts(first) => {
                let parts = table.parts(first);
                let roles: Vec<String> = parts.iter().map(|role| self.role(*role)).collect();
                roles.join(" & ")
            }
        };
        format!("{} <- {body}", self.role(credential.role))
    }

    /// A credential's text, with the constraint that is attached to it:
    /// `School.student <- Ann under not-for-discounts`.
    pub fn credential(&self, table: &Table, credential: &Credential) -> String {
        let arrow = self.arrow(table, credential);
        match credential.automaton {
            0 => arrow,
            automaton => format!("{arrow} under {}", self.constraint(automaton)),
        }
    }

    /// An edge's text: `0 -- not Shop.discount --> 1`.
    pub fn edge(&self, edge: &Edge) -> String {
        let label = match edge.label {
            Label::Only(role) => self.role(role),
            Label::Any => "any".to_string(),
            Label::Not(role) => format!("not {}", self.role(role)),
            Label::Of(owner) => format!("any of {}", self.principal(owner)),
        };
        let from = self.state(edge.automaton, edge.from);
        let to = self.state(edge.automaton, edge.to);
        format!("{from} -- {label} --> {to}")
    }
}

/// How many characters must be put in, left out, changed, or exchanged with the
/// next one, to make one word of another. Of very long words only the beginnings
/// count.
pub fn distance(one: &str, other: &str) -> usize {
    let beginning = |word: &str| word.chars().take(COMPARED).collect::<Vec<char>>();
    let (one, other) = (beginning(one), beginning(other));
    // The distances of each beginning of the first word to those of the second.
    let mut rows: Vec<Vec<usize>> = vec![(0..=other.len()).collect()];
    for i in 1..=one.len() {
        let mut row = vec![i];
        for j in 1..=other.len() {
            let changed = usize::from(one[i - 1] != other[j - 1]);
            let mut least = rows[i - 1][j - 1] + changed;
            least = least.min(rows[i - 1][j] + 1).min(row[j - 1] + 1);
            let crossed =
                i > 1 && j > 1 && one[i - 1] == other[j - 2] && one[i - 2] == other[j - 1];
            if crossed {
                least = least.min(rows[i - 2][j - 2] + 1);
            }
            row.push(least);
        }
        rows.push(row);
    }
    rows[one.len()][other.len()]
}

/// The name of a key, or the one that is made for it.
fn named<Key: Ord>(
    names: &BTreeMap<Key, String>,
    key: &Key,
    made: impl FnOnce() -> String,
) -> String {
    names.get(key).cloned().unwrap_or_else(made)
}

#[cfg(test)]
mod tests {
    use super::{distance, COMPARED};

    #[test]
    fn slips_are_counted() {
        for (one, other, slips) in [
            ("", "", 0),
            ("discount", "discount", 0),
            ("discount", "discounts", 1),
            ("discuont", "discount", 1),
            ("Ann", "ann", 1),
            ("caf\u{e9}", "cafe", 1),
            ("ab", "", 2),
            ("ca", "abc", 3),
            ("kitten", "sitting", 3),
        ] {
            assert_eq!(distance(one, other), slips, "{one} {other}");
            assert_eq!(distance(other, one), slips, "{other} {one}");
        }
        assert_eq!(distance(&"a".repeat(1 << 20), &"a".repeat(COMPARED)), 0);
    }
}
