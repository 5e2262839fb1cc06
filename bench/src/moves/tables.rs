//! Tables with one derivation each, of a given number of nodes: the records are
//! long, or they are short and the credentials few or many.

use reference::generate::shapes::{from_records, GOAL, OWNER};
use reference::generate::wallets::Wallet;
use reference::records::{CellRecord, CredentialRecord, Head};
use reference::Number;

use super::edges::Edges;
use crate::listing::Listing;
use crate::writing::parts::{add_tree, chain, Tree};

/// So many cells are lent for a record.
const CELLS: usize = 1 << 20;

/// What the role of a level rests on.
#[derive(Clone, Copy, Debug, PartialEq, Eq)]
enum Rule {
    /// Kind 2: the next level's.
    Contained,
    /// Kind 3: the next level's twice, by way of its owner.
    Linked,
    /// Kind 4: a chain of so many times the next level's.
    Chain(Number),
}

/// A table with the record of its first set.
#[derive(Clone)]
pub struct Recorded {
    /// What it is.
    pub what: String,
    /// The table, and the query.
    pub wallet: Wallet,
    /// The first set.
    pub set: u32,
    /// Its record.
    pub record: Vec<Number>,
}

impl Recorded {
    /// The table with the record that the library writes.
    fn new(what: impl Into<String>, wallet: Wallet) -> Recorded {
        let listing = Listing::of(&wallet);
        let set = listing.library_list().expect("a list")[0];
        let mut record = vec![0; CELLS];
        let length = listing.write(set, &mut record).expect("a record that fits");
        record.truncate(length);
        Recorded {
            what: what.into(),
            wallet,
            set,
            record,
        }
    }

    /// How many nodes the record has.
    pub fn nodes(&self) -> usize {
        self.record.len() / 2
    }

    /// The same with automata on the credentials of the set. They accept every
    /// word, so the record is accepted as it was.
    pub fn with(&self, edges: Edges) -> Recorded {
        let mut all = self.clone();
        edges.put(&mut all.wallet, all.set);
        all
    }
}

/// Tables whose record has about 100,000 nodes, or more.
pub fn long() -> Vec<Recorded> {
    use Rule::{Chain, Contained, Linked};
    let by_two_and_four = [vec![Chain(4)], vec![Chain(2); 14]].concat();
    let of_all_kinds = [Chain(4), Linked, Chain(2), Contained].repeat(4);
    let mut two_roles = from_records(Vec::new(), Vec::new());
    let tree = Tree {
        levels: 9,
        roles: 2,
        times: 2,
    };
    add_tree(
        &mut two_roles.records,
        GOAL,
        tree,
        &[two_roles.query.principal],
    );
    vec![
        Recorded::new("10 levels by 4", levels(&[Chain(4); 9])),
        Recorded::new("9 levels by 4, two roles each", two_roles),
        Recorded::new("16 levels by 2 and 4", levels(&by_two_and_four)),
        Recorded::new("16 levels of kinds 2, 3, 4", levels(&of_all_kinds[..15])),
    ]
}

/// Tables whose record is short, from 1 node to 100. Each is there twice: with few
/// credentials, and with twenty, of which the record uses as many as it can.
pub fn short() -> Vec<Recorded> {
    let line = |below: &[Number]| [&[1; 11], below].concat();
    let few: [(Number, &[Number]); 5] = [
        (3, &[]),
        (3, &[1, 1]),
        (3, &[3, 2]),
        (5, &[1, 4, 2, 2]),
        (5, &[3, 2, 3, 4]),
    ];
    let many = [
        vec![],
        vec![1, 1],
        vec![1; 9],
        line(&[2, 4, 1]),
        line(&[4, 3, 2, 2]),
    ];
    let most = Head::LIMITS.credentials;
    let many = many.iter().map(|children| (most, &children[..]));
    few.into_iter()
        .chain(many)
        .map(|(all, children)| filled(all, children))
        .collect()
}

/// The table of some levels, each but the last with so many children, and with
/// credentials that define other roles until there are so many.
fn filled(credentials: Number, children: &[Number]) -> Recorded {
    let rules = children.iter().map(|&children| match children {
        1 => Rule::Contained,
        children => Rule::Chain(children),
    });
    let mut wallet = levels(&rules.collect::<Vec<Rule>>());
    let used = wallet.records.head().credentials;
    let others = used + 1..=credentials;
    let others = others.map(member);
    wallet.records.credentials.extend(others);
    let all = wallet.records.head().credentials;
    Recorded::new(format!("credentials {all}, used {used}"), wallet)
}

/// The table with a role for each level, whose name is the level's number, and a
/// rule for each but the last. Who owns the roles is in them all.
fn levels(rules: &[Rule]) -> Wallet {
    let mut credentials: Vec<CredentialRecord> = Vec::new();
    let mut cells: Vec<CellRecord> = Vec::new();
    for (level, rule) in (GOAL..).zip(rules) {
        let (next, cell) = (level + 1, cells.len() as Number + 1);
        credentials.push(match *rule {
            Rule::Contained => [OWNER, level, 2, OWNER, next, 0],
            Rule::Linked => [OWNER, level, 3, next, next, 0],
            Rule::Chain(times) => {
                cells.extend(chain(cell, &vec![next; times as usize]));
                [OWNER, level, 4, cell, 0, 0]
            }
        });
    }
    credentials.push(member(GOAL + rules.len() as Number));
    let mut wallet = from_records(credentials, cells);
    wallet.query.principal = OWNER;
    wallet
}

/// The owner is in the role with this name.
fn member(name: Number) -> CredentialRecord {
    [OWNER, name, 1, OWNER, 0, 0]
}

#[cfg(test)]
mod tests {
    use super::{long, short, Edges, Recorded};
    use crate::listing::Listing;
    use reference::Number;

    #[test]
    fn records_have_their_lengths() {
        let nodes = |tables: Vec<Recorded>| tables.iter().map(Recorded::nodes).collect();
        let lengths: [Vec<usize>; 2] = [long(), short()].map(nodes);
        assert_eq!(lengths[0], [349_525, 87_381, 131_069, 126_701]);
        assert_eq!(lengths[1], [1, 3, 10, 30, 100, 1, 3, 10, 30, 100]);
    }

    #[test]
    fn records_are_accepted_with_any_edges() {
        for table in [long(), short()].concat() {
            for edges in Edges::ALL {
                let table = table.with(edges);
                let verdict = Listing::of(&table.wallet).verify(&table.record);
                assert_eq!(verdict, Ok(table.set), "{}", table.what);
            }
        }
    }

    #[test]
    fn there_are_few_credentials_and_many() {
        let credentials = short()
            .into_iter()
            .map(|table| table.wallet.records.head().credentials);
        let credentials: Vec<Number> = credentials.collect();
        assert_eq!(credentials, [3, 3, 3, 5, 5, 20, 20, 20, 20, 20]);
    }
}
