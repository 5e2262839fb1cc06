//! Whether a role can come again on a branch, with another principal. Where none
//! can, a branch repeats a role exactly if it repeats a pair of principal and role:
//! so whoever goes by roles answers the same as whoever goes by pairs. The answer
//! set program goes by roles, and so do older builds of the library.

use std::collections::BTreeSet;

use reference::generate::growth::Policy;
use reference::records::Records;
use reference::sorts::{Goal, HIGHEST};
use reference::Number;

use crate::listing::Listing;

/// Whether some role can, below the goal of the query.
pub fn can_a_role_come(listing: &Listing) -> bool {
    let records = Records::read(&listing.table).expect("an accepted table");
    let policy = Policy::new(records);
    let (_, asked) = listing.read();
    let again = |goal: &Goal| {
        let others = below(&policy, *goal).into_iter();
        let mut others = others.filter(|other| other.role == goal.role);
        others.any(|other| other.principal != goal.principal)
    };
    below(&policy, asked.goal).iter().any(again)
}

/// A goal with all that can stand below it, as far as the goals can be derived.
fn below(policy: &Policy, goal: Goal) -> BTreeSet<Goal> {
    let (mut found, mut open) = (BTreeSet::from([goal]), vec![goal]);
    while let Some(goal) = open.pop() {
        let premises = premises(policy, goal).into_iter();
        open.extend(premises.filter(|&premise| found.insert(premise)));
    }
    found
}

/// The premises of all nodes that a goal can have.
fn premises(policy: &Policy, goal: Goal) -> Vec<Goal> {
    let table = &policy.table;
    let credentials = 1..=table.credentials.len() as Number;
    let nodes = credentials.flat_map(|number| (0..=HIGHEST).map(move |middle| (number, middle)));
    let premises = nodes.filter_map(|(number, middle)| table.premises(goal, number, middle));
    let can_be_derived = |goals: &Vec<Goal>| goals.iter().all(|&goal| policy.is_derivable(goal));
    premises.filter(can_be_derived).flatten().collect()
}

#[cfg(test)]
mod tests {
    use super::can_a_role_come;
    use crate::families;
    use crate::listing::Listing;
    use crate::peers::wallets::{of_size, sizes};
    use reference::generate::shapes::{containments, from_records};
    use reference::query::Query;
    use reference::{shop, Number};

    /// The friends of 2's friends are 2's friends, and so many of the credentials
    /// behind that name one of these.
    fn club(friends: usize) -> Listing {
        let names = [[2, 2, 1, 4, 0, 0], [4, 2, 1, 5, 0, 0], [5, 2, 1, 6, 0, 0]];
        let credentials = [&[[2, 2, 3, 2, 2, 0]], &names[..friends]].concat();
        let mut wallet = from_records(credentials, Vec::new());
        wallet.query = Query::from_numbers([3 + friends as Number, 2, 2, 16]);
        Listing::of(&wallet)
    }

    #[test]
    fn a_role_comes_again_where_it_is_linked_by_itself() {
        let can = [1, 2, 3].map(|friends| can_a_role_come(&club(friends)));
        assert_eq!(can, [false, true, true]);
    }

    #[test]
    fn with_the_same_principal_alone_it_does_not_count() {
        assert!(!can_a_role_come(&Listing::of(&containments(5))));
        assert!(!can_a_role_come(&Listing::of(&families::shop(&shop::T))));
    }

    #[test]
    fn it_can_in_no_wallet_on_which_the_ways_are_compared() {
        let shapes = families::growing().into_iter();
        let shapes = shapes.map(|(_, wallet)| Listing::of(&wallet));
        let mut all = shapes.chain(sizes().flat_map(of_size));
        assert!(!all.any(|listing| can_a_role_come(&listing)));
    }
}
