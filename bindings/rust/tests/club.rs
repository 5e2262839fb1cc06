//! A club whose friends are the friends of its friends: a role that comes
//! again on a branch, with another principal each time.

use bwlchareg::{list, verify, write, Number, Query, Refusal};

/// Club 1, Ann 2, Bob 3, Cleo 4; friend 1.
const TABLE: [Number; 28] = [
    4, 0, 0, 0, //
    1, 1, 3, 1, 1, 0, // 1: Club.friend <- Club.friend.friend
    1, 1, 1, 2, 0, 0, // 2: Club.friend <- Ann
    2, 1, 1, 3, 0, 0, // 3: Ann.friend <- Bob
    3, 1, 1, 4, 0, 0, // 4: Bob.friend <- Cleo
];

/// Cleo in Club.friend, within three levels.
const QUERY: Query = Query {
    principal: 4,
    owner: 1,
    name: 1,
    depth: 3,
};

/// Cleo through Bob, and Bob through Ann.
const RECORD: [Number; 10] = [1, 3, 1, 2, 2, 0, 3, 0, 4, 0];

fn refused<Accepted>(number: u32, position: u64) -> Result<Accepted, Refusal> {
    Err(Refusal { number, position })
}

#[test]
fn a_claim_may_not_rest_on_itself() {
    // Cleo through herself.
    assert_eq!(verify(&TABLE, QUERY, &[1, 4, 1, 3]), refused(13, 2));
    // With two levels it is Ann at the third who is too deep.
    let shallow = Query { depth: 2, ..QUERY };
    assert_eq!(verify(&TABLE, shallow, &RECORD), refused(13, 3));
    assert_eq!(list(&TABLE, shallow, &mut [0]), refused(9, 0));
}

#[test]
fn who_vouch_for_each_other_alone_are_no_friends() {
    // Dan 5 and Eve 6 are each other's friends.
    let mut table = TABLE.to_vec();
    table[0] += 2;
    table.extend([5, 1, 1, 6, 0, 0, 6, 1, 1, 5, 0, 0]);
    let eve = Query {
        principal: 6,
        depth: 16,
        ..QUERY
    };
    assert_eq!(list(&table, eve, &mut [0]), refused(9, 0));
    assert_eq!(verify(&table, eve, &[1, 5, 1, 6, 1, 5]), refused(13, 3));
}

/// Principal 2 is a friend of the club, and each up to 17 one of the one before.
fn row_of_friends() -> Vec<Number> {
    let mut table = vec![17, 0, 0, 0, 1, 1, 3, 1, 1, 0, 1, 1, 1, 2, 0, 0];
    for friend in 3..=17 {
        table.extend([friend - 1, 1, 1, friend, 0, 0]);
    }
    table
}

#[test]
fn a_role_comes_sixteen_times_on_a_branch() {
    let last = Query {
        principal: 17,
        depth: 16,
        ..QUERY
    };
    let all = (1 << 17) - 1;
    let mut sets = [0; 2];
    assert_eq!(list(&row_of_friends(), last, &mut sets), Ok(1));
    assert_eq!(sets, [all, 0]);
    // The linking nodes down to principal 2, then who is whose friend.
    let mut record = vec![0; 62];
    assert_eq!(write(&row_of_friends(), last, all, &mut record), Ok(62));
    let linking = (2..=16).rev().flat_map(|middle| [1, middle]);
    let naming = (2..=17).flat_map(|credential| [credential, 0]);
    assert!(linking.chain(naming).eq(record.iter().copied()));
    assert_eq!(verify(&row_of_friends(), last, &record), Ok(all));
    let shallow = Query { depth: 15, ..last };
    assert_eq!(list(&row_of_friends(), shallow, &mut sets), refused(9, 0));
    assert_eq!(verify(&row_of_friends(), shallow, &record), refused(13, 16));
}
