//! Friends of friends, worked out by hand: a role may come again on a branch
//! with another principal, and a pair of principal and role may not.

mod by_hand_tables;

use by_hand_tables::{
    chain, from, in_every, kept, linked, member, on, on_any_of, on_every, plain, table,
};
use reference::records::{CredentialRecord, EdgeRecord};
use reference::table::EVERY_STATE;
use reference::{list, verify, write, Number, Query, Refusal};

/// Who there is, and the name of the role that they all own.
const CLUB: Number = 1;
const ANN: Number = 4;
const BOB: Number = 5;
const CLEO: Number = 6;
const FRIEND: Number = 2;

/// Somebody's friends.
fn friends(owner: Number) -> [Number; 2] {
    [owner, FRIEND]
}

/// A friend of somebody.
fn friend(owner: Number, person: Number) -> CredentialRecord {
    member(friends(owner), person)
}

/// Somebody's friends' friends are their friends.
fn of_friends(owner: Number) -> CredentialRecord {
    linked(friends(owner), FRIEND, FRIEND)
}

/// The club of the definition: Ann is its friend, Bob hers, and Cleo his.
fn club() -> Vec<CredentialRecord> {
    vec![
        of_friends(CLUB),  // 1
        friend(CLUB, ANN), // 2
        friend(ANN, BOB),  // 3
        friend(BOB, CLEO), // 4
    ]
}

/// The club with further credentials.
fn club_with(more: &[CredentialRecord]) -> Vec<CredentialRecord> {
    [&club()[..], more].concat()
}

/// Somebody in Club.friend, within so many levels.
fn asked(principal: Number, depth: Number) -> Query {
    Query::from_numbers([principal, CLUB, FRIEND, depth])
}

/// The list; nothing if there is no set.
fn sets(table: &[Number], query: Query) -> Vec<u32> {
    let mut cells = vec![0; 64];
    match list(table, query, &mut cells) {
        Ok(count) => cells.truncate(count),
        Err(refusal) => {
            assert_eq!(refusal, Refusal::new(9, 0u64));
            cells.clear();
        }
    }
    cells
}

/// The first record of a listed set, which the verifier accepts with this set.
fn first(table: &[Number], query: Query, set: u32) -> Vec<Number> {
    let mut cells = vec![0; 100];
    let length = write(table, query, set, &mut cells).expect("a record");
    cells.truncate(length);
    assert_eq!(verify(table, query, &cells), Ok(set));
    cells
}

fn refused(number: u32, position: u64) -> Result<u32, Refusal> {
    Err(Refusal { number, position })
}

/// Cleo, by way of Bob, who is there by way of Ann: the role three times on the
/// first branch.
const BY_ANN: [Number; 10] = [1, BOB, 1, ANN, 2, 0, 3, 0, 4, 0];

#[test]
fn the_club_of_the_definition() {
    assert_eq!(of_friends(CLUB), [1, 2, 3, 2, 2, 0]);
    let club = plain(&club());
    assert_eq!(sets(&club, asked(ANN, 1)), [2]);
    assert_eq!(sets(&club, asked(BOB, 2)), [1 + 2 + 4]);
    assert_eq!(sets(&club, asked(BOB, 1)), []);
    assert_eq!(sets(&club, asked(CLEO, 3)), [15]);
    assert_eq!(sets(&club, asked(CLEO, 16)), [15]);
    assert_eq!(sets(&club, asked(CLEO, 2)), []);
    assert_eq!(verify(&club, asked(CLEO, 3), &BY_ANN), Ok(15));
    assert_eq!(first(&club, asked(CLEO, 3), 15), BY_ANN);
    assert_eq!(first(&club, asked(BOB, 2), 7), [1, ANN, 2, 0, 3, 0]);
}

#[test]
fn a_role_is_refused_for_its_level_and_not_for_coming_again() {
    let club = plain(&club());
    // The third node is Ann in Club.friend, on the third level.
    assert_eq!(verify(&club, asked(CLEO, 2), &BY_ANN), refused(13, 3));
    assert_eq!(verify(&club, asked(CLEO, 1), &BY_ANN), refused(13, 2));
}

#[test]
fn a_pair_is_refused_wherever_it_stands_above() {
    let club = plain(&club_with(&[
        friend(CLEO, BOB),  // 5
        friend(CLUB, CLUB), // 6
        friend(CLEO, CLEO), // 7
    ]));
    let verdict = |record: &[Number]| verify(&club, asked(CLEO, 16), record);
    // Right below itself, as the first premise and as the second.
    let below = [&[1, CLEO], &BY_ANN[..], &[7, 0]].concat();
    assert_eq!(verdict(&below), refused(13, 2));
    let second = [&[1, CLUB, 6, 0], &BY_ANN[..]].concat();
    assert_eq!(verdict(&second), refused(13, 3));
    // Two levels below itself: Cleo, Bob, Cleo.
    let farther = [&[1, BOB, 1, CLEO], &BY_ANN[..], &[5, 0, 4, 0]].concat();
    assert_eq!(verdict(&farther), refused(13, 3));
    // A pair that is not the goal: Cleo, Bob, Ann, Bob.
    let inner = [1, BOB, 1, ANN, 1, BOB, 1, ANN];
    assert_eq!(verdict(&inner), refused(13, 4));
    // 12 comes before 13 at the same node, and 13 before whatever is below.
    assert_eq!(verdict(&[1, BOB, 1, CLEO, 2, 0]), refused(12, 3));
    assert_eq!(verdict(&[1, BOB, 1, CLEO, 1, BOB]), refused(13, 3));
    assert_eq!(verdict(&[1, BOB, 1, CLEO]), refused(11, 3));
}

#[test]
fn a_pair_may_come_again_beside_its_branch() {
    // Ann's friends' friends too. Bob is in Ann.friend on two branches, below
    // Cleo in Ann.friend, which are not above each other.
    let both = plain(&club_with(&[of_friends(ANN)]));
    let query = asked(CLEO, 16);
    let record = [1, ANN, 2, 0, 5, BOB, 3, 0, 4, 0];
    assert_eq!(verify(&both, query, &record), Ok(31));
    // The set 31 is not minimal: by way of Bob, Ann need not say it.
    assert_eq!(sets(&both, query), [15]);
    // Ann may say it instead of the club if she is asked about.
    let of_ann = Query {
        owner: ANN,
        ..asked(CLEO, 2)
    };
    assert_eq!(sets(&both, of_ann), [4 + 8 + 16]);
    assert_eq!(first(&both, of_ann, 28), [5, BOB, 3, 0, 4, 0]);
}

#[test]
fn a_principal_may_come_again_in_another_role() {
    // Bob in Club.friend rests on Bob in Ann.friend, and so on to the end.
    let line = plain(&[
        from(friends(CLUB), friends(ANN)),
        from(friends(ANN), friends(CLEO)),
        friend(CLEO, BOB),
        from(friends(CLEO), friends(CLUB)),
    ]);
    let query = asked(BOB, 16);
    assert_eq!(sets(&line, query), [7]);
    assert_eq!(first(&line, query, 7), [1, 0, 2, 0, 3, 0]);
    // Back to Bob in Club.friend.
    let back = [1, 0, 2, 0, 4, 0, 1, 0, 2, 0, 3, 0];
    assert_eq!(verify(&line, query, &back), refused(13, 4));
}

/// The edges of an automaton that reads so many roles at most.
fn at_most(roles: Number) -> Vec<EdgeRecord> {
    (0..roles).map(|state| on_every(state, state + 1)).collect()
}

#[test]
fn a_constraint_may_limit_how_far_friendship_goes() {
    // Bob is a friend of the club too, so there is a shorter way to Cleo.
    let both = club_with(&[friend(CLUB, BOB)]);
    let query = asked(CLEO, 16);
    assert_eq!(sets(&plain(&both), query), [15, 1 + 8 + 16]);
    let mut limited = both.clone();
    limited[0] = kept(limited[0]);
    // The words of 15 have three roles and two, those of 25 have two.
    for (roles, expected) in [(1, &[][..]), (2, &[25]), (3, &[15, 25]), (8, &[15, 25])] {
        let limited = table(&limited, &[], EVERY_STATE, &at_most(roles));
        assert_eq!(sets(&limited, query), expected, "{roles} roles");
    }
    let two = table(&limited, &[], EVERY_STATE, &at_most(2));
    assert_eq!(first(&two, query, 25), [1, BOB, 5, 0, 4, 0]);
    let mut longer = BY_ANN.to_vec();
    assert_eq!(verify(&two, query, &longer), refused(14, 1));
    // 13 comes before 14.
    longer.splice(2..4, [1, CLEO, 1, BOB]);
    assert_eq!(verify(&two, query, &longer), refused(13, 3));
}

#[test]
fn a_constraint_may_keep_friendship_from_somebody() {
    // No word may go through a role of Ann's.
    let both = club_with(&[friend(CLUB, BOB)]);
    let mut kept_from = both.clone();
    kept_from[0] = kept(kept_from[0]);
    let others = [CLUB, BOB, CLEO].map(|owner| on_any_of(0, owner, 0));
    let kept_from = table(&kept_from, &[], 1, &others);
    assert_eq!(sets(&kept_from, asked(CLEO, 16)), [25]);
    assert_eq!(sets(&kept_from, asked(BOB, 16)), [16]);
    assert_eq!(sets(&plain(&both), asked(BOB, 16)), [7, 16]);
}

#[test]
fn a_longer_way_round_may_be_the_one_that_complies() {
    // Words have an odd number of roles. Bob's own credential does not comply,
    // and the way by Ann does where it is one level further down.
    let odd = [on_every(0, 1), on_every(1, 0)];
    let credentials = [
        kept(of_friends(CLUB)),     // 1
        friend(CLUB, ANN),          // 2
        friend(ANN, BOB),           // 3
        friend(BOB, CLEO),          // 4
        from(friends(BOB), [8, 8]), // 5
        member([8, 8], CLEO),       // 6
    ];
    let odd = table(&credentials, &[], 2, &odd);
    // Club, Club, Club; Club, Club, Ann; Club, Bob, 8.
    let query = asked(CLEO, 16);
    assert_eq!(sets(&odd, query), [1 + 2 + 4 + 16 + 32]);
    let record = [1, BOB, 1, ANN, 2, 0, 3, 0, 5, 0, 6, 0];
    assert_eq!(first(&odd, query, 55), record);
    assert_eq!(verify(&odd, query, &BY_ANN), refused(14, 1));
    // Bob alone would need Club, Club and Club, Ann.
    assert_eq!(sets(&odd, asked(BOB, 16)), []);
}

#[test]
fn what_would_comply_may_come_back_to_its_own_pair() {
    // Words have three roles or more. Cleo is a friend of the club's, and of her
    // own; the way round by her own friendship needs her in Club.friend again.
    let three = [
        on_every(0, 1),
        on_every(1, 2),
        on_every(2, 3),
        on_every(3, 3),
    ];
    let own = [
        kept(of_friends(CLUB)),
        friend(CLUB, CLEO),
        friend(CLEO, CLEO),
    ];
    let own = table(&own, &[], 8, &three);
    assert_eq!(sets(&own, asked(CLEO, 16)), [2]);
    let round = [1, CLEO, 1, CLEO, 2, 0, 3, 0, 3, 0];
    assert_eq!(verify(&own, asked(CLEO, 16), &round), refused(13, 2));
    let mut all_kept = [of_friends(CLUB), friend(CLUB, CLEO), friend(CLEO, CLEO)].map(kept);
    let none = table(&all_kept, &[], 8, &three);
    assert_eq!(sets(&none, asked(CLEO, 16)), []);
    // Over Bob and Ann, who are friends of each other, the same.
    all_kept[1] = kept(friend(CLUB, ANN));
    all_kept[2] = kept(friend(ANN, BOB));
    let round = [&all_kept[..], &[friend(BOB, ANN), friend(BOB, CLEO)]].concat();
    let round = table(&round, &[], 8, &three);
    assert_eq!(sets(&round, asked(CLEO, 16)), []);
}

#[test]
fn the_first_record_takes_the_least_middle_that_does() {
    // Cleo has to be in Club.friend and in Ann.friend, and all say the same of
    // their friends' friends. Ann comes before Bob as a middle.
    const GATE: [Number; 2] = [9, 9];
    let credentials = [
        in_every(GATE, 1), // 1
        of_friends(CLUB),  // 2
        friend(CLUB, ANN), // 3
        of_friends(ANN),   // 4
        friend(ANN, BOB),  // 5
        friend(BOB, CLEO), // 6
    ];
    let parts = [[CLUB, FRIEND, 2], [ANN, FRIEND, 0]];
    let gate = table(&credentials, &parts, 0, &[]);
    let query = Query::from_numbers([CLEO, 9, 9, 16]);
    assert_eq!(sets(&gate, query), [63]);
    let in_ann_s = [4, BOB, 5, 0, 6, 0];
    let record = [&[1, 0, 2, ANN, 3, 0], &in_ann_s[..], &in_ann_s].concat();
    assert_eq!(first(&gate, query, 63), record);
    // By way of Bob it is accepted too, and comes later.
    let by_bob = [&[1, 0, 2, BOB, 2, ANN, 3, 0, 5, 0, 6, 0], &in_ann_s[..]].concat();
    assert_eq!(verify(&gate, query, &by_bob), Ok(63));
    assert!(record < by_bob);
    // With three levels Ann's friends' friends are too deep there, and so is Bob.
    assert_eq!(sets(&gate, Query { depth: 3, ..query }), []);
}

#[test]
fn a_membership_may_be_needless_once_a_role_comes_again() {
    // Whoever is in A and in E is in G. Both are for the friends (9) of whoever is
    // in B, and B for the friends of whoever is in A. A word with E may not end
    // with B, so that 3 has to be in B by way of 2 there.
    let [g, a, e, b] = [1, 2, 3, 4].map(|name| [1, name]);
    let credentials = [
        kept(in_every(g, 1)), // 1
        linked(a, 4, 9),      // 2
        linked(e, 4, 9),      // 3
        linked(b, 2, 9),      // 4
        member(a, 2),         // 5
        member(b, 3),         // 6
        member([2, 9], 3),    // 7
        member([3, 9], 4),    // 8
    ];
    let under_a = [on(1, a, 2), on_every(2, 2)];
    let under_e = [on(1, e, 3), on_every(3, 3), on(3, a, 4)];
    let ends = [on_any_of(3, 2, 4), on_any_of(3, 3, 4)];
    let edges = [&[on_every(0, 1)], &under_a[..], &under_e, &ends].concat();
    let gate = table(&credentials, &chain(&[a, e]), 4 + 16, &edges);
    let query = Query::from_numbers([4, 1, 1, 16]);
    // 6 is needed under A only if A may not come again: 4 in A, 3 in B, 2 in A.
    assert_eq!(sets(&gate, query), [255 - 32]);
    let [by_2, by_6] = [&[4, 2, 5, 0, 7, 0][..], &[6, 0]];
    let record = |under_a: &[Number], under_e: &[Number]| {
        [&[1, 0, 2, 3], under_a, &[8, 0, 3, 3], under_e, &[8, 0]].concat()
    };
    assert_eq!(first(&gate, query, 223), record(by_2, by_2));
    assert_eq!(verify(&gate, query, &record(by_6, by_2)), Ok(255));
    assert_eq!(verify(&gate, query, &record(by_6, by_6)), refused(14, 1));
    // With three levels there is no room for the way by 2 under E.
    assert_eq!(sets(&gate, Query { depth: 3, ..query }), []);
}

#[test]
fn a_line_of_sixteen_people_has_sixteen_levels() {
    // The club's friend is 2, whose friend is 3, and so on to 18.
    let mut line = vec![of_friends(CLUB)];
    line.extend((1..18).map(|person| friend(person, person + 1)));
    let line = plain(&line);
    for person in 2..=18 {
        let levels = person - 1;
        let used = (1 << person) - 1;
        let expected = if person == 2 { vec![2] } else { vec![used] };
        if levels <= 16 {
            assert_eq!(sets(&line, asked(person, levels)), expected);
            assert_eq!(sets(&line, asked(person, 16)), expected);
        }
        if levels > 1 {
            assert_eq!(sets(&line, asked(person, (levels - 1).min(16))), []);
        }
    }
}
