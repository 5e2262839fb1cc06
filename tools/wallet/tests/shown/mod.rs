//! Wallets whose records the tests show.

pub mod claims;
pub mod xml;

use bwlchareg::{Number, Query};
use wallet::names::Names;
use wallet::parse::parse;
use wallet::table::{Automaton, Body, Cell, Credential, Edge, Label, Mark, Role, Table};
use wallet::{Lines, Wallet};

/// Query Q of the shop example: Ann in Shop.discount, depth 2.
pub const Q: Query = Query {
    principal: 4,
    owner: 1,
    name: 1,
    depth: 2,
};

/// A role.
pub fn role(owner: Number, name: Number) -> Role {
    Role { owner, name }
}

/// A credential without a constraint.
pub fn credential(role: Role, body: Body) -> Credential {
    Credential {
        role,
        body,
        automaton: 0,
    }
}

/// Names with these principals and role names.
pub fn names(principals: &[(Number, &str)], roles: &[(Number, &str)]) -> Names {
    let owned = |pairs: &[(Number, &str)]| {
        let pairs = pairs.iter();
        pairs
            .map(|&(number, name)| (number, name.to_string()))
            .collect()
    };
    Names {
        principals: owned(principals),
        roles: owned(roles),
        ..Names::default()
    }
}

/// The shop example with table T.
pub fn shop() -> Wallet {
    let linked = Body::Linked {
        first: 3,
        second: 2,
    };
    let credentials = vec![
        credential(role(1, 1), linked),
        credential(role(1, 3), Body::Member(2)),
        credential(role(2, 2), Body::Member(4)),
        credential(role(1, 1), Body::Member(4)),
    ];
    Wallet {
        table: Table {
            credentials,
            ..Table::default()
        },
        query: Some(Q),
        names: names(
            &[(1, "Shop"), (2, "School"), (4, "Ann")],
            &[(1, "discount"), (2, "student"), (3, "accredited")],
        ),
        lines: Lines::default(),
    }
}

/// The shop with table U, as the text of `docs/WALLET.md` has it.
pub fn constrained_shop() -> Wallet {
    let mut wallet = shop();
    wallet.table.credentials[2].automaton = 1;
    wallet.table.automata = vec![Automaton {
        start: 1,
        accept: 2,
        mark: Mark::EveryWord,
    }];
    wallet.table.edges = vec![
        edge(1, 0, Label::Not(role(1, 1)), 1),
        edge(1, 1, Label::Any, 1),
    ];
    let name = "not-for-discounts".to_string();
    wallet.names.constraints.insert(1, name);
    wallet.lines.credentials = vec![5, 6, 7, 8];
    wallet
}

/// A club whose friends are the friends of its friends, by proofs whose words
/// have at most so many roles. Ann is one, Bob is Ann's friend, and Cleo Bob's.
pub fn club(roles: Number) -> Wallet {
    let mut text = "Club.friend <- Club.friend.friend under near
        Club.friend <- Ann
        Ann.friend <- Bob
        Bob.friend <- Cleo
        Cleo in Club.friend within 9
        constraint near
        start 0
        accept 1 2 3 4
        "
    .to_string();
    for state in 0..roles {
        text += &format!("{state} -- any --> {}\n", state + 1);
    }
    parse(text.as_bytes()).expect("a wallet")
}

/// A race that lets in whoever is entered by a club and passed by a doctor. The
/// club demands a word that goes through the medical centre, and the centre that
/// every word is about the race.
pub fn race() -> Wallet {
    let text = "Race.starter <- Race.entered & Race.fit
        Race.entered <- Club.member
        Club.member <- Dora under through-centre
        Race.fit <- Race.doctor.passed
        Race.doctor <- Centre
        Race.doctor <- Physio
        Centre.passed <- Dora under for-races
        Physio.passed <- Dora
        constraint through-centre
        some word
        start out
        accept in-centre
        out -- any --> out
        out -- any of Centre --> in-centre
        in-centre -- any --> in-centre
        constraint for-races
        start new
        accept race
        new -- Race.starter --> race
        race -- any --> race
        Dora in Race.starter within 3
        ";
    parse(text.as_bytes()).expect("a wallet")
}

/// An edge.
pub fn edge(automaton: Number, from: Number, label: Label, to: Number) -> Edge {
    Edge {
        automaton,
        from,
        label,
        to,
    }
}

/// The part cells of one chain with these roles.
pub fn chain(roles: &[Role]) -> Vec<Cell> {
    let last = roles.len() as Number;
    let numbered = (1..).zip(roles);
    let cells = numbered.map(|(number, &role)| Cell {
        role,
        next: if number == last { 0 } else { number + 1 },
    });
    cells.collect()
}
