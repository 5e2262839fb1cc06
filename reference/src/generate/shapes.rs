//! Tables of a few plain shapes, each in any size for which there is room,
//! with a query for the same member in the same role.
//!
//! They are chosen because some way of listing is slow on them: roles that lead
//! to each other over many ways, roles to choose definers for, and ways to the
//! goal that have nothing in common.

use crate::generate::wallets::Wallet;
use crate::query::{Query, DEEPEST};
use crate::records::{CellRecord, CredentialRecord, Head, Records};
use crate::sorts::HIGHEST;
use crate::Number;

/// Who is asked about.
pub const MEMBER: Number = HIGHEST;
/// Who owns the role that is asked about.
pub const OWNER: Number = 1;
/// The name of that role.
pub const GOAL: Number = 1;

/// Where the chain's credential stands among those that define its parts.
#[derive(Clone, Copy, Debug, PartialEq, Eq)]
pub enum Place {
    /// Before them.
    First,
    /// After half of them.
    Middle,
    /// After all of them.
    Last,
}

impl Place {
    /// Every place that there is.
    pub const ALL: [Place; 3] = [Place::First, Place::Middle, Place::Last];
}

/// How a way to the goal goes.
#[derive(Clone, Copy, Debug, PartialEq, Eq)]
pub enum Way {
    /// From role to role, and the last has the member.
    Line,
    /// A chain of roles, each of which has the member.
    Chain,
}

impl Way {
    /// Every way that there is.
    pub const ALL: [Way; 2] = [Way::Line, Way::Chain];
}

/// A ladder of two credentials of kind 3 for each of 2 to 5 principals, who own
/// two roles each, which are the two sides. Whoever is in a role on one side is
/// in the role on the other side of each principal from whom the way leads
/// there, and ways lead to the next principal and to the one after.
pub fn ladder(principals: Number) -> Wallet {
    const LEFT: Number = GOAL;
    const RIGHT: Number = 2;
    const WAY: Number = 3;
    let mut credentials = Vec::new();
    for principal in 1..=principals {
        credentials.push([principal, LEFT, 3, WAY, RIGHT, 0]);
        credentials.push([principal, RIGHT, 3, WAY, LEFT, 0]);
    }
    for principal in 1..=principals {
        let next = principal % principals + 1;
        credentials.push([principal, WAY, 1, next, 0, 0]);
        if principal < principals {
            credentials.push([principal, WAY, 1, next % principals + 1, 0, 0]);
        }
    }
    credentials.push([principals - 1, RIGHT, 1, MEMBER, 0, 0]);
    from_records(credentials, Vec::new())
}

/// A ladder of so many credentials of kind 3, 1 to 15, one above the other, and
/// 2 people or more, of whom the last owns all roles and the first is asked
/// about. Each rung's role is linked by the next one's to the next one's, and
/// all people are in the last. So whoever is tried as a middle on a rung is found
/// on all rungs below, and only the owner, who comes last, leads on.
pub fn rungs(rungs: Number, people: Number) -> Wallet {
    let linked = (1..=rungs).map(|rung| [people, rung, 3, rung + 1, rung + 1, 0]);
    let members = (1..=people).map(|person| [people, rungs + 1, 1, person, 0, 0]);
    let mut wallet = from_records(linked.chain(members).collect(), Vec::new());
    wallet.query.principal = 1;
    wallet.query.owner = people;
    wallet
}

/// A ladder of kind 2: 3 to 9 roles in a ring, each of which contains the next
/// and the one after. The member is in the last but one.
pub fn containments(roles: Number) -> Wallet {
    let mut credentials = Vec::new();
    for role in 1..=roles {
        let next = role % roles + 1;
        credentials.push([OWNER, role, 2, OWNER, next, 0]);
        credentials.push([OWNER, role, 2, OWNER, next % roles + 1, 0]);
    }
    credentials.push([OWNER, roles - 1, 1, MEMBER, 0, 0]);
    from_records(credentials, Vec::new())
}

/// A chain of 2 to 4 roles, each of which so many credentials define: a set for
/// each choice of one definer for every role.
pub fn choices(definers: &[Number], place: Place) -> Wallet {
    let parts = definers.len() as Number;
    let mut credentials = Vec::new();
    for (name, &count) in (GOAL + 1..).zip(definers) {
        credentials.extend((0..count).map(|_| [OWNER, name, 1, MEMBER, 0, 0]));
    }
    let before = match place {
        Place::First => 0,
        Place::Middle => credentials.len() / 2,
        Place::Last => credentials.len(),
    };
    credentials.insert(before, [OWNER, GOAL, 4, 1, 0, 0]);
    from_records(credentials, chain(1, GOAL + 1, parts).collect())
}

/// The goal above so many layers of four roles, 1 to 4. The goal and every role
/// but those of the last layer are chains of the next layer's four roles; the
/// credentials of the last layer are there twice if there is room.
pub fn layers(layers: Number) -> Wallet {
    let role = |layer: Number, part: Number| 4 * layer + part;
    let first_cell = |layer: Number| 4 * layer + 1;
    let mut credentials = vec![[OWNER, GOAL, 4, first_cell(0), 0, 0]];
    let mut cells = Vec::new();
    for layer in 1..=layers {
        cells.extend(chain(first_cell(layer - 1), role(layer, 1), 4));
        credentials.extend((1..=4).map(|part| match layer == layers {
            true => [OWNER, role(layer, part), 1, MEMBER, 0, 0],
            false => [OWNER, role(layer, part), 4, first_cell(layer), 0, 0],
        }));
    }
    let leaves = credentials[credentials.len() - 4..].to_vec();
    credentials.extend(leaves);
    credentials.truncate(Head::LIMITS.credentials as usize);
    from_records(credentials, cells)
}

/// Ways to the goal, each of so many credentials that no other way has: a set
/// for each way. A way of one credential is a membership; a chain has 3 to 5
/// credentials, and what has fewer or more is a line.
pub fn ways(each: &[Number], way: Way) -> Wallet {
    let mut credentials = Vec::new();
    let mut cells = Vec::new();
    let mut name = GOAL + 1;
    for &count in each {
        let names = name..name + count - 1;
        match way {
            Way::Chain if (3..=5).contains(&count) => {
                let first = cells.len() as Number + 1;
                cells.extend(chain(first, name, count - 1));
                credentials.push([OWNER, GOAL, 4, first, 0, 0]);
                let members = names.clone();
                credentials.extend(members.map(|part| [OWNER, part, 1, MEMBER, 0, 0]));
            }
            _ => {
                let roles = [GOAL].into_iter().chain(names.clone());
                let steps = roles.zip(names.clone());
                credentials.extend(steps.map(|(role, next)| [OWNER, role, 2, OWNER, next, 0]));
                let last = names.clone().last().unwrap_or(GOAL);
                credentials.push([OWNER, last, 1, MEMBER, 0, 0]);
            }
        }
        name = names.end;
    }
    from_records(credentials, cells)
}

/// The cells of a chain of so many roles with names one after the other, which
/// stand one after the other too.
fn chain(cell: Number, name: Number, parts: Number) -> impl Iterator<Item = CellRecord> {
    (0..parts).map(move |part| {
        let is_last = part + 1 == parts;
        let next = if is_last { 0 } else { cell + part + 1 };
        [OWNER, name + part, next]
    })
}

/// The table with these records and no automata, and the query for the member
/// in the goal's role, the owner's first.
pub fn from_records(credentials: Vec<CredentialRecord>, cells: Vec<CellRecord>) -> Wallet {
    let records = Records {
        credentials,
        cells,
        automata: Vec::new(),
        edges: Vec::new(),
    };
    let query = Query {
        principal: MEMBER,
        owner: OWNER,
        name: GOAL,
        depth: DEEPEST,
    };
    Wallet { records, query }
}
