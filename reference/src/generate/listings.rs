//! Listings: a table with a query whose minimal sets are asked for.

use std::fmt;

use crate::generate::claims::query;
use crate::generate::clubs::{self, Circle};
use crate::generate::families::{self, Family};
use crate::generate::growth::Policy;
use crate::generate::wallets::Wallet;
use crate::generate::{crossed, damage, demands, detours, nets, policies};
use crate::generate::{queries, valid, wallets};
use crate::query::{Query, DEEPEST};
use crate::random::Random;
use crate::records::{Head, Records};
use crate::Number;

/// What a listing call is given, but for its buffer.
#[derive(Clone, Debug, PartialEq, Eq)]
pub struct Listing {
    /// The table's numbers.
    pub table: Vec<Number>,
    /// The query.
    pub query: Query,
    /// Where they come from.
    pub source: Source,
}

/// Where a listing comes from.
#[derive(Clone, Copy, Debug, PartialEq, Eq, PartialOrd, Ord)]
pub enum Source {
    /// It is the same in every run.
    Fixed,
    /// A wallet grown for the query.
    Wallet,
    /// A wallet with ways from part to part.
    Crossed,
    /// A wallet in which what comes first is often not what will do.
    Detour,
    /// A wallet of a family.
    Shaped(Family),
    /// A wallet in which a role leads back to itself.
    Circle(Circle),
    /// A wallet with eight automata and many edges.
    Net,
    /// A wallet with automata of both marks.
    Demands,
    /// A table in which many goals can be derived, and one of these goals.
    Policy,
    /// Such a table, and any query.
    AnyQuery,
    /// Any valid table, and a query for a role of it.
    Valid,
    /// A damaged table.
    Table,
    /// A damaged query.
    Query,
    /// Both are damaged.
    Both,
}

impl Source {
    /// Every source that there is.
    pub fn all() -> Vec<Source> {
        let mut sources = vec![Source::Fixed, Source::Wallet, Source::Crossed];
        sources.push(Source::Detour);
        sources.extend(Family::ALL.map(Source::Shaped));
        sources.extend(Circle::ALL.map(Source::Circle));
        sources.extend([Source::Net, Source::Demands]);
        sources.extend([Source::Policy, Source::AnyQuery, Source::Valid]);
        sources.extend([Source::Table, Source::Query, Source::Both]);
        sources
    }
}

/// A listing made up at random from any source.
pub fn any(random: &mut Random) -> Listing {
    match random.below(32) {
        0 => from_source(random, Source::Valid),
        1 | 2 => from_source(random, Source::Detour),
        3 | 4 => from_source(random, Source::Net),
        5..=17 => {
            let circle = Circle::drawn(random);
            from_source(random, Source::Circle(circle))
        }
        18 => from_source(random, Source::Demands),
        _ => made_up(random),
    }
}

/// A listing made up at random from the sources that the samples of `bench` are
/// drawn from.
pub fn made_up(random: &mut Random) -> Listing {
    let source = match random.below(20) {
        0..=5 => Source::Wallet,
        6 => Source::Crossed,
        7..=11 => Source::Policy,
        12 => Source::AnyQuery,
        13 => Source::Table,
        14 => Source::Query,
        15 => Source::Both,
        _ => Source::Shaped(*random.pick(&Family::ALL)),
    };
    from_source(random, source)
}

/// A listing made up at random from this source.
fn from_source(random: &mut Random, source: Source) -> Listing {
    let most = Head::LIMITS.credentials;
    let (records, mut query) = match source {
        Source::Policy => goal_of_policy(random),
        Source::AnyQuery => (policies::records(random), queries::valid(random)),
        Source::Valid => role_of_any(random),
        Source::Detour => with_query(detours::made_up(random)),
        Source::Crossed => with_query(crossed::made_up(random)),
        Source::Shaped(family) => with_query(families::made_up(random, family, most)),
        Source::Circle(circle) => with_query(clubs::made_up(random, circle, most)),
        Source::Net => with_query(nets::made_up(random, most)),
        Source::Demands => with_query(demands::made_up(random)),
        _ => with_query(wallets::made_up(random)),
    };
    let mut table = records.numbers();
    if matches!(source, Source::Table | Source::Both) {
        table = damage::any(random, &records);
    }
    if matches!(source, Source::Query | Source::Both) {
        query = queries::spoiled(random, query);
    }
    Listing {
        table,
        query,
        source,
    }
}

/// A wallet's table and its query.
fn with_query(wallet: Wallet) -> (Records, Query) {
    (wallet.records, wallet.query)
}

/// A table in which many goals can be derived, and a query for one of them.
/// The depth limit allows for some derivation, if its words are accepted; now
/// and then it may be lower.
fn goal_of_policy(random: &mut Random) -> (Records, Query) {
    let policy = Policy::new(policies::records(random));
    let (goal, height) = *random.pick(&policy.goals());
    let depth = match random.below(8) {
        0 => random.between(1, DEEPEST),
        1..=3 => height,
        _ => random.between(height, DEEPEST),
    };
    (policy.records, query(goal, depth))
}

/// A valid table, and a query for a role that it defines; and for a principal
/// whom it puts into some role, if there are any.
fn role_of_any(random: &mut Random) -> (Records, Query) {
    let head = valid::head(random);
    let records = valid::records(random, head);
    let mut query = queries::valid(random);
    if !records.credentials.is_empty() {
        [query.owner, query.name, ..] = *random.pick(&records.credentials);
    }
    let members = records.credentials.iter().filter(|record| record[2] == 1);
    let members: Vec<Number> = members.map(|record| record[3]).collect();
    if !members.is_empty() {
        query.principal = *random.pick(&members);
    }
    (records, query)
}

impl fmt::Display for Source {
    fn fmt(&self, out: &mut fmt::Formatter<'_>) -> fmt::Result {
        out.pad(match self {
            Source::Fixed => "the same in every run",
            Source::Wallet => "grown wallet",
            Source::Crossed => "wallet with ways from part to part",
            Source::Detour => "wallet with detours",
            Source::Shaped(family) => return family.fmt(out),
            Source::Circle(circle) => return circle.fmt(out),
            Source::Net => "wallet with many edges",
            Source::Demands => "wallet with both marks",
            Source::Policy => "goal of a table with many",
            Source::AnyQuery => "any query",
            Source::Valid => "role of any valid table",
            Source::Table => "damaged table",
            Source::Query => "damaged query",
            Source::Both => "damaged table and query",
        })
    }
}
