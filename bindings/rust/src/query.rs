//! Queries.

use crate::Number;

/// What is asked of a table: is the principal in the role `owner.name`, by a
/// derivation of at most `depth` levels?
///
/// Any four numbers can be written. Every call that takes a query refuses one that
/// is out of range, with [`Reason::Query`](crate::Reason::Query).
///
/// ```
/// use bwlchareg::{check_query, Query};
///
/// // Is principal 4 in the role 1.1, within two levels?
/// let query = Query { principal: 4, owner: 1, name: 1, depth: 2 };
/// let empty = [0, 0, 0, 0]; // a table without records
/// assert_eq!(check_query(&empty, query), Ok(()));
///
/// // One level deeper than a query can go.
/// let refusal = check_query(&empty, Query { depth: 17, ..query }).unwrap_err();
/// assert_eq!(refusal.to_string(), "the query's depth limit is out of range");
/// ```
#[derive(Clone, Copy, Debug, PartialEq, Eq, Hash)]
pub struct Query {
    /// The principal, 1 to 64.
    pub principal: Number,
    /// The principal who owns the role, 1 to 64.
    pub owner: Number,
    /// The role's name, 1 to 64.
    pub name: Number,
    /// The depth limit, 1 to 16. The goal itself is at level 1.
    pub depth: Number,
}
