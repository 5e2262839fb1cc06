//! What is asked of a table: refusal 8.

use crate::refusal::Refusal;
use crate::sorts::{one_to, Goal, Name, Principal, Role, HIGHEST};
use crate::Number;

/// The greatest depth limit; the smallest is 1.
pub const DEEPEST: Number = 16;

/// A query as written.
#[derive(Clone, Copy, Debug, PartialEq, Eq)]
pub struct Query {
    /// The principal.
    pub principal: Number,
    /// The owner of the role.
    pub owner: Number,
    /// The name of the role.
    pub name: Number,
    /// The depth limit.
    pub depth: Number,
}

/// What a valid query stands for: the goal, and how deep a derivation of it
/// may go.
#[derive(Clone, Copy, Debug, PartialEq, Eq)]
pub struct Asked {
    /// The goal.
    pub goal: Goal,
    /// The highest level that a node may have.
    pub depth: Number,
}

impl Query {
    /// The greatest value of each field; the smallest is 1.
    pub const LIMITS: [Number; 4] = [HIGHEST, HIGHEST, HIGHEST, DEEPEST];

    /// The four fields in the order in which they are given.
    pub fn numbers(self) -> [Number; 4] {
        [self.principal, self.owner, self.name, self.depth]
    }

    /// The query with these four fields.
    pub fn from_numbers([principal, owner, name, depth]: [Number; 4]) -> Query {
        Query {
            principal,
            owner,
            name,
            depth,
        }
    }

    /// Reads a query, or refuses it at the first field that fails.
    pub fn read(self) -> Result<Asked, Refusal> {
        let at = |position: u32| Refusal::new(8, position);
        let principal = Principal::read(self.principal).ok_or(at(1))?;
        let owner = Principal::read(self.owner).ok_or(at(2))?;
        let name = Name::read(self.name).ok_or(at(3))?;
        let depth = one_to(DEEPEST, self.depth).ok_or(at(4))?;
        let role = Role { owner, name };
        Ok(Asked {
            goal: Goal { principal, role },
            depth,
        })
    }
}
