//! Principals, role names, roles and goals.
//!
//! Principals and role names are numbers alike, but separate sorts: neither
//! can stand for the other.

use crate::Number;

/// Principals and role names are each numbered from 1 to this.
pub const HIGHEST: Number = 64;

/// A principal, numbered 1 to 64.
#[derive(Clone, Copy, Debug, PartialEq, Eq, PartialOrd, Ord, Hash)]
pub struct Principal(Number);

/// A role name, numbered 1 to 64.
#[derive(Clone, Copy, Debug, PartialEq, Eq, PartialOrd, Ord, Hash)]
pub struct Name(Number);

/// A role: its owner and its name.
#[derive(Clone, Copy, Debug, PartialEq, Eq, PartialOrd, Ord, Hash)]
pub struct Role {
    /// Who owns the role.
    pub owner: Principal,
    /// What the owner calls it.
    pub name: Name,
}

/// A goal: that a principal is in a role.
#[derive(Clone, Copy, Debug, PartialEq, Eq, PartialOrd, Ord, Hash)]
pub struct Goal {
    /// Who is to be in the role.
    pub principal: Principal,
    /// The role.
    pub role: Role,
}

impl Principal {
    /// The principal with this number, if there is one.
    pub fn read(number: Number) -> Option<Principal> {
        one_to(HIGHEST, number).map(Principal)
    }

    /// The principal's number.
    pub fn number(self) -> Number {
        self.0
    }
}

impl Name {
    /// The role name with this number, if there is one.
    pub fn read(number: Number) -> Option<Name> {
        one_to(HIGHEST, number).map(Name)
    }

    /// The role name's number.
    pub fn number(self) -> Number {
        self.0
    }
}

impl Role {
    /// The owner's role with this name.
    pub fn new(owner: Principal, name: Name) -> Role {
        Role { owner, name }
    }

    /// The role with these numbers, if there is one.
    pub fn read(owner: Number, name: Number) -> Option<Role> {
        Some(Role {
            owner: Principal::read(owner)?,
            name: Name::read(name)?,
        })
    }
}

/// The number itself, if it is one of 1 to `limit`.
pub fn one_to(limit: Number, number: Number) -> Option<Number> {
    (1..=limit).contains(&number).then_some(number)
}
