//! Safe calls into the proved checker for RT0 credentials.
//!
//! A holder has a wallet of credentials, some with constraints on how they may
//! be used. A verifier asks whether somebody is in a role. This crate has a
//! call for each end, and a check for the input of both:
//!
//! | call | what it answers |
//! |---|---|
//! | [`check`] | is this a table of credentials? |
//! | [`check_query`] | is it, and is this a query? |
//! | [`minimal_sets`], or [`list`] into lent cells | which minimal sets of credentials prove the queried membership? |
//! | [`first_record`], or [`write()`] into lent cells | which record does the holder show for a minimal set? |
//! | [`verify`] | is this record a proof of it that keeps to every constraint it uses? |
//!
//! Everything is given as numbers, each a [`Number`]; [`layout`] says what they
//! mean and where they lie. [`upgraded`] converts a table from before automata
//! had marks. Every call takes any slices and any query. What is not accepted is
//! answered with a [`Refusal`], which has a [`Reason`] and a position.
//!
//! ```
//! use bwlchareg::{first_record, minimal_sets, verify, Query};
//!
//! // Shop 1, School 2, Ann 4; discount 1, student 2, accredited 3.
//! let table = [
//!     4, 0, 0, 0, // four credentials, no part cells, automata or edges
//!     1, 1, 3, 3, 2, 0, // Shop.discount <- Shop.accredited.student
//!     1, 3, 1, 2, 0, 0, // Shop.accredited <- School
//!     2, 2, 1, 4, 0, 0, // School.student <- Ann
//!     1, 1, 1, 4, 0, 0, // Shop.discount <- Ann
//! ];
//!
//! // Is Ann in Shop.discount, within two levels? Credentials 1, 2 and 3
//! // together say so, and so does credential 4 alone. Credential i counts
//! // 2^(i-1) in a set.
//! let query = Query { principal: 4, owner: 1, name: 1, depth: 2 };
//! let sets = minimal_sets(&table, query)?;
//! assert_eq!(sets, [0b0111, 0b1000]);
//!
//! // Ann shows the first: credential 1 with School as the middle, and below
//! // it credentials 2 and 3.
//! let record = first_record(&table, query, sets[0], 1_000)?;
//! assert_eq!(record, [1, 2, 2, 0, 3, 0]);
//!
//! // The verifier's answer is the set that the record uses.
//! assert_eq!(verify(&table, query, &record)?, 0b0111);
//! # Ok::<(), bwlchareg::Refusal>(())
//! ```
//!
//! # What can be relied on
//!
//! The library's side of every call is proved to meet its contract, for every
//! input of every length: it ends, it reads only what it is lent, it writes
//! only the cells that [`list`] and [`write()`] name, and it answers what
//! [`layout`] and [`Reason`] say. No call panics, keeps anything for the next
//! one or takes memory other than the stack, so calls may be made from several
//! threads at once. Only the functions that return a `Vec` allocate.
//!
//! A check takes time in proportion to the table, a verification in proportion
//! to the record. Listing is a search, whose time can grow exponentially with
//! the number of credentials; `docs/PERFORMANCE.md` has measured times.
//!
//! # Linking, and programs without `std`
//!
//! The build links `libbwlchareg.a` from `target/staticlib` of the repository,
//! or from the directory that the environment variable `BWLCHAREG_LIB_DIR`
//! names. The crate is `no_std`; its one feature, `alloc`, is on by default.
//! `bindings/rust/README.md` has more on both.

#![no_std]
#![deny(unsafe_code)]
#![deny(missing_docs)]

#[cfg(feature = "alloc")]
extern crate alloc;
#[cfg(test)]
extern crate std;

mod answer;
mod calls;
mod ffi;
pub mod layout;
mod query;
mod reason;
mod refusal;
mod sets;
#[cfg(feature = "alloc")]
mod upgrade;
#[cfg(feature = "alloc")]
mod vectors;
mod version;

// The README's program is run with the other examples.
#[cfg(doctest)]
#[doc = include_str!("../README.md")]
struct Readme;

pub use calls::{check, check_query, list, verify, write};
pub use query::Query;
pub use reason::{Reason, UnknownNumber};
pub use refusal::Refusal;
pub use sets::credentials;
#[cfg(feature = "alloc")]
pub use upgrade::upgraded;
#[cfg(feature = "alloc")]
pub use vectors::{first_record, minimal_sets};
pub use version::{version, VERSION};

/// A number of a table, a query or a record.
pub type Number = u16;
