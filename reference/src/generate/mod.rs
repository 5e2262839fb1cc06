//! Made-up inputs: tables, queries and records, right ones and wrong ones.
//!
//! - [`valid`], [`damage`], [`noise`]: tables, valid, damaged and blind
//! - [`queries`]: queries, valid and damaged
//! - [`policies`], [`constraints`], [`marks`]: tables in which goals can be
//!   derived
//! - [`wallets`], [`crossed`], [`detours`], [`shapes`], [`families`],
//!   [`clubs`], [`nets`], [`demands`], [`listings`]: tables with queries that have
//!   minimal sets
//! - [`meshes`], [`full`]: automata with many edges
//! - [`growth`], [`claims`]: right records, grown from such tables
//! - [`wrongs`], [`spoil`], [`misfits`], [`every`]: wrong ones
//! - [`wide`]: records of very many nodes
//! - [`chains`], [`places`]: what the others need

pub mod chains;
pub mod claims;
pub mod clubs;
pub mod constraints;
pub mod crossed;
pub mod damage;
pub mod demands;
pub mod detours;
pub mod every;
pub mod families;
pub mod full;
pub mod growth;
pub mod listings;
pub mod marks;
pub mod meshes;
pub mod misfits;
pub mod nets;
pub mod noise;
pub mod places;
pub mod policies;
pub mod queries;
pub mod shapes;
pub mod spoil;
pub mod valid;
pub mod wallets;
pub mod wide;
pub mod wrongs;

pub use places::Place;
