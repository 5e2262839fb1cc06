//! Times the moving of state sets along roles: on records of very many nodes,
//! where a node is what counts, and on short records and small wallets, where it is
//! what is prepared for each call. An older build and a newer one take turns if
//! they are given.
//!
//! - [`edges`]: automata with none, some and all edges for which there is room
//! - [`tables`]: tables whose record has a given number of nodes
//! - [`limit`]: a loop in C that does the least that can be done
//! - [`nodes`]: records of very many nodes, beside that loop
//! - [`short`]: short records
//! - [`wallets`]: lists and written records of small wallets

mod edges;
mod limit;
mod nodes;
mod short;
mod tables;
mod wallets;

use crate::builds::{Pair, Sides};
use crate::sheet::Form;
pub use limit::Limit;

/// Prints all tables.
pub fn time(form: Form, pairs: &[Pair], limit: &Limit) {
    let sides = Sides::of(pairs);
    nodes::time(form, &sides, limit);
    short::time(form, &sides);
    wallets::time(form, &sides);
}
