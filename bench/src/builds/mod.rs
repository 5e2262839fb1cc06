//! Builds of the library that are timed beside each other.
//!
//! - [`object`]: a shared object that is loaded
//! - [`build`]: a build that is loaded from one
//! - [`sides`]: the builds that take turns

mod build;
pub mod object;
mod sides;

pub use build::Build;
pub use sides::{ratio, summary, Side, Sides, Turns, LEAST};

/// An object of the older build and one of the newer build, which take turns.
pub type Pair = [Build; 2];
