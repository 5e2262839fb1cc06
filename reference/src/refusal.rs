//! Why and where an input is refused.

/// The number of the condition that an input meets, and the place where it
/// meets it.
#[derive(Clone, Copy, Debug, PartialEq, Eq)]
pub struct Refusal {
    /// The number of the condition.
    pub number: u32,
    /// The record of the table, query field, node or automaton, counted from
    /// 1; 0 for the head.
    pub position: u64,
}

impl Refusal {
    /// The refusal with this number and position.
    pub fn new(number: u32, position: impl Into<u64>) -> Refusal {
        let position = position.into();
        Refusal { number, position }
    }
}
