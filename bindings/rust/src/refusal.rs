//! Refusals, and how they are said in words.

use core::error::Error;
use core::fmt;

use crate::Reason;

/// Why an input is not accepted, and where.
///
/// [`reason`](Refusal::reason) is what a program goes by, and [`Reason`] says
/// what the position counts. `Display` tells both in words.
///
/// # Examples
///
/// ```
/// use bwlchareg::{verify, Query, Reason, Refusal};
///
/// fn told(answer: Result<u32, Refusal>) -> String {
///     let refusal = match answer {
///         Ok(used) => return format!("welcome, by {} credentials", used.count_ones()),
///         Err(refusal) => refusal,
///     };
///     match refusal.reason() {
///         Some(Reason::Word) => format!("constraint {} forbids it", refusal.position),
///         Some(Reason::RecordLength | Reason::Node) => format!("this is not a proof: {refusal}"),
///         _ => refusal.to_string(),
///     }
/// }
///
/// // Principal 4 is in the role 1.1, under an automaton that accepts nothing.
/// let table = [1, 0, 1, 0, 1, 1, 1, 4, 0, 1, 0, 0, 0];
/// let query = Query { principal: 4, owner: 1, name: 1, depth: 1 };
/// assert_eq!(told(verify(&table, query, &[1, 0])), "constraint 1 forbids it");
/// assert_eq!(
///     told(verify(&table, query, &[])),
///     "this is not a proof: fewer than two numbers remain for node 1, or numbers remain after the tree"
/// );
/// let deep = Query { depth: 17, ..query };
/// assert_eq!(told(verify(&table, deep, &[])), "the query's depth limit is out of range");
/// ```
#[derive(Clone, Copy, Debug, PartialEq, Eq, Hash)]
pub struct Refusal {
    /// The number of the reason, 1 to 17.
    pub number: u32,
    /// The record of the table, query field, node or automaton that is refused,
    /// counted from 1; 0 where the reason speaks of none.
    pub position: u64,
}

impl Refusal {
    /// The number of [`Reason::NoMinimalSet`].
    pub const NONE: u32 = Reason::NoMinimalSet.number();

    /// The number of [`Reason::LongerList`].
    pub const LONGER: u32 = Reason::LongerList.number();

    /// The number of [`Reason::NotListed`].
    pub const NOT_LISTED: u32 = Reason::NotListed.number();

    /// The number of [`Reason::LongerRecord`].
    pub const LONGER_RECORD: u32 = Reason::LongerRecord.number();

    /// The reason, or `None` for a number that this version does not know: then
    /// the archive that is linked is not the one that this crate is for.
    pub fn reason(&self) -> Option<Reason> {
        Reason::try_from(self.number).ok()
    }

    /// The refusal in words: what `Display` writes.
    #[cfg(feature = "alloc")]
    pub fn message(&self) -> alloc::string::String {
        alloc::string::ToString::to_string(self)
    }
}

/// The words of the reason, with the place in them: "a field of credential 3 is
/// outside what its kind allows".
impl fmt::Display for Refusal {
    fn fmt(&self, out: &mut fmt::Formatter<'_>) -> fmt::Result {
        let Refusal { number, position } = self;
        let Some(reason) = self.reason() else {
            return write!(out, "unknown refusal {number} at {position}");
        };
        let (words, place) = (reason.words(), reason.place());
        match words.split_once(place) {
            Some((before, after)) if reason == Reason::Query => {
                write!(out, "{before}{}{after}", query_field(*position))
            }
            Some((before, after)) if !place.is_empty() => {
                let sort = place.trim_start_matches("the ");
                write!(out, "{before}{sort} {position}{after}")
            }
            _ => out.write_str(words),
        }
    }
}

impl Error for Refusal {}

/// The field of a query at a position.
fn query_field(position: u64) -> &'static str {
    match position {
        1 => "principal",
        2 => "owner",
        3 => "name",
        4 => "depth limit",
        _ => Reason::Query.place(),
    }
}

#[cfg(test)]
mod tests {
    use super::Refusal;
    use std::boxed::Box;
    use std::error::Error;
    use std::string::ToString;

    #[test]
    fn an_unknown_number_is_said_to_be_so() {
        for number in [0, 18, u32::MAX] {
            let refusal = Refusal {
                number,
                position: u64::MAX,
            };
            assert_eq!(refusal.reason(), None);
            let error: Box<dyn Error> = refusal.into();
            let words = std::format!("unknown refusal {number} at 18446744073709551615");
            assert_eq!(error.to_string(), words);
        }
    }
}
