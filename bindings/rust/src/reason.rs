//! The reasons for a refusal. One table makes the enum, its words and its
//! documentation.

use core::error::Error;
use core::fmt;

/// Makes [`Reason`] from the rows of docs/DEFINITION.md, "Where each input is
/// stopped": a name, the number, the condition, and the part of the condition
/// that names the place which a position counts, or nothing.
macro_rules! reasons {
    ($($(#[$more:meta])* $name:ident = $number:literal, $words:literal, $place:literal;)*) => {
        /// Why an input is refused: the conditions of docs/DEFINITION.md, "Where
        /// each input is stopped", in the order in which they are tested.
        ///
        /// The position of a [`Refusal`](crate::Refusal) is the number of the
        /// record, node or automaton that the condition speaks of, counted from
        /// 1, or 0 where it speaks of none. The first condition that is met is
        /// told, and for one condition the least position, but that 11, 12 and 13
        /// are tested together at each node, node by node.
        ///
        /// A later version may have more reasons, so a `match` needs an arm for
        /// those that it does not name.
        ///
        /// ```
        /// use bwlchareg::Reason;
        ///
        /// assert_eq!(Reason::try_from(9), Ok(Reason::NoMinimalSet));
        /// assert_eq!(Reason::NoMinimalSet.number(), 9);
        /// assert_eq!(Reason::NoMinimalSet.words(), "there is no minimal set");
        /// assert!(Reason::try_from(0).is_err());
        /// ```
        #[derive(Clone, Copy, Debug, PartialEq, Eq, Hash)]
        #[non_exhaustive]
        #[repr(u32)]
        pub enum Reason {
            $(
                #[doc = concat!($number, ": ", $words, ".")]
                $(#[$more])*
                $name = $number,
            )*
        }

        impl Reason {
            /// All reasons, in the order in which they are tested.
            pub const ALL: &'static [Reason] = &[$(Reason::$name),*];

            /// The condition, in the words of docs/DEFINITION.md.
            pub const fn words(self) -> &'static str {
                match self {
                    $(Reason::$name => $words,)*
                }
            }

            /// The part of the words that names the place which the position
            /// counts; empty where the position is 0.
            pub(crate) const fn place(self) -> &'static str {
                match self {
                    $(Reason::$name => $place,)*
                }
            }
        }
    };
}

reasons! {
    ShortHead = 1, "the table has fewer than 4 numbers", "";
    CountOverLimit = 2, "a count of the table's head is over its limit", "";
    WrongLength = 3, "the table's length is not what its head says", "";
    Credential = 4,
        "a field of the credential is outside what its kind allows",
        "the credential";
    PartCell = 5,
        "the part cell's principal or name is out of range, or its next is neither 0 nor a later \
         cell",
        "the part cell";
    Chain = 6,
        "the chain of the kind 4 credential does not have 2 to 4 cells",
        "the kind 4 credential";
    Edge = 7,
        "the edge's automaton, a state or the label is out of range, or owner and name are not as \
         the label allows",
        "the edge";
    Mark = 17, "the automaton's mark is neither 0 nor 1", "the automaton";
    /// The position is 1 for the principal, 2 for the owner, 3 for the name and
    /// 4 for the depth limit.
    Query = 8,
        "the query's principal, owner, name or depth limit is out of range",
        "principal, owner, name or depth limit";
    /// No record is accepted: none derives the membership, or none that does
    /// complies.
    NoMinimalSet = 9, "there is no minimal set", "";
    LongerList = 10, "there are more minimal sets than cells", "";
    /// Where numbers remain after the tree, the position is the number of nodes
    /// plus 1.
    RecordLength = 11,
        "fewer than two numbers remain for the node, or numbers remain after the tree",
        "the node";
    Node = 12, "the node's credential or middle does not fit its goal", "the node";
    Branch = 13,
        "the node is deeper than the depth limit, or its principal and role are already on the \
         branch",
        "the node";
    /// Of several, the one with the lowest number is told, of either mark.
    Word = 14,
        "the automaton is not met: with mark 0 it rejects a word, with mark 1 every word",
        "the automaton";
    NotListed = 15, "the set is not on the list", "";
    LongerRecord = 16, "the record has more numbers than there are cells", "";
}

impl Reason {
    /// The number by which every interface tells the reason.
    pub const fn number(self) -> u32 {
        self as u32
    }
}

impl TryFrom<u32> for Reason {
    type Error = UnknownNumber;

    fn try_from(number: u32) -> Result<Reason, UnknownNumber> {
        let known = Reason::ALL.iter().find(|reason| reason.number() == number);
        known.copied().ok_or(UnknownNumber(number))
    }
}

/// A number that no [`Reason`] of this version has.
#[derive(Clone, Copy, Debug, PartialEq, Eq, Hash)]
pub struct UnknownNumber(pub u32);

impl fmt::Display for UnknownNumber {
    fn fmt(&self, out: &mut fmt::Formatter<'_>) -> fmt::Result {
        write!(out, "no refusal has the number {}", self.0)
    }
}

impl Error for UnknownNumber {}
