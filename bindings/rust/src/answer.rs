//! What the library's two numbers stand for.

use crate::Refusal;

/// A value that the library never gives, as a position, as a used set or as a
/// count. A call starts with it, so that a value left unwritten is noticed.
const UNWRITTEN: u64 = u64::MAX;

/// What a call gives: its result, and what it wrote to its last parameter.
#[derive(Clone, Copy)]
pub struct Answer {
    /// 0 for accepted, or the refusal's number.
    number: u32,
    /// The refusal's position; on 0 the value that the call returns, or 0
    /// where it has none.
    value: u64,
}

impl Answer {
    /// The answer of a call, which is lent its last parameter.
    pub fn of(call: impl FnOnce(&mut u64) -> u32) -> Answer {
        let mut value = UNWRITTEN;
        let number = call(&mut value);
        Answer { number, value }
    }

    /// The answer of a call that has no value.
    ///
    /// Accepted is number 0 with value 0 and nothing else, so a library that
    /// left the value unwritten is never taken to accept.
    pub fn told(self) -> Result<(), Refusal> {
        match (self.number, self.value) {
            (0, 0) => Ok(()),
            _ => Err(self.refusal()),
        }
    }

    /// The answer to a proof record, whose value is the used set.
    ///
    /// Accepted is number 0 with a used set of 32 bits and nothing else, so a
    /// library that left the value unwritten is never taken to accept.
    pub fn used_set(self) -> Result<u32, Refusal> {
        match (self.number, u32::try_from(self.value)) {
            (0, Ok(used_set)) => Ok(used_set),
            _ => Err(self.refusal()),
        }
    }

    /// The answer to a listing, whose value is the count, or to a writing, whose
    /// value is the record's length.
    ///
    /// Accepted is number 0 with a count of 1 to as many as there are cells and
    /// nothing else, so a library that left the value unwritten, or counts more
    /// than it was lent cells for, is never taken to have filled them.
    pub fn count(self, cells: usize) -> Result<usize, Refusal> {
        match (self.number, usize::try_from(self.value)) {
            (0, Ok(count)) if (1..=cells).contains(&count) => Ok(count),
            _ => Err(self.refusal()),
        }
    }

    fn refusal(self) -> Refusal {
        Refusal {
            number: self.number,
            position: self.value,
        }
    }
}

#[cfg(test)]
mod tests {
    use super::Answer;
    use crate::Refusal;

    fn answer(number: u32, value: u64) -> Answer {
        Answer { number, value }
    }

    #[test]
    fn a_value_left_unwritten_is_never_accepted() {
        let silent = Answer::of(|_| 0);
        assert!(silent.told().is_err());
        assert!(silent.used_set().is_err());
        assert!(silent.count(usize::MAX - 1).is_err());
    }

    #[test]
    fn number_and_value_arrive() {
        let refused = Answer::of(|value| {
            *value = 3;
            11
        });
        let refusal = Refusal {
            number: 11,
            position: 3,
        };
        assert_eq!(refused.told(), Err(refusal));
        assert_eq!(refused.used_set(), Err(refusal));
        assert_eq!(refused.count(3), Err(refusal));
    }

    #[test]
    fn only_nothing_is_told_as_nothing() {
        assert_eq!(answer(0, 0).told(), Ok(()));
        assert!(answer(0, 1).told().is_err());
        assert!(answer(1, 0).told().is_err());
    }

    #[test]
    fn a_used_set_has_32_bits() {
        assert_eq!(answer(0, 3).used_set(), Ok(3));
        assert_eq!(answer(0, u32::MAX.into()).used_set(), Ok(u32::MAX));
        assert!(answer(0, 1 << 32).used_set().is_err());
    }

    #[test]
    fn a_count_is_never_more_than_the_cells() {
        assert_eq!(answer(0, 3).count(3), Ok(3));
        assert_eq!(answer(0, 1).count(3), Ok(1));
        assert!(answer(0, 4).count(3).is_err());
        assert!(answer(0, 0).count(3).is_err());
        assert!(answer(10, 0).count(3).is_err());
    }
}
