//! The checker's answer to a listing, and what the listing program prints for it.

use bwlchareg::{Query, Refusal};

use crate::mistake::quoted;
use crate::Wallet;

/// The cells that the listing program has.
pub const CELLS: usize = 4096;

/// All minimal sets, or why there is no list.
#[derive(Clone, Debug, PartialEq, Eq)]
pub enum Answer {
    /// The sets, ascending; in each credential i counts 2^(i-1).
    Sets(Vec<u32>),
    /// The refusal.
    Refused(Refusal),
}

/// The checker's answer, with as many cells as the listing program has.
pub fn listed(wallet: &Wallet, query: Query) -> Answer {
    let mut cells = vec![0; CELLS];
    match bwlchareg::list(&wallet.table.numbers(), query, &mut cells) {
        Ok(count) => {
            cells.truncate(count);
            Answer::Sets(cells)
        }
        Err(refusal) => Answer::Refused(refusal),
    }
}

impl Answer {
    /// The checker's refusal, if it refuses.
    pub fn refusal(&self) -> Option<Refusal> {
        match self {
            Answer::Sets(_) => None,
            Answer::Refused(refusal) => Some(*refusal),
        }
    }

    /// The lines that the listing program prints for this answer.
    pub fn printed(&self) -> Vec<String> {
        match self {
            Answer::Sets(sets) => {
                let count = format!("sets {}", sets.len());
                sets.iter().map(u32::to_string).chain([count]).collect()
            }
            Answer::Refused(refusal) => {
                vec![format!("refused {} {}", refusal.number, refusal.position)]
            }
        }
    }

    /// Where an output is not what the listing program prints for this answer: at
    /// its first line that is another one.
    pub fn difference(&self, output: &str) -> Option<String> {
        let printed = self.printed();
        let mut expected = printed.iter().map(String::as_str);
        let mut given = output.lines();
        let said = |line: Option<&str>| line.map_or("missing".to_string(), quoted);
        let mut number = 1;
        loop {
            let (is, should_be) = (given.next(), expected.next());
            if is != should_be {
                let (is, should_be) = (said(is), said(should_be));
                return Some(format!("line {number} should be {should_be}, and is {is}"));
            }
            is?;
            number += 1;
        }
    }
}

#[cfg(test)]
mod tests {
    use super::Answer;
    use bwlchareg::Refusal;

    #[test]
    fn what_the_program_prints_is_compared() {
        let sets = Answer::Sets(vec![7, 8]);
        let none = Answer::Refused(Refusal {
            number: Refusal::NONE,
            position: 0,
        });
        for same in ["7\n8\nsets 2\n", "7\r\n8\r\nsets 2"] {
            assert_eq!(sets.difference(same), None, "{same:?}");
        }
        assert_eq!(none.difference("refused 9 0\n"), None);
        for (output, should_be, is) in [
            ("", "line 1 should be `7`", "missing"),
            ("7\n8\n", "line 3 should be `sets 2`", "missing"),
            ("7\n16\nsets 2\n", "line 2 should be `8`", "`16`"),
            ("7\n08\nsets 2\n", "line 2 should be `8`", "`08`"),
            ("8\nsets 1\n", "line 1 should be `7`", "`8`"),
            ("refused 9 0\n", "line 1 should be `7`", "`refused 9 0`"),
            ("7\n8\nsets 2\n\n", "line 4 should be missing", "``"),
            ("7\n\u{7}\n", "line 2 should be `8`", "`\u{FFFD}`"),
        ] {
            let told = format!("{should_be}, and is {is}");
            assert_eq!(sets.difference(output), Some(told));
        }
        let other = none.difference("refused 8 4\n");
        let told = "line 1 should be `refused 9 0`, and is `refused 8 4`";
        assert_eq!(other.as_deref(), Some(told));
    }
}
