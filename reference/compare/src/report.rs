//! How counts and differences are printed.

use std::ops::Add;

use reference::Number;

/// So many differences of a sort are printed; the others are only counted.
pub const PRINTED: u64 = 10;
/// So many numbers of a slice are printed: all, unless it is far too long.
const NUMBERS_PRINTED: usize = 2_000;

/// How much passed and how much failed.
#[derive(Clone, Copy, Debug, PartialEq, Eq)]
pub struct Outcome {
    /// How many comparisons and counts were as they should be.
    pub passed: u64,
    /// How many were not.
    pub failed: u64,
}

impl Add for Outcome {
    type Output = Outcome;

    fn add(self, other: Outcome) -> Outcome {
        Outcome {
            passed: self.passed + other.passed,
            failed: self.failed + other.failed,
        }
    }
}

/// Prints one count; tells 1 if it is less than it must be, else 0.
pub fn line(what: &str, count: Option<u64>, least: u64) -> u64 {
    let count = count.unwrap_or(0);
    let remark = match count {
        0 if least > 0 => "  ZERO".into(),
        _ if count < least => format!("  FEWER THAN {least}"),
        _ => String::new(),
    };
    println!("  {what:<48} {count:>9}{remark}");
    u64::from(count < least)
}

/// An answer's number in words: 0 for an accepted input, else the refusal's.
pub fn outcome(number: u32) -> String {
    match number {
        0 => "accepted".into(),
        _ => format!("refused {number}"),
    }
}

/// A slice in words: how many numbers it has, and which.
pub fn listed(numbers: &[Number]) -> String {
    let length = numbers.len();
    let shown = &numbers[..length.min(NUMBERS_PRINTED)];
    let shown: Vec<String> = shown.iter().map(Number::to_string).collect();
    format!("{length} numbers: {}", shown.join(" "))
}
