//! The versions of the crate and of the library that is linked.

use crate::ffi;

/// The version of this crate, as 10000 * major + 100 * minor + patch: 700 is
/// 0.7.0.
pub const VERSION: u32 = 10_000 * number(env!("CARGO_PKG_VERSION_MAJOR"))
    + 100 * number(env!("CARGO_PKG_VERSION_MINOR"))
    + number(env!("CARGO_PKG_VERSION_PATCH"));

/// The version of the library that is linked, in the same form.
///
/// All versions 0.N.x have the same calls, layouts and refusals, so crate and
/// library fit each other if they differ in the patch alone:
///
/// ```
/// assert_eq!(bwlchareg::version() / 100, bwlchareg::VERSION / 100);
/// ```
pub fn version() -> u32 {
    ffi::version()
}

/// The number that these digits write.
const fn number(digits: &str) -> u32 {
    let digits = digits.as_bytes();
    let (mut number, mut place) = (0, 0);
    while place < digits.len() {
        number = 10 * number + (digits[place] - b'0') as u32;
        place += 1;
    }
    number
}

#[cfg(test)]
mod tests {
    use super::number;

    #[test]
    fn digits_are_a_number() {
        let all = ["0", "7", "12", "120"].map(number);
        assert_eq!(all, [0, 7, 12, 120]);
    }
}
