//! Decimal numbers on the command line, in records and in the listing program's
//! output.

use crate::mistake::quoted;

/// A number in decimal digits and nothing else.
pub fn decimal(text: &str) -> Option<u64> {
    let digits = text.bytes().all(|byte| byte.is_ascii_digit());
    text.parse().ok().filter(|_| digits)
}

/// A set by its number, in which credential i counts 2^(i-1).
pub fn set(text: &str) -> Result<u32, String> {
    let set = decimal(text).and_then(|number| u32::try_from(number).ok());
    set.ok_or_else(|| {
        format!(
            "the set is {}; write its number as `wallet list` prints it, where credential i \
             counts 2^(i-1)",
            quoted(text)
        )
    })
}

#[cfg(test)]
mod tests {
    use super::{decimal, set};

    /// What is no number.
    const OTHERS: [&str; 8] = [
        "",
        "+7",
        "-7",
        " 7",
        "7 ",
        "0x7",
        "\u{667}",
        "99999999999999999999",
    ];

    #[test]
    fn only_digits_are_a_number() {
        assert_eq!(decimal("0"), Some(0));
        assert_eq!(decimal("007"), Some(7));
        for text in OTHERS {
            assert_eq!(decimal(text), None, "{text}");
        }
    }

    #[test]
    fn a_set_is_a_number_of_32_bits() {
        assert_eq!(set("7"), Ok(7));
        assert_eq!(set("0"), Ok(0));
        assert_eq!(set("4294967295"), Ok(u32::MAX));
        // Credentials 1, 2 and 3 would be the set 7.
        for text in OTHERS.into_iter().chain(["4294967296", "1,2,3", "1 2"]) {
            let told = set(text).expect_err(text);
            let words =
                format!("the set is `{text}`; write its number as `wallet list` prints it, ");
            assert!(told.starts_with(&words), "{told}");
        }
    }
}
