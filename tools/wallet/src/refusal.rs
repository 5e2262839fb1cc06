//! Refusals in words. All commands say them in one form.

use std::fmt::Display;

use bwlchareg::{layout, upgraded, Number, Refusal};

/// A refusal with its words: `refused 14 at 1: ...`, or `refused 9: ...` where
/// it has no position.
pub fn told(refusal: Refusal, words: impl Display) -> String {
    match refusal {
        Refusal {
            number,
            position: 0,
        } => format!("refused {number}: {words}"),
        Refusal { number, position } => format!("refused {number} at {position}: {words}"),
    }
}

/// The words for a refusal of the listing program. It has the table from its
/// input, so the table is too short when the input is.
pub fn of_program(refusal: Refusal) -> String {
    match refusal.number {
        1 => "the input has fewer than 16 bytes, or an odd number of them".to_string(),
        _ => refusal.to_string(),
    }
}

/// The words for a refusal of an input's table, which may be one of the base
/// layout.
pub fn of_table(table: &[Number], refusal: Refusal) -> String {
    let said = of_program(refusal);
    match refusal.number {
        3 if upgraded(table).is_ok() => format!(
            "{said}; it is that of the base layout, which has no marks: `wallet upgrade` adds them"
        ),
        _ => said,
    }
}

/// The words for a refusal of an input's table that should be one of the base
/// layout.
pub fn of_base(table: &[Number], refusal: Refusal) -> String {
    match refusal.number {
        3 if table.len() == layout::length(table) => "the table has marks already".to_string(),
        3 => "the table's length is not what its head says in the base layout".to_string(),
        _ => of_program(refusal),
    }
}

#[cfg(test)]
mod tests {
    use super::told;
    use bwlchareg::Refusal;

    #[test]
    fn a_position_of_0_is_left_out() {
        let said = |number, position| told(Refusal { number, position }, "so it is");
        assert_eq!(said(9, 0), "refused 9: so it is");
        assert_eq!(said(14, 1), "refused 14 at 1: so it is");
        let highest = "refused 11 at 18446744073709551615: so it is";
        assert_eq!(said(11, u64::MAX), highest);
    }
}
