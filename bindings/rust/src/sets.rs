//! Sets of credentials as numbers.

/// The numbers of the credentials in a set, ascending. Credential i counts
/// 2^(i-1), so there are `set.count_ones()` of them.
///
/// ```
/// use bwlchareg::credentials;
///
/// // The set 7 = 1 + 2 + 4 is credentials 1, 2 and 3; the set 8 is 4 alone.
/// assert!(credentials(7).eq([1, 2, 3]));
/// assert!(credentials(8).eq([4]));
/// assert_eq!(credentials(7).count(), 7u32.count_ones() as usize);
/// ```
pub fn credentials(set: u32) -> impl Iterator<Item = u32> {
    (1..=u32::BITS).filter(move |number| set & (1 << (number - 1)) != 0)
}

#[cfg(test)]
mod tests {
    use super::credentials;

    #[test]
    fn the_credentials_make_the_set_again() {
        for low in 0..1 << 12 {
            for every in [low, low << 8, low << 20] {
                let set: u32 = credentials(every).map(|number| 1 << (number - 1)).sum();
                assert_eq!(set, every);
            }
        }
        assert!(credentials(u32::MAX).eq(1..=32));
    }
}
