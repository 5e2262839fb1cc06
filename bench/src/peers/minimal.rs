//! The minimal ones among sets of credentials.

/// Those sets of which no other is a proper part, ascending, each once.
pub fn minimal(mut sets: Vec<u32>) -> Vec<u32> {
    // A proper part is a smaller number and has fewer credentials.
    sets.sort_by_key(|set| (set.count_ones(), *set));
    sets.dedup();
    let mut kept: Vec<u32> = Vec::new();
    for set in sets {
        if !kept.iter().any(|part| part & set == *part) {
            kept.push(set);
        }
    }
    kept.sort();
    kept
}

#[cfg(test)]
mod tests {
    use super::minimal;
    use reference::random::Random;

    #[test]
    fn sets_with_a_proper_part_are_left_out() {
        assert_eq!(minimal(vec![]), []);
        assert_eq!(minimal(vec![8, 7, 8]), [7, 8]);
        assert_eq!(minimal(vec![7, 3, 6, 12, 14]), [3, 6, 12]);
        assert_eq!(minimal(vec![5, 0, 1]), [0]);
    }

    #[test]
    fn it_is_what_the_definition_says() {
        let mut random = Random::new(1);
        for _ in 0..500 {
            let count = random.below(20);
            let sets: Vec<u32> = (0..count).map(|_| random.below(64) as u32).collect();
            let is_minimal =
                |set: &u32| !sets.iter().any(|part| part & set == *part && part != set);
            let mut expected: Vec<u32> = sets.iter().copied().filter(is_minimal).collect();
            expected.sort();
            expected.dedup();
            assert_eq!(minimal(sets), expected);
        }
    }
}
