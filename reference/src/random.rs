//! A small source of made-up numbers: the same seed, the same numbers.

use crate::Number;

/// SplitMix64: a counter that goes up by a fixed odd step, whose bits are
/// then mixed.
#[derive(Clone, Debug)]
pub struct Random {
    counter: u64,
}

impl Random {
    /// The source with this seed.
    pub fn new(seed: u64) -> Random {
        Random { counter: seed }
    }

    /// The next 64 bits.
    pub fn bits(&mut self) -> u64 {
        self.counter = self.counter.wrapping_add(0x9E37_79B9_7F4A_7C15);
        let mut mixed = self.counter;
        mixed = (mixed ^ (mixed >> 30)).wrapping_mul(0xBF58_476D_1CE4_E5B9);
        mixed = (mixed ^ (mixed >> 27)).wrapping_mul(0x94D0_49BB_1331_11EB);
        mixed ^ (mixed >> 31)
    }

    /// A number below `limit`, which is not 0. Small limits come out evenly
    /// enough for tests.
    pub fn below(&mut self, limit: usize) -> usize {
        (self.bits() % limit as u64) as usize
    }

    /// A number from `low` to `high`, both included.
    pub fn between(&mut self, low: Number, high: Number) -> Number {
        low + self.below((high - low) as usize + 1) as Number
    }

    /// True once in so many times.
    pub fn one_in(&mut self, times: usize) -> bool {
        self.below(times) == 0
    }

    /// One of some values, of which there is at least one.
    pub fn pick<'a, Value>(&mut self, values: &'a [Value]) -> &'a Value {
        &values[self.below(values.len())]
    }

    /// The same, to be changed.
    pub fn pick_mut<'a, Value>(&mut self, values: &'a mut [Value]) -> &'a mut Value {
        let index = self.below(values.len());
        &mut values[index]
    }

    /// Puts some values into a random order, by exchanging each with itself
    /// or with one that comes before it.
    pub fn shuffle<Value>(&mut self, values: &mut [Value]) {
        for index in 1..values.len() {
            let other = self.below(index + 1);
            values.swap(index, other);
        }
    }
}

#[cfg(test)]
mod tests {
    use super::Random;
    use crate::Number;

    #[test]
    fn the_numbers_are_those_of_splitmix64() {
        // The published first outputs for the seed 1234567.
        let mut random = Random::new(1_234_567);
        assert_eq!(random.bits(), 6_457_827_717_110_365_317);
        assert_eq!(random.bits(), 3_203_168_211_198_807_973);
        assert_eq!(random.bits(), 9_817_491_932_198_370_423);
    }

    #[test]
    fn both_ends_of_a_range_come_out() {
        let mut random = Random::new(1);
        let drawn: Vec<Number> = (0..200).map(|_| random.between(3, 6)).collect();
        assert!((3..=6).all(|number| drawn.contains(&number)));
        assert!(drawn.iter().all(|number| (3..=6).contains(number)));
    }

    #[test]
    fn every_order_comes_out() {
        let mut random = Random::new(1);
        let mut orders = std::collections::BTreeSet::new();
        for _ in 0..200 {
            let mut values = [1, 2, 3];
            random.shuffle(&mut values);
            orders.insert(values);
        }
        assert_eq!(orders.len(), 6);
    }
}
