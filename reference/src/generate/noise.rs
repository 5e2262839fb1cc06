//! Noise: small tables whose every number is drawn blindly from a few, so
//! that wrongs meet in ways that nobody thought of.

use crate::random::Random;
use crate::records::Head;
use crate::Number;

/// A table of noise. Its head and length mostly fit each other.
pub fn table(random: &mut Random) -> Vec<Number> {
    let head = Head {
        credentials: random.between(0, 2),
        cells: random.between(0, 3),
        automata: random.between(0, 2),
        edges: random.between(0, 2),
    };
    let wrong = if random.one_in(16) { 1 } else { 0 };
    let mut table = head.numbers().to_vec();
    table.resize_with(head.length() + wrong, || number(random));
    table
}

/// A small number most of the time, or one near a limit.
fn number(random: &mut Random) -> Number {
    match random.below(32) {
        0 => *random.pick(&[15, 16, 63, 64, 65, 256, Number::MAX]),
        1..=10 => 0,
        _ => random.between(1, 4),
    }
}

/// A slice shorter than a head, of any numbers.
pub fn stump(random: &mut Random) -> Vec<Number> {
    let length = random.below(4);
    (0..length)
        .map(|_| random.between(0, Number::MAX))
        .collect()
}
