//! The sets for which a record is asked, on the list and not on it.

use std::fmt;

use reference::listing::Minimal;
use reference::pairs::is_part;
use reference::random::Random;
use reference::Number;

/// What a set is to the list.
#[derive(Clone, Copy, Debug, PartialEq, Eq, PartialOrd, Ord)]
pub enum Relation {
    /// It is on the list.
    Listed,
    /// It is the number 0.
    Zero,
    /// It has a number above n.
    Above,
    /// There is no list.
    NoList,
    /// It is a proper part of a listed set.
    Part,
    /// A listed set is a proper part of it: it is admitted, but not minimal.
    Whole,
    /// None of these.
    Other,
}

impl Relation {
    /// The relations of sets that are not on the list.
    pub const UNLISTED: [Relation; 6] = [
        Relation::Zero,
        Relation::Above,
        Relation::NoList,
        Relation::Part,
        Relation::Whole,
        Relation::Other,
    ];

    /// What a set is to the list of these sets, where there are so many
    /// credentials: the first that fits.
    pub fn of(set: u32, credentials: u32, sets: &[Minimal]) -> Relation {
        let any = |holds: &dyn Fn(u32) -> bool| sets.iter().any(|minimal| holds(minimal.set));
        if set == 0 {
            Relation::Zero
        } else if set >> credentials != 0 {
            Relation::Above
        } else if sets.is_empty() {
            Relation::NoList
        } else if any(&|listed| listed == set) {
            Relation::Listed
        } else if any(&|listed| is_part(set, listed)) {
            Relation::Part
        } else if any(&|listed| is_part(listed, set)) {
            Relation::Whole
        } else {
            Relation::Other
        }
    }

    /// A set that is likely to be this to the list. Where there is no list, any
    /// set is in the place of a listed one.
    pub fn draw(self, random: &mut Random, credentials: u32, sets: &[Minimal]) -> u32 {
        let all = !(u32::MAX << credentials);
        let any = random.bits() as u32 & all;
        let listed = match sets {
            [] => any,
            _ => random.pick(sets).set,
        };
        let some = *random.pick(&[0, any]);
        match self {
            Relation::Listed => listed,
            Relation::Zero => 0,
            Relation::Above => (listed ^ some) | 1 << random.between(credentials as Number, 31),
            Relation::Part => listed & !one_of(random, listed) & !some,
            Relation::Whole => listed | one_of(random, all & !listed) | some,
            Relation::NoList | Relation::Other => any,
        }
    }
}

/// A set of one of the numbers in a set, or the empty set.
fn one_of(random: &mut Random, set: u32) -> u32 {
    let numbers: Vec<u32> = (0..32).filter(|bit| (set >> bit) & 1 == 1).collect();
    match numbers[..] {
        [] => 0,
        _ => 1 << random.pick(&numbers),
    }
}

impl fmt::Display for Relation {
    fn fmt(&self, out: &mut fmt::Formatter<'_>) -> fmt::Result {
        out.pad(match self {
            Relation::Listed => "a listed set",
            Relation::Zero => "0",
            Relation::Above => "a number above n",
            Relation::NoList => "any set, where there is no list",
            Relation::Part => "a part of a listed set",
            Relation::Whole => "more than a listed set",
            Relation::Other => "an unrelated set",
        })
    }
}

#[cfg(test)]
mod tests {
    use std::collections::BTreeSet;

    use reference::listing::{minimal_sets, Minimal};
    use reference::random::Random;
    use reference::shop;
    use reference::table::Table;

    use super::Relation;

    /// The minimal sets of the shop example: 7 and 8.
    fn sets() -> Vec<Minimal> {
        let table = Table::read(&shop::T).expect("an accepted table");
        minimal_sets(&table, shop::Q.read().expect("a valid query"))
    }

    #[test]
    fn every_set_has_one_relation() {
        let of = |set| Relation::of(set, 4, &sets());
        assert_eq!(of(0), Relation::Zero);
        assert_eq!([7, 8].map(of), [Relation::Listed; 2]);
        assert_eq!([1, 2, 4, 3, 5, 6].map(of), [Relation::Part; 6]);
        assert_eq!([9, 12, 15].map(of), [Relation::Whole; 3]);
        assert_eq!([16, 7 + 16, 8 + (1 << 31)].map(of), [Relation::Above; 3]);
        let nothing = |set| Relation::of(set, 4, &[]);
        assert_eq!(nothing(7), Relation::NoList);
        assert_eq!([nothing(0), nothing(16)], [Relation::Zero, Relation::Above]);
        let one = [sets()[0].clone()];
        assert_eq!(Relation::of(8, 4, &one), Relation::Other);
    }

    #[test]
    fn a_set_is_mostly_what_it_is_drawn_for() {
        let mut random = Random::new(1);
        let (sets, one) = (sets(), [sets()[0].clone()]);
        for relation in Relation::UNLISTED {
            let sets = match relation {
                Relation::NoList => &[][..],
                Relation::Other => &one,
                _ => &sets,
            };
            let drawn: Vec<u32> = (0..100)
                .map(|_| relation.draw(&mut random, 4, sets))
                .collect();
            let right = drawn
                .iter()
                .filter(|&&set| Relation::of(set, 4, sets) == relation);
            assert!(right.count() > 5, "{relation}");
            let different: BTreeSet<u32> = drawn.into_iter().collect();
            assert_eq!(different.len() > 1, relation != Relation::Zero);
        }
    }

    #[test]
    fn only_one_relation_is_drawn_with_a_number_above_n() {
        let mut random = Random::new(1);
        for relation in Relation::UNLISTED {
            for credentials in [0, 1, 20] {
                let set = relation.draw(&mut random, credentials, &[]);
                assert_eq!(set >> credentials != 0, relation == Relation::Above);
            }
        }
    }
}
