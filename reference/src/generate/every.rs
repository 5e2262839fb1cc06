//! A record spoiled in every simple way, one after the other.

use crate::derivation::NODE;
use crate::generate::claims::Claim;
use crate::generate::wrongs::{Part, Value, Wrong};
use crate::sorts::HIGHEST;
use crate::Number;

/// Every number in turn with every value that is worth trying.
pub fn change(claim: &Claim) -> impl Iterator<Item = (Claim, Wrong)> + '_ {
    (0..claim.record.len()).flat_map(move |index| {
        let part = match index % NODE {
            0 => Part::Credential,
            _ => Part::Middle,
        };
        let own = claim.record[index];
        let others = values(own).into_iter().filter(move |other| other.0 != own);
        others.map(move |(number, value)| {
            let mut changed = claim.clone();
            changed.record[index] = number;
            (changed, Wrong::Changed(part, value))
        })
    })
}

/// The values that a number is given: the ends of the ranges and what lies
/// beyond, its neighbours, itself with a high bit changed, and every number
/// that a credential can have.
fn values(own: Number) -> Vec<(Number, Value)> {
    let mut values = vec![(0, Value::Zero)];
    let neighbours = [own.wrapping_sub(1), own.wrapping_add(1)];
    values.extend(neighbours.map(|number| (number, Value::Neighbour)));
    let numbers = [HIGHEST, HIGHEST + 1, Number::MAX];
    values.extend(numbers.map(|number| (number, Value::Number(number))));
    values.extend([own ^ 256, own ^ 0x8000].map(|number| (number, Value::Any)));
    values.extend((1..=20).map(|number| (number, Value::Any)));
    values
}

/// Every length shorter than the record's own.
pub fn cut(claim: &Claim) -> impl Iterator<Item = (Claim, Wrong)> + '_ {
    (0..claim.record.len()).map(|length| {
        let mut cut = claim.clone();
        cut.record.truncate(length);
        let wrong = match length % NODE {
            0 => Wrong::CutBetweenNodes,
            _ => Wrong::CutInsideNode,
        };
        (cut, wrong)
    })
}

/// Some longer lengths, with numbers of the record's own from the front on,
/// or with zeros. The last ones are longer by 65,536 numbers, and by 65,536
/// nodes, so that their lengths are right in 16 bits.
pub fn longer(claim: &Claim) -> impl Iterator<Item = (Claim, Wrong)> + '_ {
    let more = [1, 2, 3, 4, 5, 6, 100, 65_536, 131_072];
    more.into_iter().flat_map(move |more| {
        let length = claim.record.len() + more;
        let again = claim.record.iter().cycle().take(length).copied();
        let again: Vec<Number> = again.collect();
        let mut zeros = claim.record.clone();
        zeros.resize(length, 0);
        let wrong = match more {
            1 => Wrong::LongerByOne,
            _ => Wrong::LongerByMore,
        };
        [again, zeros].map(|record| {
            let longer = Claim {
                record,
                ..claim.clone()
            };
            (longer, wrong)
        })
    })
}

/// Every depth limit that is too low for a derivation of so many levels.
pub fn too_deep(claim: &Claim, levels: Number) -> impl Iterator<Item = (Claim, Wrong)> + '_ {
    (1..levels).map(|depth| {
        let mut claim = claim.clone();
        claim.query.depth = depth;
        (claim, Wrong::TooDeep)
    })
}
