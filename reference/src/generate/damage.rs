//! Damaged tables: one field changed, a wrong length, a wrong chain, wrong marks,
//! more records than allowed, or two of these at once.

use crate::generate::chains::with_chain;
use crate::generate::noise;
use crate::generate::places::{fields, Field, Place};
use crate::random::Random;
use crate::records::{Head, Records};
use crate::sorts::HIGHEST;
use crate::Number;

/// A table, and the one place where it was damaged.
#[derive(Clone, Debug, PartialEq, Eq)]
pub struct Damaged {
    /// The numbers of the table.
    pub table: Vec<Number>,
    /// Where it was damaged.
    pub place: Place,
}

/// The values that a field is given in turn: the ends of its range and
/// beyond, its own value and its neighbours, its own value with a high bit
/// added, for a cell's next also the numbers about its own, and where only 0 is
/// allowed also the highest principal or name.
pub fn values(field: Field, own: Number) -> Vec<Number> {
    let mut values = vec![0, 1, field.limit, Number::MAX];
    values.push(field.limit.saturating_add(1));
    values.extend([own.saturating_sub(1), own.saturating_add(1)]);
    values.extend([own ^ 256, own ^ 0x8000]);
    if field.place == Place::CellNext {
        let number = field.record;
        values.extend([number - 1, number, number + 1]);
    }
    if field.limit == 0 {
        values.push(HIGHEST);
    }
    values.sort();
    values.dedup();
    values
}

/// Every field in turn with every such value.
pub fn every_field(records: &Records) -> impl Iterator<Item = Damaged> + '_ {
    let whole = records.numbers();
    fields(records).into_iter().flat_map(move |field| {
        let whole = whole.clone();
        values(field, whole[field.index])
            .into_iter()
            .map(move |value| with_value(&whole, field, value))
    })
}

/// The table with one field changed.
fn with_value(whole: &[Number], field: Field, value: Number) -> Damaged {
    let mut table = whole.to_vec();
    table[field.index] = value;
    Damaged {
        table,
        place: field.place,
    }
}

/// Every shorter length, and some longer ones. The last is longer by 65,536
/// numbers, so that its length is right in 16 bits.
pub fn every_length(records: &Records) -> impl Iterator<Item = Damaged> {
    let whole = records.numbers();
    let length = whole.len();
    let longer = [1, 2, 3, 4, 6, 12, 100, 65_536].map(|more| length + more);
    (0..length).chain(longer).map(move |length| Damaged {
        table: resized(&whole, length),
        place: Place::Length,
    })
}

/// The table cut, or lengthened with numbers of its own from the front on, to
/// this length.
fn resized(whole: &[Number], length: usize) -> Vec<Number> {
    whole.iter().cycle().take(length).copied().collect()
}

/// For each count of the head, the table with more such records than allowed,
/// and a length that fits them. There must be a record of each sort.
pub fn overfull(records: &Records, more: usize) -> Vec<Damaged> {
    let counts = Head::LIMITS.numbers().map(|limit| limit as usize + more);
    let mut tables = vec![records.clone(); 4];
    grow(&mut tables[0].credentials, counts[0]);
    grow(&mut tables[1].cells, counts[1]);
    grow(&mut tables[2].automata, counts[2]);
    grow(&mut tables[3].edges, counts[3]);
    let tables = tables.iter().map(Records::numbers);
    let damaged = tables.zip(Place::HEAD);
    damaged
        .map(|(table, place)| Damaged { table, place })
        .collect()
}

/// Repeats the last record until there are so many.
fn grow<Record: Copy>(records: &mut Vec<Record>, count: usize) {
    let last = *records.last().expect("there is a record of each sort");
    records.resize(count, last);
}

/// One field of a random place with a random value. Each place that the table
/// has is as likely as any other.
pub fn field(random: &mut Random, records: &Records) -> Damaged {
    let whole = records.numbers();
    let field = random_field(random, &fields(records));
    let value = *random.pick(&values(field, whole[field.index]));
    with_value(&whole, field, value)
}

/// A field of a random place.
fn random_field(random: &mut Random, fields: &[Field]) -> Field {
    let mut places: Vec<Place> = fields.iter().map(|field| field.place).collect();
    places.sort();
    places.dedup();
    let place = *random.pick(&places);
    let there: Vec<Field> = fields
        .iter()
        .copied()
        .filter(|field| field.place == place)
        .collect();
    *random.pick(&there)
}

/// A wrong length, too short for a head now and then.
pub fn length(random: &mut Random, records: &Records) -> Damaged {
    let whole = records.numbers();
    let length = match random.below(4) {
        0 => random.below(4),
        1 => random.below(whole.len()),
        2 => whole.len() - 1,
        _ => whole.len() + 1 + random.below(12),
    };
    Damaged {
        table: resized(&whole, length),
        place: Place::Length,
    }
}

/// Some credential with a chain of each length in turn that the cells allow,
/// right ones too. There must be a credential.
pub fn every_chain<'a>(
    random: &'a mut Random,
    records: &'a Records,
) -> impl Iterator<Item = Damaged> + 'a {
    (1..=records.head().cells).map(|length| Damaged {
        table: with_chain(random, records, length).numbers(),
        place: Place::Chain,
    })
}

/// A chain of 1 to 8 cells, or one through all cells: right ones too. There
/// is none if there is no credential or no cell.
pub fn chain(random: &mut Random, records: &Records) -> Option<Damaged> {
    let head = records.head();
    if head.credentials == 0 || head.cells == 0 {
        return None;
    }
    let length = random.between(1, 9);
    let length = if length == 9 { head.cells } else { length };
    let records = with_chain(random, records, length.min(head.cells));
    Some(Damaged {
        table: records.numbers(),
        place: Place::Chain,
    })
}

/// Wrong marks at one automaton or at several. There is none if there is no
/// automaton.
pub fn marks(random: &mut Random, records: &Records) -> Option<Damaged> {
    let mut records = records.clone();
    let automata = records.automata.len();
    if automata == 0 {
        return None;
    }
    for _ in 0..random.between(1, 3) {
        let wrong = random.between(2, Number::MAX);
        let mark = *random.pick(&[2, 256, Number::MAX, wrong]);
        records.automata[random.below(automata)][2] = mark;
    }
    Some(Damaged {
        table: records.numbers(),
        place: Place::AutomatonMark,
    })
}

/// A table made of these records by any of the damages here, or noise in its
/// place. Some damages leave a table accepted.
pub fn any(random: &mut Random, records: &Records) -> Vec<Number> {
    match random.below(16) {
        0 => noise::table(random),
        1 => noise::stump(random),
        2 => scattered(random, records),
        3 => pair(random, records).0,
        4 => length(random, records).table,
        5 | 6 => match chain(random, records) {
            Some(damaged) => damaged.table,
            None => records.numbers(),
        },
        7 => match marks(random, records) {
            Some(damaged) => damaged.table,
            None => records.numbers(),
        },
        _ => field(random, records).table,
    }
}

/// The records with several fields, anywhere behind the head, given one of
/// their values each.
pub fn scattered(random: &mut Random, records: &Records) -> Vec<Number> {
    let mut table = records.numbers();
    let fields = fields(records).split_off(4);
    for field in fields {
        if random.one_in(24) {
            table[field.index] = *random.pick(&values(field, table[field.index]));
        }
    }
    table
}

/// A table with two things wrong, and the refusals of each of them, the lower
/// first. Since checks go row by row, and that for 17 comes last, the table is
/// refused with the lower.
pub fn pair(random: &mut Random, records: &Records) -> (Vec<Number>, [u32; 2]) {
    let mut rows = possible_rows(records);
    let one = rows.swap_remove(random.below(rows.len()));
    let other = rows.swap_remove(random.below(rows.len()));
    let pair = [one.min(other), one.max(other)];
    (with_rows(random, records, &pair), pair)
}

/// The refusals that this table can be made to meet.
fn possible_rows(records: &Records) -> Vec<u32> {
    let head = records.head();
    let possible = [
        (1, true),
        (2, true),
        (3, true),
        (4, head.credentials > 0),
        (5, head.cells > 0),
        (6, head.credentials > 0 && head.cells > 0),
        (7, head.edges > 0),
        (17, head.automata > 0),
    ];
    let rows = possible.into_iter().filter(|&(_, there)| there);
    rows.map(|(row, _)| row).collect()
}

/// The table with a damage for each of these refusals. Chains come first,
/// since they are linked anew; the length comes last, since it moves nothing.
fn with_rows(random: &mut Random, records: &Records, rows: &[u32]) -> Vec<Number> {
    let mut records = records.clone();
    if rows.contains(&6) {
        let length = wrong_chain_length(random, records.head().cells);
        records = with_chain(random, &records, length);
    }
    let mut table = records.numbers();
    for &row in rows {
        out_of_range(random, &records, row, &mut table);
    }
    let length = wrong_length(random, table.len(), rows);
    resized(&table, length)
}

/// 1, or 5 to 8 if there are so many cells.
fn wrong_chain_length(random: &mut Random, cells: Number) -> Number {
    let length = *random.pick(&[1, 5, 6, 7, 8]);
    if length <= cells {
        length
    } else {
        1
    }
}

/// Gives a value out of range to a field whose damage leads to this refusal.
/// Refusals 1, 3 and 6 come from no single value: nothing is done for them.
fn out_of_range(random: &mut Random, records: &Records, row: u32, table: &mut [Number]) {
    let there: Vec<Field> = fields(records)
        .into_iter()
        .filter(|field| field.place.refusals().first() == Some(&row))
        .collect();
    if there.is_empty() {
        return;
    }
    let field = random_field(random, &there);
    table[field.index] = *random.pick(&[field.limit + 1, Number::MAX]);
}

/// A length that leads to the first or third refusal if it is asked for, or
/// else the right one.
fn wrong_length(random: &mut Random, right: usize, rows: &[u32]) -> usize {
    if rows.contains(&1) {
        random.below(4)
    } else if rows.contains(&3) && right > 4 && random.one_in(2) {
        4 + random.below(right - 4)
    } else if rows.contains(&3) {
        right + 1 + random.below(12)
    } else {
        right
    }
}
