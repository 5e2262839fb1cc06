//! The listing program's input: the query's four numbers and then the table's,
//! 16 bits each, low byte first.

use bwlchareg::{Number, Query, Refusal};

/// The most bytes that the program reads; later ones are ignored.
pub const MOST_BYTES: usize = 4096;

/// The bytes of a number.
const NUMBER_BYTES: usize = size_of::<Number>();

/// The numbers of a query.
const QUERY: usize = 4;

/// The input for a query and a table.
pub fn input(query: Query, table: &[Number]) -> Vec<u8> {
    let asked = [query.principal, query.owner, query.name, query.depth];
    let numbers = asked.iter().chain(table);
    numbers.flat_map(|number| number.to_le_bytes()).collect()
}

/// The query and the table of an input, or the program's refusal of it. Whether
/// they are right is not looked at here.
pub fn read(input: &[u8]) -> Result<(Query, Vec<Number>), Refusal> {
    let input = &input[..input.len().min(MOST_BYTES)];
    if !input.len().is_multiple_of(NUMBER_BYTES) || input.len() < QUERY * NUMBER_BYTES {
        return Err(Refusal {
            number: 1,
            position: 0,
        });
    }
    let numbers: Vec<Number> = input.chunks_exact(NUMBER_BYTES).map(number).collect();
    let (asked, table) = numbers.split_at(QUERY);
    let query = Query {
        principal: asked[0],
        owner: asked[1],
        name: asked[2],
        depth: asked[3],
    };
    Ok((query, table.to_vec()))
}

/// The number with these bytes.
fn number(bytes: &[u8]) -> Number {
    let high_first = bytes.iter().rev();
    high_first.fold(0, |number, &byte| number << 8 | Number::from(byte))
}

#[cfg(test)]
mod tests {
    use super::{input, read, MOST_BYTES};
    use bwlchareg::{Query, Refusal};

    const QUERY: Query = Query {
        principal: 4,
        owner: 1,
        name: 0x102,
        depth: 2,
    };

    #[test]
    fn the_low_byte_comes_first() {
        let bytes = [4, 0, 1, 0, 2, 1, 2, 0, 255, 255];
        assert_eq!(input(QUERY, &[65535]), bytes);
        assert_eq!(read(&bytes), Ok((QUERY, vec![65535])));
    }

    #[test]
    fn odd_and_short_inputs_are_refused() {
        let refusal = Refusal {
            number: 1,
            position: 0,
        };
        let bytes = input(QUERY, &[1, 2]);
        for length in [0, 1, 2, 6, 7, 9, 11] {
            assert_eq!(read(&bytes[..length]), Err(refusal), "{length}");
        }
        assert_eq!(read(&bytes[..8]), Ok((QUERY, vec![])));
    }

    #[test]
    fn later_bytes_do_not_count() {
        let bytes = input(QUERY, &[7; MOST_BYTES]);
        let (query, table) = read(&bytes[..MOST_BYTES + 1]).expect("an even count");
        assert_eq!((query, table.len()), (QUERY, MOST_BYTES / 2 - 4));
    }
}
