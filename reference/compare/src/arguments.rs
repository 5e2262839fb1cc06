//! What the command line asks for.

/// The seed used if none is given.
const SEED: u64 = 2015;
/// The number of made-up tables if none is given.
const COUNT: u64 = 200_000;
/// The number of made-up records if none is given.
const RECORDS: u64 = 100_000;
/// The number of made-up listings if none is given.
const LISTS: u64 = 130_000;
/// The number of made-up writings if none is given.
const WRITINGS: u64 = 40_000;
/// The number of made-up tables with both marks if none is given.
const MIXED: u64 = 105_000;

/// The seed of the made-up inputs, and how many there are.
#[derive(Debug, PartialEq, Eq)]
pub struct Arguments {
    /// The seed.
    pub seed: u64,
    /// How many tables are made up, beside the fixed ones.
    pub count: u64,
    /// How many records are grown, beside the fixed ones. Each is compared
    /// as it is, and then spoiled in several ways.
    pub records: u64,
    /// How many listings are made up, beside the fixed ones.
    pub lists: u64,
    /// How many writings are made up, beside the fixed ones.
    pub writings: u64,
    /// How many tables with both marks are made up.
    pub mixed: u64,
}

impl Arguments {
    /// Reads the arguments, or says what is wrong with them.
    pub fn read(mut words: impl Iterator<Item = String>) -> Result<Arguments, String> {
        let mut arguments = Arguments {
            seed: SEED,
            count: COUNT,
            records: RECORDS,
            lists: LISTS,
            writings: WRITINGS,
            mixed: MIXED,
        };
        while let Some(word) = words.next() {
            let field = match word.as_str() {
                "--seed" => &mut arguments.seed,
                "--count" => &mut arguments.count,
                "--records" => &mut arguments.records,
                "--lists" => &mut arguments.lists,
                "--writings" => &mut arguments.writings,
                "--mixed" => &mut arguments.mixed,
                _ => return Err(format!("unknown argument {word}")),
            };
            let number = words.next().ok_or(format!("{word} lacks its number"))?;
            *field = number
                .parse()
                .map_err(|_| format!("{number} is not a number"))?;
        }
        Ok(arguments)
    }
}

#[cfg(test)]
mod tests {
    use super::{Arguments, COUNT, LISTS, MIXED, RECORDS, SEED, WRITINGS};

    fn read(line: &str) -> Result<Arguments, String> {
        Arguments::read(line.split_whitespace().map(String::from))
    }

    fn arguments(numbers: [u64; 6]) -> Result<Arguments, String> {
        let [seed, count, records, lists, writings, mixed] = numbers;
        Ok(Arguments {
            seed,
            count,
            records,
            lists,
            writings,
            mixed,
        })
    }

    #[test]
    fn arguments_are_read() {
        let defaults = [SEED, COUNT, RECORDS, LISTS, WRITINGS, MIXED];
        assert_eq!(read(""), arguments(defaults));
        let with = |index: usize, number: u64| {
            let mut numbers = defaults;
            numbers[index] = number;
            arguments(numbers)
        };
        let names = ["seed", "count", "records", "lists", "writings", "mixed"];
        for (index, name) in names.into_iter().enumerate() {
            assert_eq!(read(&format!("--{name} 9")), with(index, 9));
        }
        let several = read("--count 9 --seed 3");
        assert_eq!(several, arguments([3, 9, RECORDS, LISTS, WRITINGS, MIXED]));
    }

    #[test]
    fn wrong_arguments_are_told() {
        for line in ["--seed", "--seed x", "--count -1", "7", "--help"] {
            assert!(read(line).is_err(), "{line}");
        }
    }
}
