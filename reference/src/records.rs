//! The head and the layout of a table: refusals 1 to 3; and the base layout, in
//! which automata have no marks.

use crate::refusal::Refusal;
use crate::Number;

/// How many numbers a record of each sort has, in the order of the head.
const SIZES: [usize; 4] = [6, 3, 3, 6];
/// The same in the base layout.
const BASE_SIZES: [usize; 4] = [6, 3, 2, 6];

/// A credential as written: owner, name, kind, first, second, automaton.
pub type CredentialRecord = [Number; SIZES[0]];
/// A part cell as written: principal, name, next.
pub type CellRecord = [Number; SIZES[1]];
/// An automaton as written: starting set, accepting set, mark.
pub type AutomatonRecord = [Number; SIZES[2]];
/// An edge as written: automaton, from, label, owner, name, to.
pub type EdgeRecord = [Number; SIZES[3]];

/// How many records of each sort a table has.
#[derive(Clone, Copy, Debug, PartialEq, Eq)]
pub struct Head {
    /// The number of credentials, n.
    pub credentials: Number,
    /// The number of part cells, q.
    pub cells: Number,
    /// The number of automata, a.
    pub automata: Number,
    /// The number of edges, e.
    pub edges: Number,
}

impl Head {
    /// The greatest counts that a table may have.
    pub const LIMITS: Head = Head {
        credentials: 20,
        cells: 63,
        automata: 8,
        edges: 128,
    };

    /// The four counts in the order in which they are written.
    pub fn numbers(self) -> [Number; 4] {
        [self.credentials, self.cells, self.automata, self.edges]
    }

    /// How many numbers a table with this head has: 4 + 6n + 3q + 3a + 6e.
    pub fn length(self) -> usize {
        self.length_with(SIZES)
    }

    /// The same, where the records of each sort have so many numbers.
    fn length_with(self, sizes: [usize; 4]) -> usize {
        let records = self.numbers().into_iter().zip(sizes);
        4 + records
            .map(|(count, size)| count as usize * size)
            .sum::<usize>()
    }

    /// Whether no count is over its limit.
    fn within_limits(self) -> bool {
        let limits = Head::LIMITS.numbers();
        self.numbers()
            .iter()
            .zip(limits)
            .all(|(&count, limit)| count <= limit)
    }
}

/// The records of a table as they are written, not yet judged.
#[derive(Clone, Debug, PartialEq, Eq)]
pub struct Records {
    /// The credentials.
    pub credentials: Vec<CredentialRecord>,
    /// The part cells.
    pub cells: Vec<CellRecord>,
    /// The automata.
    pub automata: Vec<AutomatonRecord>,
    /// The edges.
    pub edges: Vec<EdgeRecord>,
}

impl Records {
    /// Takes a table apart, or refuses it for its head or its length.
    pub fn read(table: &[Number]) -> Result<Records, Refusal> {
        let (head, mut rest) = parted(table, SIZES)?;
        Ok(Records {
            credentials: take(head.credentials, &mut rest),
            cells: take(head.cells, &mut rest),
            automata: take(head.automata, &mut rest),
            edges: take(head.edges, &mut rest),
        })
    }

    /// Takes a table of the base layout apart, or refuses it as such for its head
    /// or its length. Each automaton gets mark 0.
    pub fn upgrade(base: &[Number]) -> Result<Records, Refusal> {
        let (head, mut rest) = parted(base, BASE_SIZES)?;
        let with_mark = |[starting, accepting]: [Number; 2]| [starting, accepting, 0];
        Ok(Records {
            credentials: take(head.credentials, &mut rest),
            cells: take(head.cells, &mut rest),
            automata: take(head.automata, &mut rest)
                .into_iter()
                .map(with_mark)
                .collect(),
            edges: take(head.edges, &mut rest),
        })
    }

    /// The counts of these records. Made-up records may have a few more than
    /// the limits allow; the counts are true all the same.
    pub fn head(&self) -> Head {
        Head {
            credentials: self.credentials.len() as Number,
            cells: self.cells.len() as Number,
            automata: self.automata.len() as Number,
            edges: self.edges.len() as Number,
        }
    }

    /// The table with these records, as a slice of it would be written.
    pub fn numbers(&self) -> Vec<Number> {
        self.with_automata(self.automata.iter().flatten())
    }

    /// The same in the base layout, which leaves out the marks.
    pub fn base_numbers(&self) -> Vec<Number> {
        self.with_automata(self.automata.iter().flat_map(|record| &record[..2]))
    }

    /// The table with these records, in which the automata have these numbers.
    fn with_automata<'a>(&'a self, automata: impl Iterator<Item = &'a Number>) -> Vec<Number> {
        let credentials = self.credentials.iter().flatten();
        let records = credentials
            .chain(self.cells.iter().flatten())
            .chain(automata)
            .chain(self.edges.iter().flatten());
        let head = self.head().numbers();
        head.into_iter().chain(records.copied()).collect()
    }
}

/// The head of a table and the numbers behind it, where the records of each sort
/// have so many numbers; or why its head or its length is refused.
fn parted(
    table: &[Number],
    sizes: [usize; 4],
) -> Result<(Head, impl Iterator<Item = Number> + '_), Refusal> {
    let &[credentials, cells, automata, edges, ref rest @ ..] = table else {
        return Err(Refusal::new(1, 0u64));
    };
    let head = Head {
        credentials,
        cells,
        automata,
        edges,
    };
    if !head.within_limits() {
        return Err(Refusal::new(2, 0u64));
    }
    if table.len() != head.length_with(sizes) {
        return Err(Refusal::new(3, 0u64));
    }
    Ok((head, rest.iter().copied()))
}

/// Takes so many records of `SIZE` numbers each from the front of the rest.
/// The length is known to fit, so the rest does not end too early.
fn take<const SIZE: usize>(
    count: Number,
    rest: &mut impl Iterator<Item = Number>,
) -> Vec<[Number; SIZE]> {
    let mut record = || std::array::from_fn(|_| rest.next().expect("the length fits the head"));
    (0..count).map(|_| record()).collect()
}
