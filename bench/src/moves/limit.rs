//! The loop in bench/limit.c, which does the least that can be done at a node. It
//! is compiled when the benchmark runs.

#![allow(unsafe_code)]

use std::env;
use std::ffi::c_void;
use std::fs;
use std::iter::successors;
use std::mem;
use std::path::{Path, PathBuf};
use std::process::{self, Command};
use std::ptr;

use reference::records::{EdgeRecord, Head, Records};
use reference::table::LAST_STATE;
use reference::Number;

use super::edges::Edges;
use super::tables::Recorded;
use crate::builds::object::Object;
use crate::listing::Listing;

const AUTOMATA: usize = Head::LIMITS.automata as usize;
const CREDENTIALS: usize = Head::LIMITS.credentials as usize;

/// A set of states, as limit.c has it.
type StateSet = u16;

/// An automaton that is in a state of the first set goes to all of the second.
#[repr(C)]
#[derive(Clone, Copy, Debug, PartialEq, Eq)]
struct Arc {
    from: StateSet,
    to: StateSet,
}

/// What is prepared of a credential, as limit.c has it.
#[repr(C)]
#[derive(Clone, Copy)]
struct Credential {
    children: u32,
    arcs: *const Arc,
    ends: [u32; AUTOMATA],
}

/// What is prepared of a table, as limit.c has it.
#[repr(C)]
#[derive(Default)]
struct Sheet {
    starting: [StateSet; AUTOMATA],
    accepting: [StateSet; AUTOMATA],
    credentials: [Credential; CREDENTIALS],
}

impl Default for Credential {
    fn default() -> Credential {
        Credential {
            children: 0,
            arcs: ptr::null(),
            ends: [0; AUTOMATA],
        }
    }
}

/// What the loop tells of a record.
#[repr(C)]
#[derive(Clone, Copy, Debug, Default, PartialEq, Eq)]
pub struct Told {
    /// How many nodes it has.
    pub nodes: u64,
    /// Its used set.
    pub used: u32,
    /// The automata that accept every word, automaton i as 2^(i-1).
    pub accepting: u32,
}

type Walk = unsafe extern "C" fn(
    sheet: *const Sheet,
    record: *const Number,
    length: usize,
    told: *mut Told,
);

/// The loop, which stays loaded.
pub struct Limit(Walk);

/// A table and a record as the loop takes them. The record derives the queried
/// membership.
pub struct Prepared<'a> {
    sheet: Sheet,
    /// The arcs to which the sheet leads.
    _arcs: Vec<Vec<Arc>>,
    record: &'a [Number],
}

impl Limit {
    /// Compiles and loads the loop, or says why it cannot be.
    pub fn make() -> Result<Limit, String> {
        let source = Path::new(env!("CARGO_MANIFEST_DIR")).join("limit.c");
        let file = beside_this_program()?;
        let mut compiler = Command::new("cc");
        compiler.args(["-O2", "-shared", "-fPIC", "-o"]);
        let ended = compiler.arg(&file).arg(source).status();
        let ended = ended.map_err(|error| format!("cc: {error}"))?;
        if !ended.success() {
            return Err(format!("cc: {ended}"));
        }
        let object = Object::load(&file)?;
        fs::remove_file(&file).map_err(|error| format!("{}: {error}", file.display()))?;
        let walk = object.find(c"bwlchareg_limit")?;
        // SAFETY: this is the function of limit.c, whose type is above.
        Ok(Limit(unsafe { mem::transmute::<*mut c_void, Walk>(walk) }))
    }

    /// What it tells of a record.
    pub fn walk(&self, prepared: &Prepared) -> Told {
        let (record, mut told) = (prepared.record, Told::default());
        // SAFETY: the record is a derivation, so it is one whole tree of at most 16
        // levels, and its credentials are those of the table. The sheet's arcs are
        // there as long as the sheet, and each end is one of theirs.
        unsafe { (self.0)(&prepared.sheet, record.as_ptr(), record.len(), &mut told) };
        told
    }
}

/// A file for the object, beside the program that runs.
fn beside_this_program() -> Result<PathBuf, String> {
    let program = env::current_exe().map_err(|error| error.to_string())?;
    Ok(program.with_file_name(format!("limit-{}.so", process::id())))
}

impl Prepared<'_> {
    /// Prepares a table with its record, which the library must accept if there are
    /// no automata.
    pub fn new(table: &Recorded) -> Prepared<'_> {
        let bare = Listing::of(&table.with(Edges::None).wallet);
        assert!(bare.verify(&table.record).is_ok(), "{}", table.what);
        let records = &table.wallet.records;
        let mut sheet = Sheet::default();
        for (index, &[starting, accepting, _]) in records.automata.iter().enumerate() {
            sheet.starting[index] = starting as StateSet;
            sheet.accepting[index] = accepting as StateSet;
        }
        let mut all = Vec::new();
        for (prepared, record) in sheet.credentials.iter_mut().zip(&records.credentials) {
            let mut arcs = Vec::new();
            for (automaton, end) in (1..).zip(&mut prepared.ends) {
                arcs.extend(arcs_of(records, automaton, (record[0], record[1])));
                *end = arcs.len() as u32;
            }
            prepared.children = children(records, record[2], record[3]);
            prepared.arcs = arcs.as_ptr();
            all.push(arcs);
        }
        Prepared {
            sheet,
            _arcs: all,
            record: &table.record,
        }
    }
}

/// How many children a node has that is proved through a credential of this kind,
/// with this first field.
fn children(records: &Records, kind: Number, first: Number) -> u32 {
    let next = |&cell: &Number| match records.cells[cell as usize - 1][2] {
        0 => None,
        next => Some(next),
    };
    match kind {
        4 => successors(Some(first), next).count() as u32,
        kind => u32::from(kind - 1),
    }
}

/// The arcs of an automaton on a role. From each state there is at most one, and
/// states from which it goes to the same ones have it together.
fn arcs_of(records: &Records, automaton: Number, role: (Number, Number)) -> Vec<Arc> {
    let edges = records
        .edges
        .iter()
        .filter(|edge| edge[0] == automaton && matches(edge, role));
    let mut reached = [0; LAST_STATE as usize + 1];
    for &[_, from, _, _, _, to] in edges {
        reached[from as usize] |= 1 << to;
    }
    let mut arcs: Vec<Arc> = Vec::new();
    for (state, to) in reached.into_iter().enumerate().filter(|&(_, to)| to != 0) {
        match arcs.iter_mut().find(|arc| arc.to == to) {
            Some(arc) => arc.from |= 1 << state,
            None => arcs.push(Arc {
                from: 1 << state,
                to,
            }),
        }
    }
    arcs
}

/// Whether an edge matches a role.
fn matches(&[_, _, label, owner, name, _]: &EdgeRecord, role: (Number, Number)) -> bool {
    match label {
        1 => (owner, name) == role,
        3 => (owner, name) != role,
        4 => owner == role.0,
        _ => true,
    }
}

#[cfg(test)]
mod tests {
    use super::{arcs_of, matches, Arc, Limit, Prepared, Told};
    use crate::families;
    use crate::listing::Listing;
    use crate::moves::edges::Edges;
    use crate::moves::tables::{short, Recorded};
    use bwlchareg::layout::EVERY_WORD;
    use reference::{shop, Number};

    #[test]
    fn labels_match_as_the_definition_says() {
        let edge = |label, owner, name| [1, 0, label, owner, name, 0];
        let roles = [(1, 1), (1, 2), (2, 1)];
        let matched = |edge: [Number; 6]| roles.map(|role| matches(&edge, role));
        assert_eq!(matched(edge(1, 1, 1)), [true, false, false]);
        assert_eq!(matched(edge(2, 0, 0)), [true, true, true]);
        assert_eq!(matched(edge(3, 1, 1)), [false, true, true]);
        assert_eq!(matched(edge(4, 1, 0)), [true, true, false]);
    }

    #[test]
    fn states_share_an_arc_where_they_go_to_the_same() {
        let mut records = families::shop(&shop::T).records;
        records.automata = vec![[1, 1, EVERY_WORD]];
        records.edges = [(0, 1), (0, 2), (3, 1), (3, 2), (4, 1)]
            .map(|(from, to)| [1, from, 2, 0, 0, to])
            .to_vec();
        let arcs = [Arc { from: 9, to: 6 }, Arc { from: 16, to: 2 }];
        assert_eq!(arcs_of(&records, 1, (1, 1)), arcs);
    }

    /// What the library says, asked about each automaton alone.
    fn told(table: &Recorded) -> Told {
        let mut accepting = 0;
        for automaton in 1..=8 {
            let mut wallet = table.wallet.clone();
            wallet.records.automata.resize(8, [0, 0, EVERY_WORD]);
            for credential in &mut wallet.records.credentials {
                credential[5] = automaton;
            }
            let accepted = Listing::of(&wallet).verify(&table.record).is_ok();
            accepting |= u32::from(accepted) << (automaton - 1);
        }
        Told {
            nodes: table.nodes() as u64,
            used: table.set,
            accepting,
        }
    }

    #[test]
    fn it_tells_what_the_library_says() {
        let limit = Limit::make().expect("a loop");
        for table in short() {
            for edges in Edges::ALL {
                let mut table = table.with(edges);
                let walked = |table: &Recorded| limit.walk(&Prepared::new(table));
                assert_eq!(walked(&table), told(&table), "{}", table.what);
                let automata = table.wallet.records.automata.iter_mut();
                automata.step_by(2).for_each(|sets| sets[1] = 4);
                assert_eq!(walked(&table), told(&table), "{}", table.what);
            }
        }
    }
}
