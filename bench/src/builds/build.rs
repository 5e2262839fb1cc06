//! A build of the library that is loaded from a shared object and called beside
//! another one. A build that knows no marks is given tables of the base layout.

#![allow(unsafe_code)]

use std::ffi::c_void;
use std::mem;
use std::path::Path;

use bwlchareg::{Number, Query, Refusal};

use super::object::Object;
use crate::listing::{library_query, Listing, NONE};

/// The calls as bindings/c/bwlchareg.h has them.
type List = unsafe extern "C" fn(
    table: *const Number,
    table_length: usize,
    principal: Number,
    owner: Number,
    name: Number,
    depth: Number,
    sets: *mut u32,
    sets_length: usize,
    value: *mut u64,
) -> u32;
type Write = unsafe extern "C" fn(
    table: *const Number,
    table_length: usize,
    principal: Number,
    owner: Number,
    name: Number,
    depth: Number,
    set: u32,
    record: *mut Number,
    record_length: usize,
    value: *mut u64,
) -> u32;
type Verify = unsafe extern "C" fn(
    table: *const Number,
    table_length: usize,
    principal: Number,
    owner: Number,
    name: Number,
    depth: Number,
    record: *const Number,
    record_length: usize,
    value: *mut u64,
) -> u32;

/// How a build reads tables.
#[derive(Clone, Copy, Debug, PartialEq, Eq)]
pub enum Layout {
    /// Automata have no marks.
    Base,
    /// Automata have marks.
    Marked,
}

impl Layout {
    /// Both, with a table of each, whose automaton is its only record.
    const ALL: [(Layout, &[Number]); 2] = [
        (Layout::Base, &[0, 0, 1, 0, 0, 0]),
        (Layout::Marked, &[0, 0, 1, 0, 0, 0, 0]),
    ];
}

/// A build, which stays loaded.
pub struct Build {
    list: List,
    write: Write,
    verify: Verify,
    layout: Layout,
}

impl Build {
    /// Loads a shared object that was made of an archive, or says why it cannot be
    /// loaded. That its calls are those of the header is up to whoever names the
    /// file. Which layout it reads it is asked. A file that is named twice is loaded
    /// once.
    pub fn load(file: &Path) -> Result<Build, String> {
        let object = Object::load(file)?;
        let list = object.find(c"bwlchareg_list")?;
        let write = object.find(c"bwlchareg_write")?;
        let verify = object.find(c"bwlchareg_verify")?;
        // SAFETY: these are the calls of the header, whose types are above.
        let mut build = unsafe {
            Build {
                list: mem::transmute::<*mut c_void, List>(list),
                write: mem::transmute::<*mut c_void, Write>(write),
                verify: mem::transmute::<*mut c_void, Verify>(verify),
                layout: Layout::Marked,
            }
        };
        let reads = |(_, table): &(Layout, &[Number])| build.reads(table);
        let layout = Layout::ALL.into_iter().find(reads);
        (build.layout, _) = layout.ok_or(format!("{}: reads no layout", file.display()))?;
        Ok(build)
    }

    /// Whether it accepts a table, in which there is no minimal set.
    fn reads(&self, table: &[Number]) -> bool {
        let query = Query {
            principal: 1,
            owner: 1,
            name: 1,
            depth: 1,
        };
        let refusal = self.list_numbers(table, query, &mut []).err();
        refusal.is_some_and(|refusal| refusal.number == NONE)
    }

    /// Its answer, with its list in the first cells.
    pub fn list(&self, listing: &Listing, sets: &mut [u32]) -> Result<usize, Refusal> {
        let (table, query) = self.asked(listing);
        self.list_numbers(table, query, sets)
    }

    /// The same for the numbers of a table.
    fn list_numbers(
        &self,
        table: &[Number],
        query: Query,
        sets: &mut [u32],
    ) -> Result<usize, Refusal> {
        let count = answer(|value| {
            // SAFETY: as in bindings/rust/src/ffi.rs. Each pointer has its length
            // from the slice that it has its address from.
            unsafe {
                (self.list)(
                    table.as_ptr(),
                    table.len(),
                    query.principal,
                    query.owner,
                    query.name,
                    query.depth,
                    sets.as_mut_ptr(),
                    sets.len(),
                    value,
                )
            }
        });
        count.map(|count| count as usize)
    }

    /// Its answer for a set, with the record in the first cells.
    pub fn write(
        &self,
        listing: &Listing,
        set: u32,
        cells: &mut [Number],
    ) -> Result<usize, Refusal> {
        let (table, query) = self.asked(listing);
        let length = answer(|value| {
            // SAFETY: as for `list`.
            unsafe {
                (self.write)(
                    table.as_ptr(),
                    table.len(),
                    query.principal,
                    query.owner,
                    query.name,
                    query.depth,
                    set,
                    cells.as_mut_ptr(),
                    cells.len(),
                    value,
                )
            }
        });
        length.map(|length| length as usize)
    }

    /// Its verdict on a record.
    pub fn verify(&self, listing: &Listing, record: &[Number]) -> Result<u32, Refusal> {
        let (table, query) = self.asked(listing);
        let used = answer(|value| {
            // SAFETY: as for `list`; the record is only read.
            unsafe {
                (self.verify)(
                    table.as_ptr(),
                    table.len(),
                    query.principal,
                    query.owner,
                    query.name,
                    query.depth,
                    record.as_ptr(),
                    record.len(),
                    value,
                )
            }
        });
        used.map(|used| used as u32)
    }

    /// What it is asked, with the table in its layout.
    fn asked<'a>(&self, listing: &'a Listing) -> (&'a [Number], Query) {
        let table = match self.layout {
            Layout::Base => listing.base().expect("every mark is 0"),
            Layout::Marked => &listing.table,
        };
        (table, library_query(listing.query))
    }
}

/// The answer of a call, which is lent its last parameter.
fn answer(call: impl FnOnce(&mut u64) -> u32) -> Result<u64, Refusal> {
    let mut value = 0;
    match call(&mut value) {
        0 => Ok(value),
        number => Err(Refusal {
            number,
            position: value,
        }),
    }
}

#[cfg(test)]
mod tests {
    use super::{Build, Layout};
    use crate::families;
    use crate::listing::{Listing, CELLS};
    use reference::shop::{Q, R, T, U};
    use std::env;
    use std::fs;
    use std::path::{Path, PathBuf};
    use std::process::{self, Command};

    /// What stands for an older build: it reads the base layout, lists nothing for a
    /// table without credentials, and tells the length of any other.
    const OLDER: &str = "
        unsigned bwlchareg_list(unsigned short *t, unsigned long n, unsigned short p,
            unsigned short o, unsigned short m, unsigned short d, unsigned *s, unsigned long k,
            unsigned long *value)
        {
            *value = n;
            return n != 4 + 6 * t[0] + 3 * t[1] + 2 * t[2] + 6 * t[3] ? 3 : t[0] ? 0 : 9;
        }
        void bwlchareg_write(void) {}
        void bwlchareg_verify(void) {}";

    /// Shared objects of the archive that is linked, if there are the tools that
    /// make them.
    fn made() -> Option<[PathBuf; 4]> {
        let package = Path::new(env!("CARGO_MANIFEST_DIR"));
        let directory = env::var_os("BWLCHAREG_LIB_DIR").map(PathBuf::from);
        let directory = directory.unwrap_or(package.join("../target/staticlib"));
        let name = env::temp_dir().join(format!("bwlchareg-{}", process::id()));
        let mut maker = Command::new("sh");
        maker.arg(package.join("objects.sh"));
        maker.arg(directory.join("libbwlchareg.a")).arg(&name);
        let object = |at| PathBuf::from(format!("{}-{at}.so", name.display()));
        let done = maker.status().ok()?.success();
        done.then(|| [0, 16, 32, 48].map(object))
    }

    /// A shared object of a source in C, if there is a compiler.
    fn compiled(name: &str, source: &str) -> Option<PathBuf> {
        let name = format!("bwlchareg-{name}-{}", process::id());
        let [written, object] =
            ["c", "so"].map(|end| env::temp_dir().join(format!("{name}.{end}")));
        fs::write(&written, source).expect("a file that can be written");
        let mut compiler = Command::new("cc");
        compiler.args(["-shared", "-fPIC", "-o"]);
        let ended = compiler.arg(&object).arg(&written).status();
        fs::remove_file(written).expect("a file that was there");
        ended.ok()?.success().then_some(object)
    }

    /// Loads an object and removes its file.
    fn taken(object: PathBuf) -> Build {
        let build = Build::load(&object).expect("an object that can be loaded");
        fs::remove_file(object).expect("an object that was there");
        build
    }

    #[test]
    fn loaded_builds_answer_as_the_linked_one() {
        let Some(objects) = made() else {
            return eprintln!("skipped: no shared objects are made");
        };
        let builds = objects.map(taken);
        let places = builds.each_ref().map(|build| build.list as usize % 64);
        assert_eq!(places, [0, 16, 32, 48]);
        for build in builds {
            answers_as_the_linked_one(&build);
        }
    }

    fn answers_as_the_linked_one(build: &Build) {
        assert_eq!(build.layout, Layout::Marked);
        for table in [&T[..], &U] {
            let listing = Listing::of(&families::shop(table));
            let (mut sets, mut loaded_sets) = ([0; CELLS], [0; CELLS]);
            let count = listing.library(&mut sets);
            assert_eq!(build.list(&listing, &mut loaded_sets), count);
            assert_eq!(loaded_sets, sets);
            let (mut cells, mut loaded_cells) = ([0; 8], [0; 8]);
            for set in [7, 8] {
                let length = listing.write(set, &mut cells);
                assert_eq!(build.write(&listing, set, &mut loaded_cells), length);
                assert_eq!(loaded_cells, cells);
            }
            assert_eq!(build.verify(&listing, &R), listing.verify(&R));
        }
    }

    #[test]
    fn an_older_build_is_given_the_base_layout() {
        let Some(object) = compiled("older", OLDER) else {
            return eprintln!("skipped: there is no compiler");
        };
        let build = taken(object);
        assert_eq!(build.layout, Layout::Base);
        let listing = Listing::new(U.to_vec(), Q);
        let automata = U[2] as usize;
        assert_eq!(build.list(&listing, &mut []), Ok(U.len() - automata));
    }

    #[test]
    fn a_build_that_reads_no_layout_is_told() {
        let source = OLDER.replace("4 +", "9 +");
        let Some(object) = compiled("none", &source) else {
            return eprintln!("skipped: there is no compiler");
        };
        let wrong = Build::load(&object).err().expect("no build");
        fs::remove_file(object).expect("an object that was there");
        assert!(wrong.ends_with("reads no layout"), "{wrong}");
    }

    #[test]
    fn what_is_no_build_is_told() {
        let source = Path::new(env!("CARGO_MANIFEST_DIR")).join("Cargo.toml");
        let missing = source.with_file_name("none.so");
        for (file, words) in [(source, "Cargo.toml"), (missing, "none.so: No such file")] {
            let wrong = Build::load(&file).err().expect("no build");
            assert!(wrong.contains(words), "{wrong}");
        }
    }
}
