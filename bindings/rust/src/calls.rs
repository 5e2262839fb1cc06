//! The calls, with what each promises and an example of its use.

#[cfg(doc)]
use crate::Reason;
use crate::{ffi, Number, Query, Refusal};

/// Checks a table of credentials, which [`layout`](crate::layout) describes.
///
/// The other calls make these checks themselves, so nobody has to call this one
/// first; it is for a wallet that is to be checked before there is a query.
///
/// # Errors
///
/// The table's rows of docs/DEFINITION.md, "Where each input is stopped":
/// [`Reason::ShortHead`] to [`Reason::Mark`].
///
/// # Examples
///
/// ```
/// use bwlchareg::{check, layout, Reason};
///
/// let mut table = [
///     2, 0, 0, 0, // two credentials, and nothing else
///     1, 3, 1, 2, 0, 0, // principal 2 is in the role 1.3
///     2, 2, 1, 4, 0, 0, // principal 4 is in the role 2.2
/// ];
/// assert_eq!(check(&table), Ok(()));
///
/// // Principals go up to 64; a credential of kind 1 names one after its kind.
/// let second = layout::credential(&table, 2);
/// table[second][3] = 65;
/// let refusal = check(&table).unwrap_err();
/// assert_eq!(refusal.reason(), Some(Reason::Credential));
/// assert_eq!(refusal.position, 2);
///
/// // The length is checked before any record is.
/// let refusal = check(&table[..15]).unwrap_err();
/// assert_eq!(refusal.reason(), Some(Reason::WrongLength));
/// ```
pub fn check(table: &[Number]) -> Result<(), Refusal> {
    ffi::check(table).told()
}

/// Checks a table, then a query, without a search or a record.
///
/// [`list`], [`write()`] and [`verify`] make these checks themselves; this call is
/// for a query that is to be checked before a long listing begins.
///
/// # Errors
///
/// As for [`check`]; then [`Reason::Query`], at the first field of the query
/// that is out of range. That there is no minimal set is not the query's fault:
/// [`list`] reports it.
///
/// # Examples
///
/// ```
/// use bwlchareg::{check_query, Query, Reason};
///
/// let table = [1, 0, 0, 0, 1, 1, 1, 4, 0, 0]; // principal 4 is in the role 1.1
/// let query = Query { principal: 4, owner: 1, name: 1, depth: 1 };
/// assert_eq!(check_query(&table, query), Ok(()));
///
/// // Two fields are out of range; the name comes first.
/// let query = Query { name: 65, depth: 0, ..query };
/// let refusal = check_query(&table, query).unwrap_err();
/// assert_eq!(refusal.reason(), Some(Reason::Query));
/// assert_eq!(refusal.position, 3);
/// ```
pub fn check_query(table: &[Number], query: Query) -> Result<(), Refusal> {
    ffi::check_query(table, query).told()
}

/// Verifies a proof record. The answer to an accepted one is its used set, which
/// [`credentials`](crate::credentials) takes apart.
///
/// On an accepted table and a valid query a record is accepted exactly when it
/// is one whole derivation of the queried membership, within the depth limit
/// and with no pair of principal and role twice on a branch, and every automaton
/// attached to a credential that it uses is met: one of mark 0 accepts every
/// word of the record, one of mark 1 at least one word.
///
/// # Errors
///
/// As for [`check_query`]; then [`Reason::RecordLength`], [`Reason::Node`]
/// and [`Reason::Branch`], tested in this order at each node, in
/// preorder; and [`Reason::Word`] last.
///
/// # Examples
///
/// ```
/// use bwlchareg::{credentials, verify, Query, Reason};
///
/// let table = [
///     3, 0, 1, 0, // three credentials and an automaton without edges
///     1, 1, 2, 2, 2, 0, // whoever is in the role 2.2 is in the role 1.1
///     2, 2, 1, 4, 0, 0, // principal 4 is in the role 2.2
///     2, 2, 1, 4, 0, 1, // so is it here, under automaton 1
///     1, 1, 0, // which starts in state 0, accepts in state 0, demands every word
/// ];
/// let query = Query { principal: 4, owner: 1, name: 1, depth: 2 };
///
/// // Credential 1, and below it credential 2; no middles.
/// let used = verify(&table, query, &[1, 0, 2, 0])?;
/// assert!(credentials(used).eq([1, 2]));
///
/// // With credential 3 the automaton counts. Without an edge it rejects all.
/// let refusal = verify(&table, query, &[1, 0, 3, 0]).unwrap_err();
/// assert_eq!(refusal.reason(), Some(Reason::Word));
/// assert_eq!(refusal.position, 1);
///
/// // Credential 1 does not define the role 2.2 that the second node is for.
/// let refusal = verify(&table, query, &[1, 0, 1, 0]).unwrap_err();
/// assert_eq!(refusal.reason(), Some(Reason::Node));
/// assert_eq!(refusal.position, 2);
/// # Ok::<(), bwlchareg::Refusal>(())
/// ```
pub fn verify(table: &[Number], query: Query, record: &[Number]) -> Result<u32, Refusal> {
    ffi::verify(table, query, record).used_set()
}

/// Lists all minimal sets for a query. They stand in the first of the lent
/// cells, ascending, and the answer is how many there are. With an allocator
/// [`minimal_sets`](crate::minimal_sets) is simpler.
///
/// A minimal set is the used set of a record that [`verify`] accepts with this
/// table and query, where no accepted record's used set is a proper part of it.
/// The list has each of them once and nothing else.
///
/// Cells beyond the count are unchanged.
///
/// # Errors
///
/// As for [`check_query`]; then [`Reason::NoMinimalSet`], whatever the cells; and
/// [`Reason::LongerList`]. There every cell is filled, with the first sets
/// of the list; on every other refusal no cell changes.
/// [`MAX_SETS`](crate::layout::MAX_SETS) cells are always enough.
///
/// # Examples
///
/// ```
/// use bwlchareg::{list, Query, Reason};
///
/// let table = [
///     2, 0, 0, 0, //
///     1, 1, 1, 4, 0, 0, // principal 4 is in the role 1.1
///     1, 1, 1, 4, 0, 0, // and so it is by another credential
/// ];
/// let query = Query { principal: 4, owner: 1, name: 1, depth: 1 };
/// let mut cells = [0; 3];
/// assert_eq!(list(&table, query, &mut cells), Ok(2));
/// assert_eq!(cells, [0b01, 0b10, 0]);
///
/// let refusal = list(&table, query, &mut cells[..1]).unwrap_err();
/// assert_eq!(refusal.reason(), Some(Reason::LongerList));
/// ```
pub fn list(table: &[Number], query: Query, cells: &mut [u32]) -> Result<usize, Refusal> {
    ffi::list(table, query, cells).count(cells.len())
}

/// Writes the first record of a minimal set: what the holder shows for a set of
/// the [`list`]. The record stands in the first of the lent cells, two numbers
/// for each node, and the answer is its length in numbers. With an allocator
/// [`first_record`](crate::first_record) is simpler.
///
/// It is the record that [`verify`] accepts with exactly this set as its used
/// set and that comes first, compared number by number, the smaller first:
/// every other accepted record that uses only credentials of the set comes
/// later.
///
/// Cells beyond the record are unchanged.
///
/// # Errors
///
/// As for [`check_query`]; then [`Reason::NotListed`]; and
/// [`Reason::LongerRecord`]. On a refusal no cell changes. A record of
/// sixteen levels may have more than a thousand million nodes; once the set is
/// found to be on the list, a refusal takes about as many steps as there are
/// cells, times the work of a node.
///
/// # Examples
///
/// ```
/// use bwlchareg::{write, Query, Reason};
///
/// let table = [
///     3, 0, 0, 0, //
///     1, 1, 2, 2, 2, 0, // whoever is in 2.2 is in 1.1
///     2, 2, 1, 4, 0, 0, // principal 4 is in 2.2
///     1, 3, 1, 4, 0, 0, // principal 4 is in 1.3
/// ];
/// let query = Query { principal: 4, owner: 1, name: 1, depth: 2 };
/// let mut cells = [9; 5];
/// assert_eq!(write(&table, query, 0b011, &mut cells), Ok(4));
/// assert_eq!(cells, [1, 0, 2, 0, 9]);
///
/// // All three credentials prove it too, but the set is not minimal.
/// let refusal = write(&table, query, 0b111, &mut cells).unwrap_err();
/// assert_eq!(refusal.reason(), Some(Reason::NotListed));
/// ```
pub fn write(
    table: &[Number],
    query: Query,
    set: u32,
    record: &mut [Number],
) -> Result<usize, Refusal> {
    ffi::write(table, query, set, record).count(record.len())
}
