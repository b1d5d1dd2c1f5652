//! The five operations over include/treenum.h. All that is unsafe stands here.
//!
//! The header asks of a caller: "Each pointer is aligned and is valid for its length for as long as
//! the call runs; [..] A list that is not const, and value, overlap nothing else." Each pointer
//! below is that of a slice, with the slice's own length, or of a local `value`:
//!
//! - the pointer of a slice is aligned, of an empty one too, and it is valid for the slice's length
//!   as long as the slice is borrowed, which is beyond the call;
//! - a list that is written to, and `value`, are borrowed by `&mut`, so nothing else is there;
//! - a `const` list is only read, so a `&` suffices.
//!
//! The functions are proved to end for every input, keep nothing between calls and call nothing
//! that could unwind.

use crate::{Kind, Refusal};

extern "C" {
    fn treenum_check(
        states: u64,
        rows: *const u16,
        rows_len: usize,
        accepting: *const u16,
        accepting_len: usize,
        value: *mut u64,
    ) -> u32;

    fn treenum_number(
        states: u64,
        rows: *const u16,
        rows_len: usize,
        accepting: *const u16,
        accepting_len: usize,
        tree: *const u16,
        tree_len: usize,
        value: *mut u64,
    ) -> u32;

    fn treenum_write(
        states: u64,
        rows: *const u16,
        rows_len: usize,
        accepting: *const u16,
        accepting_len: usize,
        number: u64,
        tree: *mut u16,
        tree_len: usize,
        value: *mut u64,
    ) -> u32;

    fn treenum_read_term(
        names: *const u8,
        names_len: usize,
        text: *const u8,
        text_len: usize,
        tree: *mut u16,
        tree_len: usize,
        value: *mut u64,
    ) -> u32;

    fn treenum_write_term(
        names: *const u8,
        names_len: usize,
        tree: *const u16,
        tree_len: usize,
        text: *mut u8,
        text_len: usize,
        value: *mut u64,
    ) -> u32;
}

/// The answer of a function that returned this number and put this value.
fn answer(returned: u32, value: u64) -> Result<u64, Refusal> {
    if returned == 0 {
        return Ok(value);
    }
    let kind = Kind::from_number(returned).expect("the archive gives the numbers of kinds");
    Err(Refusal { kind, place: value })
}

/// The same, of one that writes to a list: the count is at most the list's length.
fn count(returned: u32, value: u64) -> Result<usize, Refusal> {
    answer(returned, value).map(|count| count as usize)
}

/// Checks a table and gives its total, the count of the trees that it accepts.
///
/// The rows stand one after another: symbol, target state, argument count, argument states.
/// Refuses 1 to 7 and 9 to 11. [`Table`](crate::Table) keeps a table that has passed.
///
/// ```
/// use treenum::{check, Kind, Refusal};
///
/// // one state, and the leaves 1 and 2 that reach it
/// assert_eq!(check(1, &[1, 0, 0, 2, 0, 0], &[0]), Ok(2));
/// // no states, rows or accepting entries
/// assert_eq!(check(0, &[], &[]), Ok(0));
/// // row 1 is row 0 again
/// let refusal = Refusal { kind: Kind::RepeatedRow, place: 1 };
/// assert_eq!(check(1, &[1, 0, 0, 1, 0, 0], &[0]), Err(refusal));
/// ```
pub fn check(states: u64, rows: &[u16], accepting: &[u16]) -> Result<u64, Refusal> {
    let mut value = 0;
    // SAFETY: pointers and lengths of slices; `value` alone is written to (see the module's head).
    let returned = unsafe {
        treenum_check(
            states,
            rows.as_ptr(),
            rows.len(),
            accepting.as_ptr(),
            accepting.len(),
            &mut value,
        )
    };
    answer(returned, value)
}

/// Numbers a tree: how many of the trees that the table accepts come before it.
///
/// Refuses as the check does, then 12 to 14. [`Table::number`](crate::Table::number) is the same
/// for a table that has passed its check.
///
/// ```
/// use treenum::{number, Kind, Refusal};
///
/// let rows = [1, 0, 0, 2, 0, 0];
/// assert_eq!(number(1, &rows, &[0], &[2, 0]), Ok(1));
/// // no row has symbol 3, and the bar at place 1 closes that leaf
/// let refusal = Refusal { kind: Kind::NotAccepted, place: 1 };
/// assert_eq!(number(1, &rows, &[0], &[3, 0]), Err(refusal));
/// ```
pub fn number(states: u64, rows: &[u16], accepting: &[u16], tree: &[u16]) -> Result<u64, Refusal> {
    let mut value = 0;
    // SAFETY: pointers and lengths of slices; `value` alone is written to (see the module's head).
    let returned = unsafe {
        treenum_number(
            states,
            rows.as_ptr(),
            rows.len(),
            accepting.as_ptr(),
            accepting.len(),
            tree.as_ptr(),
            tree.len(),
            &mut value,
        )
    };
    answer(returned, value)
}

/// Writes the tree of a number at the front of a list and gives the count of its entries; later
/// entries stay.
///
/// Refuses as the check does, then 15 and 16; then the list is as it was.
/// [`Table::write`](crate::Table::write) is the same for a table that has passed its check.
///
/// ```
/// use treenum::{write, Kind, Refusal};
///
/// let rows = [1, 0, 0, 2, 0, 0];
/// let mut tree = [9; 3];
/// assert_eq!(write(1, &rows, &[0], 1, &mut tree), Ok(2));
/// assert_eq!(tree, [2, 0, 9]);
/// let refusal = Refusal { kind: Kind::ShortTreeList, place: 2 };
/// assert_eq!(write(1, &rows, &[0], 1, &mut tree[..1]), Err(refusal));
/// ```
pub fn write(
    states: u64,
    rows: &[u16],
    accepting: &[u16],
    number: u64,
    tree: &mut [u16],
) -> Result<usize, Refusal> {
    let mut value = 0;
    // SAFETY: pointers and lengths of slices; `tree` and `value`, which are written to, are
    // borrowed by `&mut` (see the module's head).
    let returned = unsafe {
        treenum_write(
            states,
            rows.as_ptr(),
            rows.len(),
            accepting.as_ptr(),
            accepting.len(),
            number,
            tree.as_mut_ptr(),
            tree.len(),
            &mut value,
        )
    };
    count(returned, value)
}

/// Reads a term: writes its tree at the front of a list and gives the count of its entries; later
/// entries stay.
///
/// The case of letters in the text's [names](crate#names) does not matter. Refuses 17 to 22; then
/// the list is as it was. [`tree_of`](crate::tree_of) makes the list.
///
/// ```
/// use treenum::{read_term, Kind, Refusal};
///
/// let mut tree = [9; 5];
/// assert_eq!(read_term(b"cold\nwarm\n", b"Warm(cold)", &mut tree), Ok(4));
/// assert_eq!(tree, [2, 1, 0, 0, 9]);
/// // `hot` is not listed, and begins at byte 5
/// let refusal = Refusal { kind: Kind::UnlistedName, place: 5 };
/// assert_eq!(read_term(b"cold\nwarm\n", b"warm(hot)", &mut tree), Err(refusal));
/// ```
pub fn read_term(names: &[u8], text: &[u8], tree: &mut [u16]) -> Result<usize, Refusal> {
    let mut value = 0;
    // SAFETY: pointers and lengths of slices; `tree` and `value`, which are written to, are
    // borrowed by `&mut` (see the module's head).
    let returned = unsafe {
        treenum_read_term(
            names.as_ptr(),
            names.len(),
            text.as_ptr(),
            text.len(),
            tree.as_mut_ptr(),
            tree.len(),
            &mut value,
        )
    };
    count(returned, value)
}

/// Writes a tree as a term at the front of a list and gives the count of its bytes; later bytes
/// stay.
///
/// The [names](crate#names) are written as they stand in the list. Refuses 17, 12, 13, 23 and 24;
/// then the list is as it was. [`term_of`](crate::term_of) makes a `String`.
///
/// ```
/// use treenum::{write_term, Kind, Refusal};
///
/// let mut text = *b"..........!";
/// assert_eq!(write_term(b"cold\nWarm\n", &[2, 1, 0, 0], &mut text), Ok(10));
/// assert_eq!(&text, b"Warm(cold)!");
/// // symbol 3, the entry at place 1, has no name
/// let refusal = Refusal { kind: Kind::UnnamedSymbol, place: 1 };
/// assert_eq!(write_term(b"cold\nwarm\n", &[2, 3, 0, 0], &mut text), Err(refusal));
/// ```
pub fn write_term(names: &[u8], tree: &[u16], text: &mut [u8]) -> Result<usize, Refusal> {
    let mut value = 0;
    // SAFETY: pointers and lengths of slices; `text` and `value`, which are written to, are
    // borrowed by `&mut` (see the module's head).
    let returned = unsafe {
        treenum_write_term(
            names.as_ptr(),
            names.len(),
            tree.as_ptr(),
            tree.len(),
            text.as_mut_ptr(),
            text.len(),
            &mut value,
        )
    };
    count(returned, value)
}
