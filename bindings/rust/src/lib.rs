//! Numbered trees: a report travels as its number in a table of all permitted trees.
//!
//! A table is an acyclic bottom-up tree automaton. The trees that it accepts are numbered from 0
//! in a fixed order; [`Table::number`] gives a tree's number and [`Table::tree`] a number's tree.
//! [`tree_of`] and [`term_of`] go between trees and their words.
//!
//! ```
//! use treenum::{term_of, tree_of, Table};
//!
//! // The paper's table. A row is: symbol, target state, argument count, argument states.
//! const ROWS: [u16; 42] = [
//!     1, 0, 0,
//!     2, 1, 0,
//!     1, 2, 2, 0, 0,
//!     2, 2, 2, 0, 1,
//!     1, 3, 2, 1, 0,
//!     1, 3, 2, 1, 1,
//!     2, 3, 2, 1, 1,
//!     1, 4, 2, 2, 2,
//!     2, 4, 3, 2, 3, 1,
//! ];
//! const NAMES: &[u8] = b"a\nb\n";
//!
//! # fn main() -> Result<(), Box<dyn std::error::Error>> {
//! let table = Table::new(5, &ROWS, &[2, 4])?;
//! assert_eq!(table.total(), 12);
//! // Numbers are below the total, so four bytes hold every number of this table.
//! assert!(table.total() <= 1 << 32);
//!
//! // The sender: from words to four bytes.
//! let tree = tree_of(NAMES, b"b(b(a,b),a(b,b),b)")?;
//! let number = table.number(&tree)?;
//! assert_eq!(number, 10);
//! let sent = u32::try_from(number)?.to_be_bytes();
//! assert_eq!(sent, [0, 0, 0, 10]);
//!
//! // The receiver: back to words.
//! let number = u32::from_be_bytes(sent).into();
//! let tree = table.tree(number)?;
//! assert_eq!(term_of(NAMES, &tree)?, "b(b(a,b),a(b,b),b)");
//!
//! // What is turned away says why.
//! let refusal = table.number(&tree_of(NAMES, b"b(a,a)")?).unwrap_err();
//! assert_eq!((refusal.kind.number(), refusal.place), (14, 5));
//! assert!(refusal.to_string().starts_with("refused 14 at 5: a tree that the table does not accept"));
//! # Ok(())
//! # }
//! ```
//!
//! # Lists
//!
//! A tree is a list of entries: the symbol of a node (1 to 255), its children one after another,
//! then 0. The rows of a table stand one after another in one list. [`check`], [`number`],
//! [`write()`], [`read_term`] and [`write_term`] are the library's five operations just as they
//! are, over lent lists; [`Table`], [`tree_of`] and [`term_of`] are made of them and add nothing
//! to their answers.
//!
//! # Names
//!
//! A names list is bytes: 1 to 255 names, each followed by byte 10; the first names symbol 1. A
//! name is 1 to 24 bytes: an ASCII letter, then letters, digits, `-` or `_`. Two names are equal if
//! they differ only in the case of ASCII letters, and no two names of a list are equal. Reading takes
//! a name in any case of its letters; writing gives it as it stands in the list.
//!
//! ```
//! use treenum::{term_of, tree_of};
//!
//! let tree = tree_of(b"Probe\nshut\n", b"probe(SHUT)")?;
//! assert_eq!(tree, [1, 2, 0, 0]);
//! assert_eq!(term_of(b"Probe\nshut\n", &tree)?, "Probe(shut)");
//! # Ok::<(), treenum::Refusal>(())
//! ```
//!
//! # What is proved
//!
//! The library is proved to give, for every input, the answer that its definitions say, and to
//! leave in every lent list what they say. This crate is not proved, but tested; it hands the
//! lists over as include/treenum.h asks, and gives back what comes back.
//!
//! The library keeps nothing between calls, so many threads can call it at once. A call takes up
//! to 73,000 bytes of stack; [`Table::tree`] and [`tree_of`] add a list of 8,192.

#![deny(missing_docs, unsafe_code, unsafe_op_in_unsafe_fn)]
#![deny(clippy::undocumented_unsafe_blocks)]

mod refusal;
#[allow(unsafe_code)]
mod sys;

pub use refusal::{Kind, Refusal};
pub use sys::{check, number, read_term, write, write_term};

/// No tree that an operation takes or gives has more entries.
const MOST_ENTRIES: usize = 4096;

/// A table that has passed its check.
///
/// Numbers are `u64`, as the library has them, and none is cut on its way. A table's numbers are
/// those below its [total](Table::total), which is at most [`u64::MAX`]. So every one of them fits
/// a `u32`, and a report travels in four bytes, exactly if `total() <= 1 << 32`: test that before
/// `u32::try_from`, or send eight. And `u64::MAX` is no tree's number: it is 15 for every table.
///
/// ```
/// use treenum::{Kind, Refusal, Table};
///
/// // The trees of state q: q nodes, each 1 or 2, one below the other, and the leaf 3.
/// let mut rows = vec![3, 0, 0];
/// for q in 1..34 {
///     rows.extend([1, q, 1, q - 1, 2, q, 1, q - 1]);
/// }
/// for q in 31..34 {
///     let table = Table::new(34, &rows, &[q])?;
///     assert_eq!(table.total(), 1 << q);
///     let last = table.tree(table.total() - 1)?;
///     let fits = u32::try_from(table.number(&last)?).is_ok();
///     assert_eq!(fits, table.total() <= 1 << 32);
///
///     let refusal = Refusal { kind: Kind::NumberNotBelowTotal, place: 0 };
///     assert_eq!(table.tree(u64::MAX), Err(refusal));
/// }
/// # Ok::<(), Refusal>(())
/// ```
///
/// The library checks the table again in each call, and the time of a call has that in it. As a
/// `Table` has passed and does not change, its methods never refuse as the check does.
#[derive(Clone, Debug, PartialEq, Eq)]
pub struct Table {
    states: u64,
    rows: Vec<u16>,
    accepting: Vec<u16>,
    total: u64,
}

impl Table {
    /// Checks a table, and keeps a copy of its lists if it passes. Refuses 1 to 7 and 9 to 11.
    ///
    /// A list that is too long is not copied: a table that passes has at most 19,456 row entries
    /// and 256 accepting entries.
    ///
    /// ```
    /// use treenum::{Kind, Refusal, Table};
    ///
    /// assert!(Table::new(1, &[1, 0, 0], &[0]).is_ok());
    /// // the accepting entry at place 1 is no state
    /// let refusal = Refusal { kind: Kind::AcceptingEntry, place: 1 };
    /// assert_eq!(Table::new(1, &[1, 0, 0], &[0, 1]), Err(refusal));
    /// ```
    pub fn new(states: u64, rows: &[u16], accepting: &[u16]) -> Result<Table, Refusal> {
        let total = check(states, rows, accepting)?;
        Ok(Table {
            states,
            rows: rows.to_vec(),
            accepting: accepting.to_vec(),
            total,
        })
    }

    /// The count of the trees that the table accepts, up to [`u64::MAX`]. Their numbers are those
    /// below it.
    ///
    /// ```
    /// # use treenum::Table;
    /// // the leaves 1 and 2
    /// assert_eq!(Table::new(1, &[1, 0, 0, 2, 0, 0], &[0])?.total(), 2);
    /// # Ok::<(), treenum::Refusal>(())
    /// ```
    pub fn total(&self) -> u64 {
        self.total
    }

    /// The number of a tree: how many accepted trees come before it. Those of all trees fit a `u32`
    /// exactly if `total() <= 1 << 32`. Refuses 12, 13 and 14.
    ///
    /// ```
    /// use treenum::{Kind, Refusal, Table};
    ///
    /// let table = Table::new(1, &[1, 0, 0, 2, 0, 0], &[0])?;
    /// assert_eq!(table.number(&[2, 0])?, 1);
    /// // the list ends too soon, so the place is its length
    /// let refusal = Refusal { kind: Kind::NotATree, place: 1 };
    /// assert_eq!(table.number(&[2]), Err(refusal));
    /// # Ok::<(), treenum::Refusal>(())
    /// ```
    pub fn number(&self, tree: &[u16]) -> Result<u64, Refusal> {
        number(self.states, &self.rows, &self.accepting, tree)
    }

    /// Writes the tree of a number at the front of a list and gives the count of its entries;
    /// later entries stay. Refuses 15 and 16; then the list is as it was.
    ///
    /// ```
    /// use treenum::{Kind, Refusal, Table};
    ///
    /// let table = Table::new(1, &[1, 0, 0, 2, 0, 0], &[0])?;
    /// let mut list = [9; 3];
    /// let count = table.write(1, &mut list)?;
    /// assert_eq!(list[..count], [2, 0]);
    /// assert_eq!(list, [2, 0, 9]);
    /// // two entries are needed
    /// let refusal = Refusal { kind: Kind::ShortTreeList, place: 2 };
    /// assert_eq!(table.write(1, &mut []), Err(refusal));
    /// # Ok::<(), treenum::Refusal>(())
    /// ```
    pub fn write(&self, number: u64, tree: &mut [u16]) -> Result<usize, Refusal> {
        write(self.states, &self.rows, &self.accepting, number, tree)
    }

    /// The tree of a number. Refuses 15; [`u64::MAX`] is refused so by every table.
    ///
    /// ```
    /// use treenum::{Kind, Refusal, Table};
    ///
    /// let table = Table::new(1, &[1, 0, 0, 2, 0, 0], &[0])?;
    /// assert_eq!(table.tree(1)?, [2, 0]);
    /// let refusal = Refusal { kind: Kind::NumberNotBelowTotal, place: 0 };
    /// assert_eq!(table.tree(2), Err(refusal));
    /// # Ok::<(), treenum::Refusal>(())
    /// ```
    pub fn tree(&self, number: u64) -> Result<Vec<u16>, Refusal> {
        // By 10 no tree of a table that has passed is longer, so 16 does not come.
        let mut tree = [0; MOST_ENTRIES];
        let count = self.write(number, &mut tree)?;
        Ok(tree[..count].to_vec())
    }
}

/// The tree of a term; the case of letters in its [names](crate#names) does not matter. Refuses 17
/// to 21.
///
/// ```
/// use treenum::{tree_of, Kind, Refusal};
///
/// assert_eq!(tree_of(b"cold\nwarm\n", b"warm(cold)")?, [2, 1, 0, 0]);
/// // the text ends too soon, so the place is its length
/// let refusal = Refusal { kind: Kind::NotATerm, place: 5 };
/// assert_eq!(tree_of(b"cold\nwarm\n", b"warm("), Err(refusal));
/// # Ok::<(), Refusal>(())
/// ```
pub fn tree_of(names: &[u8], text: &[u8]) -> Result<Vec<u16>, Refusal> {
    // A longer tree is refused by 21, so 22 does not come.
    let mut tree = [0; MOST_ENTRIES];
    let count = read_term(names, text, &mut tree)?;
    Ok(tree[..count].to_vec())
}

/// The term of a tree, its [names](crate#names) as they stand in the list. Refuses 17, 12, 13 and
/// 23.
///
/// ```
/// use treenum::{term_of, Kind, Refusal};
///
/// assert_eq!(term_of(b"cold\nWarm\n", &[2, 1, 0, 0])?, "Warm(cold)");
/// // of equal names the later line is faulty
/// let refusal = Refusal { kind: Kind::FaultyNames, place: 1 };
/// assert_eq!(term_of(b"cold\nCold\n", &[2, 1, 0, 0]), Err(refusal));
/// # Ok::<(), Refusal>(())
/// ```
pub fn term_of(names: &[u8], tree: &[u16]) -> Result<String, Refusal> {
    // A term has at most 13 bytes for each entry of its tree (the law text-bound), so 24 does not
    // come.
    let mut text = vec![0; 13 * tree.len().min(MOST_ENTRIES)];
    let count = write_term(names, tree, &mut text)?;
    text.truncate(count);
    Ok(String::from_utf8(text).expect("a term is ASCII"))
}

/// The examples of README.md.
#[cfg(doctest)]
#[doc = include_str!("../README.md")]
struct Readme;
