//! Refusals, with the documents' numbers and words.

use std::error::Error;
use std::fmt::{self, Display, Formatter};

/// Why an operation turned its input away: "a refusal with its number and place".
///
/// It prints document 01's words, with document 02's limit in 9 and 11 (request (h)); with 17 and 20
/// it adds the rule for equal names:
///
/// ```
/// use treenum::{Kind, Refusal};
///
/// let refusal = Refusal { kind: Kind::ShortTreeList, place: 16 };
/// assert_eq!(
///     refusal.to_string(),
///     "refused 16 at 16: a lent list shorter than the tree (the place being the entries needed)"
/// );
/// let refusal = Refusal { kind: Kind::UnlistedName, place: 5 };
/// assert_eq!(
///     refusal.to_string(),
///     "refused 20 at 5: a name not listed (at its first byte, the earliest such name); names are \
///      equal if they differ only in the case of ASCII letters"
/// );
/// ```
#[derive(Clone, Copy, Debug, PartialEq, Eq, Hash)]
pub struct Refusal {
    /// What was turned away.
    pub kind: Kind,
    /// Where: [`Kind::place_words`] says what it is. "The place is 0 unless said otherwise."
    pub place: u64,
}

impl Display for Refusal {
    fn fmt(&self, f: &mut Formatter<'_>) -> fmt::Result {
        let Refusal { kind, place } = self;
        write!(f, "refused {} at {place}: {}", kind.number(), kind.words())?;
        if let Some(words) = kind.place_words() {
            write!(f, " ({words})")?;
        }
        match kind {
            Kind::FaultyNames => write!(
                f,
                "; of equal names the later line is faulty, and {EQUAL_NAMES}"
            ),
            Kind::UnlistedName => write!(f, "; {EQUAL_NAMES}"),
            _ => Ok(()),
        }
    }
}

/// What 17 and 20 go by: document 02, request (a).
const EQUAL_NAMES: &str = "names are equal if they differ only in the case of ASCII letters";

impl Error for Refusal {}

/// The kinds of refusal, in the order of their numbers, from 1.
///
/// 8 (`AcceptingTooLong`) is withdrawn and not used again: it was never given. An accepting list
/// longer than the count of states has an entry that is no state or equals an earlier one, which
/// is 7.
///
/// 9 and 10 speak of used states only (document 02, request (c)): a state is used if some accepted
/// tree has a subtree reaching it. The limit in 9 and 11 is [`u64::MAX`] (request (h)).
#[derive(Clone, Copy, Debug, PartialEq, Eq, Hash)]
#[non_exhaustive]
#[repr(u32)]
pub enum Kind {
    /// 1: there are more than 256 states.
    TooManyStates = 1,
    /// 2: a row is cut.
    CutRow,
    /// 3: a row is beyond the 1,024th, or has more than 16 arguments.
    TooManyRowsOrArguments,
    /// 4: a symbol, a target or an argument is out of range.
    NotInRange,
    /// 5: an argument is not below its row's target.
    ArgumentNotBelowTarget,
    /// 6: a row has the symbol and arguments of an earlier one.
    RepeatedRow,
    /// 7: an accepting entry is no state or equals an earlier one.
    AcceptingEntry,
    /// 9: a used state counts more than 18,446,744,073,709,551,615 trees.
    CountAboveLimit = 9,
    /// 10: a used state's longest tree has more than 4,096 entries.
    LongestTreeAboveLimit,
    /// 11: the total is above 18,446,744,073,709,551,615.
    TotalAboveLimit,
    /// 12: a lent tree has more than 4,096 entries.
    TreeTooLong,
    /// 13: a lent list is no tree.
    NotATree,
    /// 14: the table does not accept the tree.
    NotAccepted,
    /// 15: the number is not below the total.
    NumberNotBelowTotal,
    /// 16: the list to write the tree of a number to is short.
    ShortTreeList,
    /// 17: the names list is against the [rules](crate#names).
    FaultyNames,
    /// 18: the text has more than 65,536 bytes.
    TextTooLong,
    /// 19: the text is no term.
    NotATerm,
    /// 20: a name is equal to none in the [list](crate#names).
    UnlistedName,
    /// 21: the term's tree has more than 4,096 entries.
    TermTreeTooLong,
    /// 22: the list to write the term's tree to is short.
    ShortTermTree,
    /// 23: a symbol has no name.
    UnnamedSymbol,
    /// 24: the list to write the term to is short.
    ShortTextList,
}

impl Kind {
    /// All kinds, in the order of their numbers.
    pub const ALL: &'static [Kind] = &[
        Kind::TooManyStates,
        Kind::CutRow,
        Kind::TooManyRowsOrArguments,
        Kind::NotInRange,
        Kind::ArgumentNotBelowTarget,
        Kind::RepeatedRow,
        Kind::AcceptingEntry,
        Kind::CountAboveLimit,
        Kind::LongestTreeAboveLimit,
        Kind::TotalAboveLimit,
        Kind::TreeTooLong,
        Kind::NotATree,
        Kind::NotAccepted,
        Kind::NumberNotBelowTotal,
        Kind::ShortTreeList,
        Kind::FaultyNames,
        Kind::TextTooLong,
        Kind::NotATerm,
        Kind::UnlistedName,
        Kind::TermTreeTooLong,
        Kind::ShortTermTree,
        Kind::UnnamedSymbol,
        Kind::ShortTextList,
    ];

    /// Document 01's number.
    pub fn number(self) -> u32 {
        self as u32
    }

    /// The kind with this number.
    ///
    /// ```
    /// use treenum::Kind;
    ///
    /// assert_eq!(Kind::from_number(14), Some(Kind::NotAccepted));
    /// assert_eq!(Kind::NotAccepted.number(), 14);
    /// assert_eq!(Kind::from_number(0), None);
    /// assert_eq!(Kind::from_number(8), None); // withdrawn
    /// assert_eq!(Kind::from_number(25), None);
    /// ```
    pub fn from_number(number: u32) -> Option<Kind> {
        Kind::ALL
            .iter()
            .copied()
            .find(|kind| kind.number() == number)
    }

    /// Document 01's words for what is turned away, with document 02's limit in 9 and 11.
    pub fn words(self) -> &'static str {
        match self {
            Kind::TooManyStates => "more than 256 states",
            Kind::CutRow => "fewer than three entries left, or fewer arguments left than counted",
            Kind::TooManyRowsOrArguments => "a row beyond the 1,024th, or more than 16 arguments",
            Kind::NotInRange => "symbol 0 or above 255, or a target or argument that is no state",
            Kind::ArgumentNotBelowTarget => "an argument not below the target",
            Kind::RepeatedRow => "the symbol and arguments of an earlier row",
            Kind::AcceptingEntry => {
                "the accepting list: the first entry that is no state or equals an earlier entry"
            }
            Kind::CountAboveLimit => "a count above 18,446,744,073,709,551,615",
            Kind::LongestTreeAboveLimit => "a longest tree above 4,096 entries",
            Kind::TotalAboveLimit => "a total above 18,446,744,073,709,551,615",
            Kind::TreeTooLong => "more than 4,096 entries",
            Kind::NotATree => "a list that is no tree",
            Kind::NotAccepted => "a tree that the table does not accept",
            Kind::NumberNotBelowTotal => "a number not below the total",
            Kind::ShortTreeList => "a lent list shorter than the tree",
            Kind::FaultyNames => "a names list against the rules",
            Kind::TextTooLong => "a text above 65,536 bytes",
            Kind::NotATerm => "a text that is no term",
            Kind::UnlistedName => "a name not listed",
            Kind::TermTreeTooLong => "a tree above 4,096 entries",
            Kind::ShortTermTree | Kind::ShortTextList => "a short lent list",
            Kind::UnnamedSymbol => "a symbol above the count of names",
        }
    }

    /// Document 01's words for what the place is, where it is not 0 throughout.
    pub fn place_words(self) -> Option<&'static str> {
        match self {
            Kind::CutRow
            | Kind::TooManyRowsOrArguments
            | Kind::NotInRange
            | Kind::ArgumentNotBelowTarget
            | Kind::RepeatedRow => {
                Some("the first faulty row decides; its row number is the place")
            }
            Kind::AcceptingEntry => Some("with its place"),
            Kind::CountAboveLimit | Kind::LongestTreeAboveLimit => {
                Some("the first faulty state decides, and its number is the place")
            }
            Kind::NotATree => Some(
                "the place is the first entry that is above 255, is a bar with no node open, or \
                 follows the root's bar; for a list that ends too soon (an empty one too) the \
                 place is its length",
            ),
            Kind::NotAccepted => Some(
                "its place is the first bar that closes a subtree reaching no state; if the whole \
                 tree reaches a state that is not listed, it is the last bar",
            ),
            Kind::ShortTreeList => Some("the place being the entries needed"),
            Kind::FaultyNames => Some("the place being its first faulty line, or 0 if it is empty"),
            Kind::NotATerm => Some(
                "the place being the first byte with which no term can go on, or the text's \
                 length if it ends too soon",
            ),
            Kind::UnlistedName => Some("at its first byte, the earliest such name"),
            Kind::ShortTermTree => Some("with the entries needed"),
            Kind::UnnamedSymbol => Some("at the first such entry"),
            Kind::ShortTextList => Some("with the bytes needed"),
            Kind::TooManyStates
            | Kind::TotalAboveLimit
            | Kind::TreeTooLong
            | Kind::NumberNotBelowTotal
            | Kind::TextTooLong
            | Kind::TermTreeTooLong => None,
        }
    }
}
