//! Every number of the documents that bounds something, each named once.

/// Longest card, in bytes.
pub const CARD_BYTES: usize = 16_384;
/// Longest question, in bytes.
pub const QUESTION_BYTES: usize = CARD_BYTES;
/// Most seats at a table; the least is one.
pub const SEATS: usize = 16;
/// Highest top state; the lowest is zero.
pub const TOP_STATE: usize = 7;
/// How many states there are at most.
pub const STATES: usize = TOP_STATE + 1;
/// Highest top of the shared number; the lowest is zero.
pub const SHARED_TOP: usize = 7;
/// How many values the shared number has at most.
pub const SHARED_VALUES: usize = SHARED_TOP + 1;
/// How many public classes there are.
pub const CLASSES: usize = 8;
/// Most statements on a card; the least is one.
pub const STATEMENTS: usize = 32;
/// Most branches in one statement.
pub const BRANCHES: usize = 8;
/// Most guard nodes in one statement, and nodes in a question.
pub const NODES: usize = 32;
/// Most `!` and expression brackets open around a place in a guard or a question.
pub const DEPTH: usize = 8;
/// Most digits of a number, and of a decimal's whole part.
pub const NUMBER_DIGITS: usize = 6;
/// Most digits behind a decimal's point for it to be a mark at all.
pub const FURTHER_DIGITS: usize = 6;
/// Most digits of a seat word or a module word.
pub const WORD_DIGITS: usize = 5;
/// Most digits behind the point of a decimal that is a good weight by the old rule.
pub const WEIGHT_FURTHER_DIGITS: usize = 2;
/// A weight of one, in the units in which weights are held.
pub const UNIT: u32 = 277_200;
/// Most count vectors of a table whose odds are reckoned, with a shared number most pairs of a vector and its value; and how long a lent row is.
pub const VECTORS: usize = 512;
/// Most steps of odds.
pub const ODDS_STEPS: usize = 32;
/// A chance of one, in millionths.
pub const CERTAIN: u32 = 1_000_000;
/// Bytes of its input that the panel program looks at.
pub const INPUT_BYTES: usize = 65_536;
/// Longest deck, in bytes.
pub const DECK_BYTES: usize = 65_535;
/// Most cards in a deck; the least is one.
pub const DECK_CARDS: usize = 64;
/// Longest list of what became of a deck's entries: a line `dropped N` for each, LF included.
pub const LIST_BYTES: usize = DECK_CARDS * 10;
