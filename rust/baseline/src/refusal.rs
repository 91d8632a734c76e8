//! Why a card, a seating, a room, a question, a deck or a list of classes is turned down, and where.

use std::fmt;

/// A refusal: its number and its place, as document 01 lists them in the chapter "Refusal numbers" and document 02 with each request.
#[derive(Clone, Copy, PartialEq, Eq, Debug)]
pub struct Refusal {
    /// One of the numbers below.
    pub number: u8,
    /// A byte of the card, the question or a deck, a place in the seating, a state, a length, or a card's number, depending on the refusal's.
    pub place: usize,
}

/// The card is too long.
pub const TOO_LONG: u8 = 1;
/// A mark is outside the rules.
pub const OUTSIDE: u8 = 2;
/// A mark does not continue the shape.
pub const SHAPE: u8 = 3;
/// A limit is passed, the shared number's highest value included.
pub const LIMIT: u8 = 4;
/// A state lies above the top state, or a value of the shared number above its highest.
pub const STATE: u8 = 5;
/// A word is not the one due, or a group is not symmetric.
pub const WORD: u8 = 6;
/// A weight or a sum of weights is wrong.
pub const WEIGHT: u8 = 7;
/// The seating has not a byte for each of the card's seats, and one more where the card shares a number.
pub const SEAT_COUNT: u8 = 8;
/// A seat's state lies above the top state, or the shared number above its highest value.
pub const SEAT_STATE: u8 = 9;
/// The text, the deck or the list does not fit into the room.
pub const ROOM: u8 = 10;
/// A deck is malformed, contents and bodies make none, or a deck is past mending.
pub const DECK: u8 = 11;
/// What is added to a [`DECK`]'s place in an expansion.
pub const IN_EXPANSION: usize = 65_536;
/// No deck has a live card of the number, or a deck has none at all.
pub const NO_LIVE_CARD: u8 = 12;
/// A list of classes has not one for each state, or has one above the highest.
pub const CLASS_LIST: u8 = 13;
/// More count vectors, or pairs of one and a value of the shared number, than odds are reckoned over.
pub const TOO_MANY_VECTORS: u8 = 14;
/// More steps than odds are reckoned for.
pub const STEPS: u8 = 15;
/// A lent row has not the length that rows have.
pub const ROW_LENGTH: u8 = 16;
/// A weight is a decimal.
pub const DECIMAL: u8 = 17;
/// A deck is not converted; the place is the number of the first card that cannot be.
pub const NOT_CONVERTED: u8 = 18;
/// A card is not added: its number is live already, or the deck has as many live cards as one may have.
pub const NOT_ADDED: u8 = 19;
/// What is added to [`TOO_LONG`], [`OUTSIDE`], [`SHAPE`], [`LIMIT`], [`STATE`] or [`WORD`] where a question is refused so.
pub const OF_QUESTION: u8 = 20;

impl Refusal {
    /// A refusal of this number at this place.
    pub const fn new(number: u8, place: usize) -> Self {
        Refusal { number, place }
    }
}

impl fmt::Display for Refusal {
    fn fmt(&self, f: &mut fmt::Formatter<'_>) -> fmt::Result {
        write!(f, "refused {} {}", self.number, self.place)
    }
}

impl std::error::Error for Refusal {}
