//! Why a card, a seating, a room, a question, a deck, a list of classes or odds are turned down, and where.

use std::fmt;

use crate::library;

/// A refusal. Its [`number`](Refusal::number) and [`place`](Refusal::place)
/// are those of documents 01 and 02; where it stands `at` something, that is a
/// byte, from 0, of the card, or of the question or the deck where its name says
/// so. More numbers may come.
#[derive(Clone, Copy, PartialEq, Eq, Hash, Debug)]
#[non_exhaustive]
pub enum Refusal {
    /// 1: the card is longer than [`CARD_BYTES`](crate::CARD_BYTES).
    Long,
    /// 2: bytes that make no mark of a card, or a number written too long.
    Mark {
        /// Where they start.
        at: usize,
    },
    /// 3: a mark that does not fit there, or none is left where one is due.
    Shape {
        /// Where the mark starts, or the length of the card.
        at: usize,
    },
    /// 4: more of something, or a higher top state or highest shared number, than any card may have.
    Limit {
        /// Where the excess starts.
        at: usize,
    },
    /// 5: a state higher than the card's highest, or a value of the shared number higher than its highest.
    State {
        /// Where its number starts.
        at: usize,
    },
    /// 6: another seat or module than has to stand there, or an asymmetric group.
    Word {
        /// Where the word or the group starts.
        at: usize,
    },
    /// 7: a number or a fraction that is no weight, or a statement whose weights do not come to 1.
    Weight {
        /// Where the weight starts, or the closing `;`.
        at: usize,
    },
    /// 8: a seating of more or fewer seats than the card has, or without the byte of the number that they share.
    SeatCount,
    /// 9: a seat in a state higher than the card's highest, or a shared number higher than its highest.
    SeatState {
        /// The index of the first one; that of the shared number is how many seats there are.
        seat: usize,
    },
    /// 10: a room that the text, the deck or the list does not fit into, or a deck that is too short for one card more.
    Room {
        /// Its length; from [`add`](crate::add) the length that the deck would have, also past [`DECK_BYTES`](crate::DECK_BYTES).
        needed: usize,
    },
    /// 11: a malformed deck, contents and bodies that make none, or a deck of which nothing can be kept.
    Deck {
        /// Where the first wrong field starts, in the expansion 65,536 more; 0
        /// if the deck as a whole is wrong. From [`write_deck`](crate::write_deck)
        /// a byte of the contents, or their length; from [`mend`](crate::mend) always 0.
        at: usize,
    },
    /// 12: no live card has the number; from [`tidy`](crate::tidy) and [`add`](crate::add), no card of the deck is live.
    NoLiveCard,
    /// 13: a list of classes that does not have one for each state of the card, or has
    /// one above [`TOP_CLASS`](crate::TOP_CLASS).
    Classes {
        /// The list's length if that is wrong, or else the index of the first such class.
        at: usize,
    },
    /// 14: odds for a table with more than [`ODDS_ROW`](crate::ODDS_ROW) count vectors, each counted once for every value of the
    /// shared number.
    Vectors,
    /// 15: odds for more than [`ODDS_STEPS`](crate::ODDS_STEPS) steps.
    Steps,
    /// 16: a lent row that is not [`ODDS_ROW`](crate::ODDS_ROW) numbers long.
    Row,
    /// 17: a weight written as a decimal, such as `0.5`, where `1/2` has to stand.
    Decimal {
        /// Where the weight starts.
        at: usize,
    },
    /// 18: a live card that was not taken when decimals were, one whose written form is longer than
    /// [`CARD_BYTES`](crate::CARD_BYTES), or any card that would end past [`DECK_BYTES`](crate::DECK_BYTES) in the new deck.
    NotConverted {
        /// The number of the first such card in the deck.
        card: u16,
    },
    /// 19: a card whose number a live card of the deck has already, or one more than [`DECK_CARDS`](crate::DECK_CARDS) live cards.
    NotAdded {
        /// Where the entry of the live card with that number starts in the deck; 0 if none has it.
        at: usize,
    },
    /// 21: the question is longer than [`QUESTION_BYTES`](crate::QUESTION_BYTES).
    QuestionLong,
    /// 22: bytes in the question that make no mark, or a number written too long.
    QuestionMark {
        /// Where in the question they start.
        at: usize,
    },
    /// 23: a mark of the question that does not fit there, or none is left where one is due.
    QuestionShape {
        /// Where in the question the mark starts, or the length of the question.
        at: usize,
    },
    /// 24: more nodes, or more open brackets and `!`, than a question may have.
    QuestionLimit {
        /// Where in the question the excess starts.
        at: usize,
    },
    /// 25: a state or a value of the shared number in the question that is higher than the card's highest.
    QuestionState {
        /// Where in the question its number starts.
        at: usize,
    },
    /// 26: a group of the question that is not one of all seats, or no proper exactly-one.
    QuestionGroup {
        /// Where in the question its bracket stands; of an exactly-one, the outer.
        at: usize,
    },
}

impl Refusal {
    /// The refusal of this number at this place, if there is one: the numbers
    /// are 1 to 19 and 21 to 26, the place of 1, 8, 12, 14 to 16 and 21 is always 0, and
    /// that of 18 is a card number, of 16 bits.
    pub const fn new(number: u8, place: usize) -> Option<Refusal> {
        Some(match number {
            1 if place == 0 => Refusal::Long,
            2 => Refusal::Mark { at: place },
            3 => Refusal::Shape { at: place },
            4 => Refusal::Limit { at: place },
            5 => Refusal::State { at: place },
            6 => Refusal::Word { at: place },
            7 => Refusal::Weight { at: place },
            8 if place == 0 => Refusal::SeatCount,
            9 => Refusal::SeatState { seat: place },
            10 => Refusal::Room { needed: place },
            11 => Refusal::Deck { at: place },
            12 if place == 0 => Refusal::NoLiveCard,
            13 => Refusal::Classes { at: place },
            14 if place == 0 => Refusal::Vectors,
            15 if place == 0 => Refusal::Steps,
            16 if place == 0 => Refusal::Row,
            17 => Refusal::Decimal { at: place },
            18 if place <= u16::MAX as usize => Refusal::NotConverted { card: place as u16 },
            19 => Refusal::NotAdded { at: place },
            21 if place == 0 => Refusal::QuestionLong,
            22 => Refusal::QuestionMark { at: place },
            23 => Refusal::QuestionShape { at: place },
            24 => Refusal::QuestionLimit { at: place },
            25 => Refusal::QuestionState { at: place },
            26 => Refusal::QuestionGroup { at: place },
            _ => return None,
        })
    }

    /// Its number, 1 to 19 or 21 to 26.
    pub const fn number(&self) -> u8 {
        match self {
            Refusal::Long => 1,
            Refusal::Mark { .. } => 2,
            Refusal::Shape { .. } => 3,
            Refusal::Limit { .. } => 4,
            Refusal::State { .. } => 5,
            Refusal::Word { .. } => 6,
            Refusal::Weight { .. } => 7,
            Refusal::SeatCount => 8,
            Refusal::SeatState { .. } => 9,
            Refusal::Room { .. } => 10,
            Refusal::Deck { .. } => 11,
            Refusal::NoLiveCard => 12,
            Refusal::Classes { .. } => 13,
            Refusal::Vectors => 14,
            Refusal::Steps => 15,
            Refusal::Row => 16,
            Refusal::Decimal { .. } => 17,
            Refusal::NotConverted { .. } => 18,
            Refusal::NotAdded { .. } => 19,
            Refusal::QuestionLong => 21,
            Refusal::QuestionMark { .. } => 22,
            Refusal::QuestionShape { .. } => 23,
            Refusal::QuestionLimit { .. } => 24,
            Refusal::QuestionState { .. } => 25,
            Refusal::QuestionGroup { .. } => 26,
        }
    }

    /// Its place: a byte of the card, of the question or of a deck, a seat, a state, a length, a card's number, or 0.
    pub const fn place(&self) -> usize {
        match *self {
            Refusal::Long
            | Refusal::SeatCount
            | Refusal::NoLiveCard
            | Refusal::Vectors
            | Refusal::Steps
            | Refusal::Row
            | Refusal::QuestionLong => 0,
            Refusal::Mark { at }
            | Refusal::Shape { at }
            | Refusal::Limit { at }
            | Refusal::State { at }
            | Refusal::Word { at }
            | Refusal::Weight { at }
            | Refusal::Deck { at }
            | Refusal::Classes { at }
            | Refusal::Decimal { at }
            | Refusal::NotAdded { at }
            | Refusal::QuestionMark { at }
            | Refusal::QuestionShape { at }
            | Refusal::QuestionLimit { at }
            | Refusal::QuestionState { at }
            | Refusal::QuestionGroup { at } => at,
            Refusal::SeatState { seat } => seat,
            Refusal::Room { needed } => needed,
            Refusal::NotConverted { card } => card as usize,
        }
    }

    /// What it means, without its place: the library's own words (`open_panel_words`).
    pub fn words(&self) -> &'static str {
        library::words(self.number())
    }

    /// Whether its place is in the question, and not in the card or elsewhere.
    pub const fn is_of_question(&self) -> bool {
        matches!(self.number(), 21..=26)
    }

    /// Line and column, both from 1, of a refusal that stands at a byte of this
    /// text: the question if it [is of one](Refusal::is_of_question), or else the card.
    pub fn line_and_column(&self, text: &[u8]) -> Option<(usize, usize)> {
        if !matches!(self.number(), 2..=7 | 17 | 22..=26) {
            return None;
        }
        let before = text.get(..self.place())?;
        let line = before.iter().filter(|&&byte| byte == b'\n').count();
        let column = before
            .iter()
            .rev()
            .take_while(|&&byte| byte != b'\n')
            .count();
        Some((line + 1, column + 1))
    }
}

impl fmt::Display for Refusal {
    /// Its place, its [words](Refusal::words) and its number.
    fn fmt(&self, f: &mut fmt::Formatter<'_>) -> fmt::Result {
        let (words, number, place) = (self.words(), self.number(), self.place());
        match self {
            Refusal::Long
            | Refusal::SeatCount
            | Refusal::NoLiveCard
            | Refusal::Vectors
            | Refusal::Steps
            | Refusal::Row
            | Refusal::QuestionLong => write!(f, "{words}"),
            Refusal::Mark { .. }
            | Refusal::Shape { .. }
            | Refusal::Limit { .. }
            | Refusal::State { .. }
            | Refusal::Word { .. }
            | Refusal::Weight { .. }
            | Refusal::Decimal { .. } => write!(f, "byte {place}: {words}"),
            Refusal::SeatState { .. } => write!(f, "byte {place} of the seats: {words}"),
            Refusal::Room { .. } => write!(f, "{words}: {place} bytes are needed"),
            Refusal::Deck { .. } => write!(
                f,
                "byte {place} of a deck, an expansion's from 65536 on, or of its contents: {words}"
            ),
            Refusal::Classes { .. } => write!(
                f,
                "a list of {place} classes, or the class of state {place}: {words}"
            ),
            Refusal::NotConverted { card } => write!(f, "card {card}: {words}"),
            // no entry starts at byte 0, where the count stands
            Refusal::NotAdded { at: 0 } => write!(f, "{words}"),
            Refusal::NotAdded { .. } => write!(f, "byte {place} of the deck: {words}"),
            Refusal::QuestionMark { .. }
            | Refusal::QuestionShape { .. }
            | Refusal::QuestionLimit { .. }
            | Refusal::QuestionState { .. }
            | Refusal::QuestionGroup { .. } => write!(f, "byte {place} of the question: {words}"),
        }?;
        write!(f, " (refusal {number})")
    }
}

impl std::error::Error for Refusal {}
