//! The open panel for Rust: rule cards are judged, written, reduced to
//! counters, and shown, spectators are shown what they may see, questions about
//! a seating are answered, also whether they come true within some steps, it is
//! said whether anyone can move, cards are found in decks and added to them,
//! damaged decks are mended, old ones converted, and full ones tidied, by the
//! verified library.
//!
//! Every entry that takes a card takes it as bytes and judges it first. A text goes into a
//! room that the caller lends: an entry answers the text's length, and leaves
//! the room behind it as it was; a [`Refusal`] leaves the whole room as it was.
//! The functions that end in `_to_vec` or `_to_vecs` bring their own room.
//! [`tidy`] and [`add`] change a deck where it stands, and only where they are
//! not refused; those that end in `_vec` make it shorter or longer as well.
//!
//! Seats are a byte each, the seat's state, in any order. On a card that declares
//! a number which all seats share, one byte more stands behind them, the value
//! that it has now; on any other card there is none.
//!
//! ```
//! let card = b"nondeterministic module process1 s1 : [0..1] init 0;
//!     [] s1=0 -> 1:(s1'=1); endmodule";
//! let mut room = [0; open_panel::SHOW_ROOM];
//! let length = open_panel::show(card, &[0], &mut room)?;
//! assert_eq!(
//!     &room[..length],
//!     b"nondeterministic\nseats 1 enabled 1\ncounts 1 0\nchoice 1\nmove 0 1 277200\n"
//! );
//! # Ok::<(), open_panel::Refusal>(())
//! ```
//!
//! The same with day (0) and night (1), which whoever acts at night ends:
//!
//! ```
//! let card = b"nondeterministic global g : [0..1] init 1;
//!     module process1 s1 : [0..1] init 0;
//!     [] s1=0 & (g=1) -> 1:(s1'=1) & (g'=0); endmodule";
//! let night = open_panel::show_to_vec(card, &[0, 1])?;
//! assert_eq!(
//!     night,
//!     b"nondeterministic\nseats 1 enabled 1\ncounts 1 0\nshared 1\nchoice 1\nmove 0 1 277200 0\n"
//! );
//! assert_eq!(open_panel::first_move(card, &[0, 0]), Ok(None));
//! assert_eq!(open_panel::first_move(card, &[0]), Err(open_panel::Refusal::SeatCount));
//! # Ok::<(), open_panel::Refusal>(())
//! ```

mod deck;
mod library;
mod odds;
mod refusal;
pub mod stack;

pub use deck::{
    add, add_to_vec, convert, convert_to_vec, find, find_with, judge_deck, locate, locate_with,
    mend, mend_to_vecs, tidy, tidy_vec, write_deck, write_deck_to_vec, Mended, Part, DECK_BYTES,
    DECK_CARDS, LIST_ROOM,
};
pub use odds::{odds, odds_in_own_rows, Aim, CERTAIN, ODDS_ROW, ODDS_STEPS};
pub use refusal::Refusal;

use deck::RawPart;

/// Longest card, in bytes.
pub const CARD_BYTES: usize = 16_384;
/// Longest question, in bytes.
pub const QUESTION_BYTES: usize = 16_384;
/// Most seats at a table. A seating has a byte more where the card shares a number.
pub const SEATS: usize = 16;
/// Highest state of a seat on any card, and highest value of a shared number.
pub const TOP_STATE: u8 = 7;
/// Highest public class of a state.
pub const TOP_CLASS: u8 = 7;
/// A weight of one, as panels show it.
pub const UNIT: u32 = 277_200;
/// A room in which every written card fits.
pub const WRITE_ROOM: usize = 85_481;
/// A room in which every reduced program fits.
pub const REDUCE_ROOM: usize = 392_972;
/// A room in which every panel fits.
pub const SHOW_ROOM: usize = 5_774;
/// A room in which all that a spectator sees fits.
pub const WATCH_ROOM: usize = 25;

/// What the library answers: number 0 and a length, yes or no as 1 or 0, a statement, or a chance; or a refusal and its place.
#[repr(C)]
struct Answer {
    number: u8,
    value: usize,
}

// C hands back a larger struct otherwise than the library does, on some processors.
const _: () = assert!(size_of::<Answer>() <= 16);

impl Answer {
    fn into_result(self) -> Result<usize, Refusal> {
        match self.number {
            0 => Ok(self.value),
            number => {
                Err(Refusal::new(number, self.value).expect("the library has no other refusals"))
            }
        }
    }
}

/// The version of the library that is linked; this crate's own is that of the header that it was written for.
pub fn version() -> &'static str {
    library::version()
}

/// Says whether a card is taken. Refusals: 1 to 7 and 17.
pub fn judge(card: &[u8]) -> Result<(), Refusal> {
    let length = library::judge(card).into_result()?;
    assert_eq!(length, 0, "the library judges without a text");
    Ok(())
}

/// Puts the card's one written form into a lent room. Refusals: 1 to 7 and 17, then 10.
pub fn write(card: &[u8], room: &mut [u8]) -> Result<usize, Refusal> {
    library::write(card, room).into_result()
}

/// Puts the reduced program, counters in place of seats, into a lent room. Refusals: 1 to 7 and 17, then 10.
pub fn reduce(card: &[u8], room: &mut [u8]) -> Result<usize, Refusal> {
    library::reduce(card, room).into_result()
}

/// Puts the panel of a seating, a state for each seat and behind them the shared number where the card has one, into a lent room.
/// Refusals: 1 to 7 and 17, then 8 to 10.
pub fn show(card: &[u8], seats: &[u8], room: &mut [u8]) -> Result<usize, Refusal> {
    library::show(card, seats, room).into_result()
}

/// Puts what a spectator sees of a seating into a lent room: the line `classes` and how many seats are in each public class, 0 to
/// [`TOP_CLASS`]. The list has the class of each state of the card. A shared number is judged with the seats, and not seen.
/// Refusals: 1 to 7 and 17, then 8 and 9, 13, then 10.
///
/// ```
/// let card = b"nondeterministic module process1 s1 : [0..1] init 0;
///     [] s1=0 -> 1:(s1'=1); endmodule";
/// let mut room = [0; open_panel::WATCH_ROOM];
/// let length = open_panel::watch(card, &[1], &[0, 3], &mut room)?;
/// assert_eq!(&room[..length], b"classes 0 0 0 1 0 0 0 0\n");
/// # Ok::<(), open_panel::Refusal>(())
/// ```
pub fn watch(card: &[u8], seats: &[u8], classes: &[u8], room: &mut [u8]) -> Result<usize, Refusal> {
    library::watch(card, seats, classes, room).into_result()
}

/// Says whether a question holds at a seating. It is an expression of groups of all seats, such as
/// `!(s1=0 | s2=0)`, with `((s1=0 & s2!=0) | (s1!=0 & s2=0))` for exactly one, and on a card that shares a number of
/// tests of that, such as `(g!=1)`. Refusals: 1 to 7 and 17, 21 to 26, then 8 and 9.
///
/// ```
/// let card = b"nondeterministic module process1 s1 : [0..1] init 0;
///     [] s1=0 -> 1:(s1'=1); endmodule";
/// assert_eq!(open_panel::ask(card, b"(s1=1)", &[0]), Ok(false));
/// assert_eq!(open_panel::ask(card, b"!(s1=1)", &[0]), Ok(true));
/// ```
pub fn ask(card: &[u8], question: &[u8], seats: &[u8]) -> Result<bool, Refusal> {
    match library::ask(card, question, seats).into_result()? {
        0 => Ok(false),
        1 => Ok(true),
        other => panic!("the library answers yes or no, and not {other}"),
    }
}

/// Says which statement is the first on the card, from 1, that some seat may take; none if nobody can move.
/// Refusals: 1 to 7 and 17, then 8 and 9.
///
/// ```
/// let card = b"nondeterministic module process1 s1 : [0..1] init 0;
///     [] s1=0 -> 1:(s1'=1); endmodule";
/// assert_eq!(open_panel::first_move(card, &[0]), Ok(Some(1)));
/// assert_eq!(open_panel::first_move(card, &[1]), Ok(None));
/// ```
pub fn first_move(card: &[u8], seats: &[u8]) -> Result<Option<usize>, Refusal> {
    match library::first_move(card, seats).into_result()? {
        0 => Ok(None),
        statement => Ok(Some(statement)),
    }
}

/// The card's one written form. Refusals: 1 to 7 and 17.
pub fn write_to_vec(card: &[u8]) -> Result<Vec<u8>, Refusal> {
    in_own_room(WRITE_ROOM, |room| write(card, room))
}

/// The reduced program. Refusals: 1 to 7 and 17.
pub fn reduce_to_vec(card: &[u8]) -> Result<Vec<u8>, Refusal> {
    in_own_room(REDUCE_ROOM, |room| reduce(card, room))
}

/// The panel of a seating. Refusals: 1 to 7 and 17, then 8 and 9.
pub fn show_to_vec(card: &[u8], seats: &[u8]) -> Result<Vec<u8>, Refusal> {
    in_own_room(SHOW_ROOM, |room| show(card, seats, room))
}

/// What a spectator sees of a seating. Refusals: 1 to 7 and 17, then 8 and 9, then 13.
pub fn watch_to_vec(card: &[u8], seats: &[u8], classes: &[u8]) -> Result<Vec<u8>, Refusal> {
    in_own_room(WATCH_ROOM, |room| watch(card, seats, classes, room))
}

/// Lends a room that is always enough, and keeps of it what the text takes.
fn in_own_room(
    enough: usize,
    entry: impl FnOnce(&mut [u8]) -> Result<usize, Refusal>,
) -> Result<Vec<u8>, Refusal> {
    let mut text = vec![0; enough];
    let length = entry(&mut text)?;
    text.truncate(length);
    text.shrink_to_fit();
    Ok(text)
}
