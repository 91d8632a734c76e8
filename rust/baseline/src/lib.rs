//! Document 01 as an ordinary Rust program: rule cards are read, written,
//! reduced to counters, and shown as the panel of a seating; and those requests
//! of document 02 that have landed: questions about a seating are answered,
//! cards are found in decks, a table where nobody can move has a step, a
//! spectator sees how many seats are in each public class, weights may be
//! elevenths, one may ask whether anyone can move, and how likely a question
//! becomes true within some steps, damaged decks are mended, a card may have a
//! number that all seats share, no weight is a decimal any more, for which decks
//! are converted, and decks are tidied where they stand, and a card is added to
//! them there.
//!
//! It was written from the documents alone, so that a slip in it and a slip in
//! the verified library are unlikely to be the same one; `compare` runs both on
//! the same inputs. It is also meant to be fast: `bench` measures the library
//! against it. The entries use no heap, but for the odds, and go once through a
//! card's bytes, and at most twice through a question's.
//!
//! ```
//! let card = b"nondeterministic module process1 s1 : [0..1] init 0;
//!     [] s1=0 -> 1:(s1'=1); endmodule";
//! let mut room = [0; 100];
//! let length = baseline::panel(card, &[0], &mut room).unwrap();
//! assert_eq!(
//!     &room[..length],
//!     b"nondeterministic\nseats 1 enabled 1\ncounts 1 0\nchoice 1\nmove 0 1 277200\n"
//! );
//! ```

#![forbid(unsafe_code)]

mod card;
mod convert;
mod counter;
mod deck;
mod expression;
mod first_move;
pub mod limits;
mod mend;
mod odds;
mod panel;
mod program;
mod question;
mod read;
mod reduce;
pub mod refusal;
mod scan;
mod text;
mod tidy;
mod watch;
mod write;

pub use card::{Branch, Card, Group, Mode, Node, Shared, SharedTest, Statement};
pub use convert::{convert, convert_into};
pub use deck::{find, find_with, judge_deck, locate, locate_with, write_deck, Part};
pub use first_move::first_move;
pub use mend::{mend, mend_into, Mended};
pub use odds::{odds, Aim};
pub use panel::panel;
pub use program::program;
pub use question::ask;
pub use read::{judge, judge_old};
pub use reduce::reduce;
pub use refusal::Refusal;
pub use tidy::{add, tidy};
pub use watch::watch;
pub use write::{write, write_read};
