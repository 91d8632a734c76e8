//! The verified library against the baseline.
//!
//! Cards and seatings are made from a seed: valid ones over the whole range of
//! the limits, ones that just pass a limit, and damaged ones. Both sides are
//! asked about each, in rooms that just fit, that are one byte short and that
//! are larger, and some in the long rooms that a text is put into without being
//! measured first; answers, texts and every byte around them have to agree. On
//! small tables both are held to the steps of the seats themselves
//! ([`by_seats`]), which no counting has touched. About each table
//! [`questions`] are asked, made and damaged in the same way, and those that are
//! answered are held to the seats too. [`spectators`] with good lists of classes
//! and wrong ones watch each table, and it is asked who can move first
//! ([`first_moves`]). [`odds`] are reckoned and held to [`exact`] chances, on
//! small tables to those of seats told apart. Cards are looked for in generated [`decks`],
//! sound and malformed, and decks are written; [`damaged_decks`] are mended,
//! [`old_decks`] converted, and [`lent_decks`] tidied, and a card added to them. Many cards have a number that their seats share, and some
//! use it wrongly ([`shared`]); and some have [`decimals`].

pub mod big;
pub mod by_seats;
pub mod cards;
pub mod check;
pub mod converting;
pub mod damage;
pub mod damaged_decks;
pub mod decimals;
pub mod deck_check;
pub mod decks;
pub mod exact;
pub mod extremes;
pub mod first_moves;
pub mod inputs;
pub mod lent_decks;
pub mod marks;
pub mod mending;
pub mod model;
pub mod odds;
pub mod old_decks;
pub mod questions;
pub mod random;
pub mod reduced;
pub mod shared;
pub mod spectators;
mod surrounded;
pub mod tally;
pub mod tidying;
pub mod weights;
