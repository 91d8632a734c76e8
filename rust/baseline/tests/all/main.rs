//! The tests of the independent implementation, in one program: twelve would each be linked.

mod boxes;
mod cards;
mod convert;
mod decimals;
mod decks;
mod edges;
mod first_move;
mod mend;
mod odds;
mod questions;
mod shared;
mod table;
mod tidy;
mod vectors;
mod watch;
