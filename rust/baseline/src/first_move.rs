//! Whether anyone is able to move, without making a panel.

use crate::card::Card;
use crate::read::read_into;
use crate::refusal::Refusal;

/// The place on the card, from one, of the first statement that some seat may
/// take; nothing if nobody can move.
pub fn first_move(card: &[u8], seats: &[u8]) -> Result<Option<usize>, Refusal> {
    let mut read = Card::BLANK;
    read_into(card, &mut read)?;
    let situation = read.situation(seats)?;
    let mut statements = read.statements().iter();
    let first = statements.position(|statement| read.may_be_taken(statement, &situation));
    Ok(first.map(|place| place + 1))
}
