//! Odds after several steps.

use crate::{library, Refusal};

/// How many numbers a lent row has, which is for how many count vectors odds are reckoned at most; on a card that shares a number,
/// for how many pairs of a vector and a value.
pub const ODDS_ROW: usize = 512;
/// Most steps of odds.
pub const ODDS_STEPS: usize = 32;
/// A chance of one, in millionths.
pub const CERTAIN: u32 = 1_000_000;

/// What is looked for among the choices of a nondeterministic card. On a probabilistic one it makes no difference.
#[derive(Clone, Copy, PartialEq, Eq, Hash, Debug)]
pub enum Aim {
    /// The largest chance.
    Largest,
    /// The smallest chance.
    Smallest,
}

/// The chance that a question becomes true within so many steps from a seating, in millionths: never more than it is, and less
/// by one for each step at most. Refusals: 1 to 7 and 17, 21 to 26, 8, 9, then 14 to 16.
///
/// The rows are lent, [`ODDS_ROW`] numbers each. Afterwards the first has the chance from each count vector, ordered by how many
/// seats are in state 0, then in state 1 and so on, and last by the shared number; the second has the same for a step less, or
/// nothing but zeros if there is none; behind the last vector stand zeros. A refusal leaves both as they were.
///
/// ```
/// use open_panel::{Aim, ODDS_ROW};
/// let card = b"probabilistic module process1 s1 : [0..1] init 0;
///     [] s1=0 -> 1/2:(s1'=1) + 1/2:(s1'=0); endmodule";
/// let [mut first, mut second] = [[0; ODDS_ROW]; 2];
/// let chance = open_panel::odds(card, b"(s1=1)", &[0], 3, Aim::Largest, &mut first, &mut second);
/// assert_eq!(chance, Ok(875_000));
/// assert_eq!((first[1], second[1]), (875_000, 750_000));
/// ```
pub fn odds(
    card: &[u8],
    question: &[u8],
    seats: &[u8],
    steps: usize,
    aim: Aim,
    first: &mut [u32],
    second: &mut [u32],
) -> Result<u32, Refusal> {
    let largest = aim == Aim::Largest;
    let answer = library::odds(card, question, seats, steps, largest, first, second);
    let chance = answer.into_result()?;
    let chance = u32::try_from(chance)
        .ok()
        .filter(|chance| *chance <= CERTAIN);
    Ok(chance.expect("the library has no chance above one"))
}

/// The same chance, in rows of its own. Refusals: 1 to 7 and 17, 21 to 26, 8, 9, then 14 and 15.
pub fn odds_in_own_rows(
    card: &[u8],
    question: &[u8],
    seats: &[u8],
    steps: usize,
    aim: Aim,
) -> Result<u32, Refusal> {
    let [mut first, mut second] = [[0; ODDS_ROW]; 2];
    odds(card, question, seats, steps, aim, &mut first, &mut second)
}
