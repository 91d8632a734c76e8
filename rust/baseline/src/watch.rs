//! What a spectator sees of a seating: how many seats are in each public class.

use crate::card::Card;
use crate::limits::{CLASSES, STATES};
use crate::read::read_into;
use crate::refusal::{Refusal, CLASS_LIST};
use crate::text::{print_into, Print, Text};

/// Writes what a spectator sees into a lent room; the list gives each state its class.
pub fn watch(card: &[u8], seats: &[u8], list: &[u8], room: &mut [u8]) -> Result<usize, Refusal> {
    let mut read = Card::BLANK;
    read_into(card, &mut read)?;
    // The shared number is judged with the seats, and not seen.
    let counts = read.situation(seats)?.counts;
    print_into(&ClassCounts::new(&read, &counts, list)?, room)
}

/// How many seats are in each class.
struct ClassCounts([u8; CLASSES]);

impl ClassCounts {
    fn new(card: &Card, counts: &[u8; STATES], list: &[u8]) -> Result<Self, Refusal> {
        if list.len() != usize::from(card.top) + 1 {
            return Err(Refusal::new(CLASS_LIST, list.len()));
        }
        let mut classes = [0; CLASSES];
        for (state, (&class, count)) in list.iter().zip(counts).enumerate() {
            match classes.get_mut(usize::from(class)) {
                Some(seats) => *seats += count,
                None => return Err(Refusal::new(CLASS_LIST, state)),
            }
        }
        Ok(ClassCounts(classes))
    }
}

impl Print for ClassCounts {
    fn most(&self) -> usize {
        // One class at most has ten seats or more.
        const { assert!(crate::limits::SEATS < 20) };
        "classes 16 0 0 0 0 0 0 0\n".len()
    }

    fn print<T: Text>(&self, text: &mut T) {
        let ClassCounts(classes) = self;
        text.bytes(b"classes");
        for &seats in classes {
            text.byte(b' ');
            text.number(seats.into());
        }
        text.byte(b'\n');
    }
}
