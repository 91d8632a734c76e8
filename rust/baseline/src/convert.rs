//! Converting: a deck from the time when weights could be decimals, as one that has none on its live cards.

use crate::card::Card;
use crate::deck::{contents, field, Entry, COUNT_BYTES, ENTRY_BYTES};
use crate::limits::{CARD_BYTES, DECK_BYTES, DECK_CARDS};
use crate::read::{read_by, Decimals, Weights};
use crate::refusal::{Refusal, NOT_CONVERTED, ROOM};
use crate::text::{length_of, put};
use crate::write::Written;

/// What stands for a body in the new deck.
#[derive(Clone, Copy)]
enum Body {
    /// The same bytes: it is withdrawn, or has no decimal.
    Same,
    /// The card's written form, of this length.
    Written(usize),
}

impl Body {
    /// What stands for an entry's body, if it can be converted. A withdrawn one is not read.
    fn of(entry: Entry, deck: &[u8]) -> Option<Body> {
        if !entry.is_live() {
            return Some(Body::Same);
        }
        let mut read = Card::BLANK;
        match read_by(Weights::Old, entry.body(deck), &mut read).ok()? {
            Decimals::Absent => Some(Body::Same),
            Decimals::Present => {
                let length = length_of(&Written(&read));
                (length <= CARD_BYTES).then_some(Body::Written(length))
            }
        }
    }

    /// How many bytes it takes for an entry.
    fn length(self, entry: Entry) -> usize {
        match self {
            Body::Same => entry.length,
            Body::Written(length) => length,
        }
    }

    /// Puts it into just as many bytes.
    fn put(self, entry: Entry, deck: &[u8], room: &mut [u8]) {
        match self {
            Body::Same => room.copy_from_slice(entry.body(deck)),
            Body::Written(_) => {
                let mut read = Card::BLANK;
                let again = read_by(Weights::Old, entry.body(deck), &mut read);
                debug_assert!(again.is_ok());
                put(&Written(&read), room);
            }
        }
    }
}

/// Converts a deck into a lent room. Nothing is written before it is known that all of it can be.
pub fn convert_into(deck: &[u8], room: &mut [u8]) -> Result<usize, Refusal> {
    let entries = contents(deck)?;
    let contents_end = COUNT_BYTES + entries.as_flattened().len();

    let mut bodies = [Body::Same; DECK_CARDS];
    let mut length = contents_end;
    for (body, entry) in bodies.iter_mut().zip(entries) {
        let entry = Entry::new(entry);
        let not_converted = Refusal::new(NOT_CONVERTED, entry.number.into());
        *body = Body::of(entry, deck).ok_or(not_converted)?;
        length += body.length(entry);
        if length > DECK_BYTES {
            return Err(not_converted);
        }
    }
    let Some(converted) = room.get_mut(..length) else {
        return Err(Refusal::new(ROOM, length));
    };

    let (head, mut behind) = converted.split_at_mut(contents_end);
    head.copy_from_slice(&deck[..contents_end]);
    let (heads, _) = head[COUNT_BYTES..].as_chunks_mut::<ENTRY_BYTES>();
    let mut offset = contents_end;
    for ((head, entry), body) in heads.iter_mut().zip(entries).zip(bodies) {
        let entry = Entry::new(entry);
        let length = body.length(entry);
        head[field::OFFSET..field::LENGTH].copy_from_slice(&(offset as u16).to_le_bytes());
        head[field::LENGTH..field::FLAG].copy_from_slice(&(length as u16).to_le_bytes());
        let (here, further) = behind.split_at_mut(length);
        body.put(entry, deck, here);
        behind = further;
        offset += length;
    }
    Ok(length)
}

/// A converted deck.
pub fn convert(deck: &[u8]) -> Result<Vec<u8>, Refusal> {
    let mut room = vec![0; DECK_BYTES];
    let length = convert_into(deck, &mut room)?;
    room.truncate(length);
    Ok(room)
}
