//! Decks: cards in a box, behind a table of contents. No card is read here; `mend`, `convert` and `tidy` do that.

use crate::limits::{DECK_BYTES, DECK_CARDS};
use crate::refusal::{Refusal, DECK, IN_EXPANSION, NO_LIVE_CARD, ROOM};

/// Bytes before the contents: the number of cards.
pub(crate) const COUNT_BYTES: usize = 1;
/// Bytes of an entry of the contents.
pub(crate) const ENTRY_BYTES: usize = 8;

/// Where an entry's fields start within it.
pub(crate) mod field {
    pub(crate) const NUMBER: usize = 0;
    pub(crate) const OFFSET: usize = 2;
    pub(crate) const LENGTH: usize = 4;
    pub(crate) const FLAG: usize = 6;
    pub(crate) const ZERO: usize = 7;
}

/// A part of one of two decks.
#[derive(Clone, Copy, PartialEq, Eq, Debug)]
pub struct Part {
    /// It lies in the expansion, and not in the base.
    pub in_expansion: bool,
    /// Its first byte.
    pub offset: usize,
    /// How many bytes it has.
    pub length: usize,
}

impl Part {
    fn of<'d>(self, base: &'d [u8], expansion: &'d [u8]) -> &'d [u8] {
        let deck = if self.in_expansion { expansion } else { base };
        &deck[self.offset..self.offset + self.length]
    }
}

/// Says whether a deck is well formed.
pub fn judge_deck(deck: &[u8]) -> Result<(), Refusal> {
    contents(deck).map(|_| ())
}

/// The live card of a number, as it stands in a deck.
pub fn find(deck: &[u8], number: u16) -> Result<&[u8], Refusal> {
    locate(deck, number).map(|part| part.of(deck, &[]))
}

/// Where a deck has the live card of a number.
pub fn locate(deck: &[u8], number: u16) -> Result<Part, Refusal> {
    let entry = live(contents(deck)?, number);
    entry.map(|entry| entry.part(false)).ok_or(NOWHERE)
}

/// The live card of a number, as it stands in the expansion or else in the base.
pub fn find_with<'d>(
    base: &'d [u8],
    expansion: &'d [u8],
    number: u16,
) -> Result<&'d [u8], Refusal> {
    locate_with(base, expansion, number).map(|part| part.of(base, expansion))
}

/// Where the expansion, or else the base, has the live card of a number.
pub fn locate_with(base: &[u8], expansion: &[u8], number: u16) -> Result<Part, Refusal> {
    let base = contents(base)?;
    let expansion = contents(expansion)
        .map_err(|refusal| Refusal::new(refusal.number, IN_EXPANSION + refusal.place))?;
    let in_expansion = live(expansion, number).map(|entry| entry.part(true));
    let in_base = || live(base, number).map(|entry| entry.part(false));
    in_expansion.or_else(in_base).ok_or(NOWHERE)
}

/// Writes a deck without gaps into a lent room: from its contents without the
/// number of cards, whose offsets are not looked at, and its bodies joined.
pub fn write_deck(contents: &[u8], bodies: &[u8], room: &mut [u8]) -> Result<usize, Refusal> {
    let (entries, rest) = contents.as_chunks::<ENTRY_BYTES>();
    let nowhere = Refusal::new(DECK, contents.len());
    if !rest.is_empty() || !(1..=DECK_CARDS).contains(&entries.len()) {
        return Err(nowhere);
    }
    let mut last_number = None;
    let mut bodies_length = 0;
    for (place, entry) in (0..).step_by(ENTRY_BYTES).zip(entries) {
        let entry = Entry::new(entry);
        let wrong = entry.wrong_number(last_number).or(entry.wrong_end());
        if let Some(field) = wrong {
            return Err(Refusal::new(DECK, place + field));
        }
        last_number = Some(entry.number);
        bodies_length += entry.length;
    }
    let length = COUNT_BYTES + contents.len() + bodies_length;
    if bodies_length != bodies.len() || length > DECK_BYTES {
        return Err(nowhere);
    }
    let Some(deck) = room.get_mut(..length) else {
        return Err(Refusal::new(ROOM, length));
    };
    let (head, behind) = deck.split_at_mut(COUNT_BYTES + contents.len());
    head[0] = entries.len() as u8;
    head[COUNT_BYTES..].copy_from_slice(contents);
    behind.copy_from_slice(bodies);
    let mut offset = head.len() as u16;
    for entry in head[COUNT_BYTES..].as_chunks_mut::<ENTRY_BYTES>().0 {
        entry[field::OFFSET..field::LENGTH].copy_from_slice(&offset.to_le_bytes());
        offset += Entry::new(entry).length as u16;
    }
    Ok(length)
}

/// The refusal where no deck has a live card of the number.
const NOWHERE: Refusal = Refusal::new(NO_LIVE_CARD, 0);

/// An entry of the contents.
#[derive(Clone, Copy)]
pub(crate) struct Entry {
    pub(crate) number: u16,
    pub(crate) offset: usize,
    pub(crate) length: usize,
    flag: u8,
    zero: u8,
}

impl Entry {
    pub(crate) fn new(bytes: &[u8; ENTRY_BYTES]) -> Entry {
        let two = |field: usize| u16::from_le_bytes([bytes[field], bytes[field + 1]]);
        Entry {
            number: two(field::NUMBER),
            offset: two(field::OFFSET).into(),
            length: two(field::LENGTH).into(),
            flag: bytes[field::FLAG],
            zero: bytes[field::ZERO],
        }
    }

    pub(crate) fn is_live(self) -> bool {
        self.flag == 1
    }

    /// Its body, in a deck within which it lies.
    pub(crate) fn body(self, deck: &[u8]) -> &[u8] {
        &deck[self.offset..self.offset + self.length]
    }

    fn part(self, in_expansion: bool) -> Part {
        Part {
            in_expansion,
            offset: self.offset,
            length: self.length,
        }
    }

    /// The card number's field, if it does not rise.
    pub(crate) fn wrong_number(self, last: Option<u16>) -> Option<usize> {
        let rises = last.is_none_or(|last| self.number > last);
        (!rises).then_some(field::NUMBER)
    }

    /// The first wrong field of the two that say where the body lies, behind the last one and within the deck.
    pub(crate) fn wrong_range(self, last_end: usize, deck_length: usize) -> Option<usize> {
        if self.offset < last_end {
            Some(field::OFFSET)
        } else if self.offset + self.length > deck_length {
            Some(field::LENGTH)
        } else {
            None
        }
    }

    /// The first wrong field of the last two.
    pub(crate) fn wrong_end(self) -> Option<usize> {
        match (self.flag, self.zero) {
            (0 | 1, 0) => None,
            (0 | 1, _) => Some(field::ZERO),
            _ => Some(field::FLAG),
        }
    }
}

/// The entries of a deck, as many as it says and none of them judged; nothing if their number is wrong, they are cut short, or the deck is too long.
pub(crate) fn entries(deck: &[u8]) -> Option<&[[u8; ENTRY_BYTES]]> {
    let (&count, behind) = deck.split_first()?;
    let count = usize::from(count);
    let (entries, _) = behind.as_chunks();
    let right = (1..=DECK_CARDS).contains(&count) && deck.len() <= DECK_BYTES;
    entries.get(..count).filter(|_| right)
}

/// The contents of a deck that is well formed.
pub(crate) fn contents(deck: &[u8]) -> Result<&[[u8; ENTRY_BYTES]], Refusal> {
    let malformed = |place: usize| Refusal::new(DECK, place);
    let entries = entries(deck).ok_or(malformed(0))?;
    let mut last_number = None;
    let mut last_end = COUNT_BYTES + entries.as_flattened().len();
    for (place, entry) in (COUNT_BYTES..).step_by(ENTRY_BYTES).zip(entries) {
        let entry = Entry::new(entry);
        let wrong = entry
            .wrong_number(last_number)
            .or_else(|| entry.wrong_range(last_end, deck.len()))
            .or_else(|| entry.wrong_end());
        if let Some(field) = wrong {
            return Err(malformed(place + field));
        }
        last_number = Some(entry.number);
        last_end = entry.offset + entry.length;
    }
    Ok(entries)
}

/// The entry of a number, if it is live. Numbers rise, so it is where they cross it.
fn live(entries: &[[u8; ENTRY_BYTES]], number: u16) -> Option<Entry> {
    let found = entries.binary_search_by_key(&number, |entry| Entry::new(entry).number);
    let entry = Entry::new(&entries[found.ok()?]);
    entry.is_live().then_some(entry)
}
