//! Tidying: a deck without its withdrawn cards and without gaps, within its own bytes; and a card added to it there.

use crate::card::Card;
use crate::deck::{contents, field, Entry, COUNT_BYTES, ENTRY_BYTES};
use crate::limits::DECK_CARDS;
use crate::read::read_into;
use crate::refusal::{Refusal, NOT_ADDED, NO_LIVE_CARD, ROOM};

/// A card of the tidied deck.
#[derive(Clone, Copy)]
struct Kept {
    number: u16,
    length: u16,
    /// Where its body begins in the deck as it came; nothing if the card is added.
    from: Option<u16>,
}

impl Kept {
    const NONE: Kept = Kept {
        number: 0,
        length: 0,
        from: None,
    };

    fn length(&self) -> usize {
        self.length.into()
    }
}

/// The cards of the tidied deck, in order.
struct Tidied {
    cards: [Kept; DECK_CARDS],
    count: usize,
    bodies_length: usize,
}

impl Tidied {
    /// The live cards of these entries, of which there has to be one.
    fn new(entries: &[[u8; ENTRY_BYTES]]) -> Result<Tidied, Refusal> {
        let mut tidied = Tidied {
            cards: [Kept::NONE; DECK_CARDS],
            count: 0,
            bodies_length: 0,
        };
        let entries = entries.iter().map(Entry::new);
        for entry in entries.filter(|entry| entry.is_live()) {
            tidied.cards[tidied.count] = Kept {
                number: entry.number,
                length: entry.length as u16,
                from: Some(entry.offset as u16),
            };
            tidied.count += 1;
            tidied.bodies_length += entry.length;
        }
        match tidied.count {
            0 => Err(Refusal::new(NO_LIVE_CARD, 0)),
            _ => Ok(tidied),
        }
    }

    fn cards(&self) -> &[Kept] {
        &self.cards[..self.count]
    }

    /// Makes room for one more card, whose number none of them has, and tells which one it is.
    fn insert(&mut self, number: u16, length: u16) -> usize {
        let place = self.cards().partition_point(|card| card.number < number);
        self.cards.copy_within(place..self.count, place + 1);
        self.cards[place] = Kept {
            number,
            length,
            from: None,
        };
        self.count += 1;
        self.bodies_length += usize::from(length);
        place
    }

    fn contents_end(&self) -> usize {
        COUNT_BYTES + self.count * ENTRY_BYTES
    }

    fn length(&self) -> usize {
        self.contents_end() + self.bodies_length
    }

    /// Where the body of one of them begins in the tidied deck.
    fn offset(&self, place: usize) -> usize {
        let before = self.cards()[..place].iter().map(Kept::length);
        self.contents_end() + before.sum::<usize>()
    }

    /// Tidies the deck that they came from, whose own bytes are enough for it. An added body is left to be filled in.
    fn put(&self, deck: &mut [u8]) {
        // The bodies overlap neither as they came nor as they end, and keep their order. So those that go to the left go from first
        // to last, and then those that go to the right from last to first: none is put where one stands that has still to go.
        let mut to = self.contents_end();
        for card in self.cards() {
            if let Some(from) = card.from.map(usize::from).filter(|from| to < *from) {
                deck.copy_within(from..from + card.length(), to);
            }
            to += card.length();
        }
        for card in self.cards().iter().rev() {
            to -= card.length();
            if let Some(from) = card.from.map(usize::from).filter(|from| to > *from) {
                deck.copy_within(from..from + card.length(), to);
            }
        }
        deck[0] = self.count as u8;
        let (entries, _) = deck[COUNT_BYTES..].as_chunks_mut::<ENTRY_BYTES>();
        for (entry, card) in entries.iter_mut().zip(self.cards()) {
            let fields = [
                (field::NUMBER, card.number),
                (field::OFFSET, to as u16),
                (field::LENGTH, card.length),
            ];
            for (field, number) in fields {
                entry[field..field + 2].copy_from_slice(&number.to_le_bytes());
            }
            entry[field::FLAG] = 1;
            entry[field::ZERO] = 0;
            to += card.length();
        }
        deck[to..].fill(0);
    }
}

/// Tidies a deck where it stands: all that is lent is the deck, and what it does not use at its end is a gap. Its new length is told,
/// and the bytes behind that are zero.
pub fn tidy(deck: &mut [u8]) -> Result<usize, Refusal> {
    let tidied = Tidied::new(contents(deck)?)?;
    tidied.put(deck);
    Ok(tidied.length())
}

/// Tidies a deck where it stands and puts a card into it, live, at its place by number.
pub fn add(deck: &mut [u8], number: u16, card: &[u8]) -> Result<usize, Refusal> {
    let entries = contents(deck)?;
    let mut tidied = Tidied::new(entries)?;
    let mut read = Card::BLANK;
    read_into(card, &mut read)?;
    let is_live_already = |entry: &[u8; ENTRY_BYTES]| {
        let entry = Entry::new(entry);
        entry.is_live() && entry.number == number
    };
    if let Some(place) = entries.iter().position(is_live_already) {
        return Err(Refusal::new(NOT_ADDED, COUNT_BYTES + place * ENTRY_BYTES));
    }
    if tidied.count == DECK_CARDS {
        return Err(Refusal::new(NOT_ADDED, 0));
    }
    // A card that is accepted has no more bytes than two can tell.
    let place = tidied.insert(number, card.len() as u16);
    let length = tidied.length();
    if length > deck.len() {
        return Err(Refusal::new(ROOM, length));
    }
    tidied.put(deck);
    deck[tidied.offset(place)..][..card.len()].copy_from_slice(card);
    Ok(length)
}
