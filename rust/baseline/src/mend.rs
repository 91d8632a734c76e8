//! Mending: what a damaged deck still has, as a deck of its own, and a list of what became of each entry.

use crate::card::Card;
use crate::deck::{self, field, Entry, COUNT_BYTES, ENTRY_BYTES};
use crate::limits::{DECK_BYTES, DECK_CARDS, LIST_BYTES};
use crate::read::read_into;
use crate::refusal::{Refusal, DECK, ROOM};

/// How long a mended deck and its list are.
#[derive(Clone, Copy, PartialEq, Eq, Debug)]
pub struct Mended {
    /// Bytes of the deck.
    pub deck: usize,
    /// Bytes of the list.
    pub list: usize,
}

/// What becomes of an entry.
#[derive(Clone, Copy)]
enum Fate {
    Kept,
    /// The first of the four rules that it breaks.
    Dropped(Rule),
}

/// What an entry has to keep to, in the order in which it is judged.
#[derive(Clone, Copy)]
enum Rule {
    /// The flag is 0 or 1, and the last byte 0.
    Ending,
    /// The number rises past that of the last entry kept.
    Number,
    /// The body lies within the deck, behind the contents and behind the last body kept.
    Range,
    /// The card, if it is live, is accepted.
    Card,
}

impl Fate {
    /// Its line of the list.
    fn line(self) -> &'static [u8] {
        match self {
            Fate::Kept => b"kept\n",
            Fate::Dropped(Rule::Ending) => b"dropped 1\n",
            Fate::Dropped(Rule::Number) => b"dropped 2\n",
            Fate::Dropped(Rule::Range) => b"dropped 3\n",
            Fate::Dropped(Rule::Card) => b"dropped 4\n",
        }
    }
}

/// The first rule that an entry breaks, behind what was kept so far.
fn broken(entry: Entry, deck: &[u8], last_number: Option<u16>, last_end: usize) -> Option<Rule> {
    if entry.wrong_end().is_some() {
        return Some(Rule::Ending);
    }
    if entry.wrong_number(last_number).is_some() {
        return Some(Rule::Number);
    }
    if entry.wrong_range(last_end, deck.len()).is_some() {
        return Some(Rule::Range);
    }
    if !entry.is_live() {
        return None;
    }
    let mut read = Card::BLANK;
    let judged = read_into(entry.body(deck), &mut read);
    judged.is_err().then_some(Rule::Card)
}

/// Mends a deck into two lent rooms. Nothing is written if either is too short.
pub fn mend_into(deck: &[u8], room: &mut [u8], list: &mut [u8]) -> Result<Mended, Refusal> {
    let past_mending = Refusal::new(DECK, 0);
    let entries = deck::entries(deck).ok_or(past_mending)?;

    let mut fates = [Fate::Kept; DECK_CARDS];
    let mut last_number = None;
    let mut last_end = COUNT_BYTES + entries.as_flattened().len();
    let (mut kept, mut bodies_length, mut list_length) = (0, 0, 0);
    for (fate, entry) in fates.iter_mut().zip(entries) {
        let entry = Entry::new(entry);
        match broken(entry, deck, last_number, last_end) {
            Some(rule) => *fate = Fate::Dropped(rule),
            None => {
                last_number = Some(entry.number);
                last_end = entry.offset + entry.length;
                kept += 1;
                bodies_length += entry.length;
            }
        }
        list_length += fate.line().len();
    }
    if kept == 0 {
        return Err(past_mending);
    }
    let contents_end = COUNT_BYTES + kept * ENTRY_BYTES;
    let length = contents_end + bodies_length;
    let Some(mended) = room.get_mut(..length) else {
        return Err(Refusal::new(ROOM, length));
    };
    let Some(mut lines) = list.get_mut(..list_length) else {
        return Err(Refusal::new(ROOM, list_length));
    };

    mended[0] = kept as u8;
    let (mut place, mut offset) = (COUNT_BYTES, contents_end);
    for (fate, bytes) in fates.iter().zip(entries) {
        let (line, behind) = lines.split_at_mut(fate.line().len());
        line.copy_from_slice(fate.line());
        lines = behind;
        if let Fate::Kept = fate {
            let entry = Entry::new(bytes);
            let written = &mut mended[place..place + ENTRY_BYTES];
            written.copy_from_slice(bytes);
            written[field::OFFSET..field::LENGTH].copy_from_slice(&(offset as u16).to_le_bytes());
            mended[offset..offset + entry.length].copy_from_slice(entry.body(deck));
            place += ENTRY_BYTES;
            offset += entry.length;
        }
    }
    Ok(Mended {
        deck: length,
        list: list_length,
    })
}

/// A mended deck, and the list of what became of each entry.
pub fn mend(deck: &[u8]) -> Result<(Vec<u8>, Vec<u8>), Refusal> {
    // No more is kept than there was.
    let mut room = vec![0; deck.len().min(DECK_BYTES)];
    let mut list = vec![0; LIST_BYTES];
    let mended = mend_into(deck, &mut room, &mut list)?;
    room.truncate(mended.deck);
    list.truncate(mended.list);
    Ok((room, list))
}
