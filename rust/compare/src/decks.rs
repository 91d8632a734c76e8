//! Decks, and contents and bodies for the writer: sound ones of all sizes, and
//! ones with something wrong in each field.

use crate::random::Random;

/// Longest deck, in bytes.
pub const DECK_BYTES: usize = 65_535;
/// Most cards in a deck.
pub const DECK_CARDS: usize = 64;
/// Bytes of an entry.
pub const ENTRY_BYTES: usize = 8;

/// An entry of the contents.
#[derive(Clone, Copy)]
pub struct Entry {
    /// The card's number.
    pub number: u16,
    /// Where its body starts.
    pub offset: u16,
    /// How long its body is.
    pub length: u16,
    /// 1 if it is live, 0 if it is withdrawn.
    pub flag: u8,
    /// 0.
    pub zero: u8,
}

impl Entry {
    pub(crate) fn put(&self, bytes: &mut Vec<u8>) {
        for number in [self.number, self.offset, self.length] {
            bytes.extend(number.to_le_bytes());
        }
        bytes.extend([self.flag, self.zero]);
    }
}

/// What is wrong with a deck, or with what a deck is to be written from.
#[derive(Clone, Copy, PartialEq, Eq, Debug)]
pub enum Wrong {
    /// Nothing.
    Nothing,
    /// The number of cards.
    Count,
    /// It ends within its contents, or before them.
    Short,
    /// It has more bytes than a deck may have.
    Long,
    /// A card number does not rise.
    Number,
    /// An offset lies before the last end.
    Offset,
    /// A length, or an offset, leads past the deck.
    Length,
    /// A flag is neither 0 nor 1.
    Flag,
    /// A zero byte is another one.
    Zero,
    /// A few of these.
    Several,
    /// Any byte of the contents, or the deck is cut anywhere.
    Bytes,
}

impl Wrong {
    const ALL: [Wrong; 18] = [
        Wrong::Nothing,
        Wrong::Nothing,
        Wrong::Nothing,
        Wrong::Nothing,
        Wrong::Nothing,
        Wrong::Nothing,
        Wrong::Nothing,
        Wrong::Nothing,
        Wrong::Count,
        Wrong::Short,
        Wrong::Long,
        Wrong::Number,
        Wrong::Offset,
        Wrong::Length,
        Wrong::Flag,
        Wrong::Zero,
        Wrong::Several,
        Wrong::Bytes,
    ];
    /// Those of a field.
    pub(crate) const FIELDS: [Wrong; 5] = [
        Wrong::Number,
        Wrong::Offset,
        Wrong::Length,
        Wrong::Flag,
        Wrong::Zero,
    ];
}

/// A deck.
pub struct Deck {
    /// Its bytes.
    pub bytes: Vec<u8>,
    /// Its entries, before anything went wrong.
    pub entries: Vec<Entry>,
    /// What is wrong with it.
    pub wrong: Wrong,
}

/// How card numbers rise: from where on, and by how much at most. Decks of one numbering share numbers.
#[derive(Clone, Copy)]
pub struct Numbering(usize, usize);

impl Numbering {
    /// Any numbering.
    pub fn any(random: &mut Random) -> Numbering {
        let (first, step) =
            random.pick(&[(0, 1), (0, 2), (1, 3), (250, 5), (0, 1_000), (65_000, 8)]);
        Numbering(first, step)
    }
}

impl Deck {
    /// A deck of any kind.
    pub fn any(numbering: Numbering, random: &mut Random) -> Deck {
        let wrong = random.pick(&Wrong::ALL);
        Deck::new(wrong, numbering, random)
    }

    /// A deck with this wrong.
    pub fn new(wrong: Wrong, numbering: Numbering, random: &mut Random) -> Deck {
        let one_too_many = wrong == Wrong::Count && random.once_in(3);
        let count = if one_too_many {
            DECK_CARDS + 1
        } else {
            any_count(random)
        };
        let mut entries = numbered(count, numbering, random);
        let gaps = if random.once_in(2) { 4 } else { 0 };
        let mut end = 1 + ENTRY_BYTES * entries.len();
        for entry in &mut entries {
            entry.offset = (end + random.below(gaps + 1)) as u16;
            end = usize::from(entry.offset) + usize::from(entry.length);
        }
        let length = match random.below(16) {
            0 => DECK_BYTES,
            1..=8 => end,
            _ => end + random.between(1, 9),
        };
        if length == DECK_BYTES && random.once_in(2) {
            // The last body reaches the end of a deck that is as long as one may be.
            if let Some(last) = entries.last_mut() {
                last.length = (length - usize::from(last.offset)) as u16;
            }
        }
        let mut damaged = entries.clone();
        let times = match wrong {
            Wrong::Several => random.between(2, 3),
            _ => 1,
        };
        for _ in 0..times {
            let wrong = match wrong {
                Wrong::Several => random.pick(&Wrong::FIELDS),
                other => other,
            };
            damage(&mut damaged, wrong, length, random);
        }
        let mut bytes = vec![damaged.len() as u8];
        damaged.iter().for_each(|entry| entry.put(&mut bytes));
        let contents = bytes.len();
        let filling = random.next() as u8;
        bytes.extend((contents..length).map(|place| (place as u8).wrapping_mul(7) ^ filling));
        match wrong {
            Wrong::Count if !one_too_many => {
                let over = random.between(1, 40) as u8;
                bytes[0] = random.pick(&[0, 65, 66, 255, bytes[0].saturating_add(over)]);
            }
            Wrong::Short => bytes.truncate(random.below(contents)),
            Wrong::Long => bytes.resize(DECK_BYTES + random.pick(&[1, 1, 1, 2, 9_000]), filling),
            Wrong::Bytes if random.once_in(3) => bytes.truncate(random.below(bytes.len() + 1)),
            Wrong::Bytes => bytes[random.below(contents)] = random.next() as u8,
            _ => {}
        }
        Deck {
            bytes,
            entries,
            wrong,
        }
    }

    /// The live entry of a number, if the deck is sound.
    pub fn live(&self, number: u16) -> Option<&Entry> {
        let mut entries = self.entries.iter();
        entries.find(|entry| entry.number == number && entry.flag == 1)
    }

    /// A number of one of its cards, or close to one, or any.
    pub fn any_number(&self, random: &mut Random) -> u16 {
        let number = self.entries[random.below(self.entries.len())].number;
        match random.below(8) {
            0 => number.wrapping_add(1),
            1 => number ^ 256,
            2 => random.next() as u16,
            _ => number,
        }
    }
}

/// How many cards a deck has, mostly few.
fn any_count(random: &mut Random) -> usize {
    match random.below(12) {
        0 => DECK_CARDS,
        1 => random.between(1, DECK_CARDS),
        _ => random.between(1, 5),
    }
}

/// So many entries that rise, with lengths and flags; their offsets are any.
fn numbered(count: usize, Numbering(first, step): Numbering, random: &mut Random) -> Vec<Entry> {
    let mut next = first;
    let lengths = random.pick(&[0, 3, 20, 20, 300]);
    (0..count)
        .map(|_| {
            let number = next + random.below(step);
            next = number + 1;
            Entry {
                number: number as u16,
                offset: random.next() as u16,
                length: random.below(lengths + 1) as u16,
                flag: u8::from(!random.once_in(3)),
                zero: 0,
            }
        })
        .collect()
}

/// Puts a wrong into one of some entries, for a deck of this length.
pub(crate) fn damage(entries: &mut [Entry], wrong: Wrong, deck_length: usize, random: &mut Random) {
    let place = random.below(entries.len());
    let last = place.checked_sub(1).map(|place| entries[place]);
    let contents = 1 + ENTRY_BYTES * entries.len();
    let last_end = last.map_or(contents, |last| {
        usize::from(last.offset) + usize::from(last.length)
    });
    let entry = &mut entries[place];
    match wrong {
        Wrong::Number => match last {
            Some(last) => {
                entry.number = last.number.saturating_sub(random.pick(&[0, 0, 1, 300]));
            }
            // The first may be any number, but then the second does not rise.
            None => entry.number = u16::MAX,
        },
        Wrong::Offset => {
            let before = random.pick(&[1, 1, 1, 2, 300]).min(last_end);
            entry.offset = (last_end - before) as u16;
        }
        Wrong::Length => {
            let over = random.pick(&[1, 1, 1, 2, 300]);
            let left = deck_length.saturating_sub(entry.offset.into());
            match random.below(4) {
                0 => entry.length = u16::MAX,
                1 => entry.offset = (deck_length + over).min(DECK_BYTES) as u16,
                _ => entry.length = (left + over).min(DECK_BYTES) as u16,
            }
        }
        Wrong::Flag => entry.flag = random.pick(&[2, 2, 3, 128, 254, 255]),
        Wrong::Zero => entry.zero = random.pick(&[1, 1, 2, 128, 255]),
        _ => {}
    }
}

/// What is wrong with what a deck is to be written from.
#[derive(Clone, Copy, PartialEq, Eq, Debug)]
pub enum WrongParts {
    /// Nothing.
    Nothing,
    /// The number of entries, or one of them is not whole.
    Count,
    /// A card number does not rise.
    Number,
    /// A flag is neither 0 nor 1.
    Flag,
    /// A zero byte is another one.
    Zero,
    /// The bodies are longer or shorter than the lengths say.
    Bodies,
    /// The deck would be longer than one may be.
    Total,
}

impl WrongParts {
    /// All of them.
    pub const ALL: [WrongParts; 7] = [
        WrongParts::Nothing,
        WrongParts::Count,
        WrongParts::Number,
        WrongParts::Flag,
        WrongParts::Zero,
        WrongParts::Bodies,
        WrongParts::Total,
    ];
}

/// What a deck is to be written from.
pub struct Parts {
    /// Contents without the number of cards.
    pub contents: Vec<u8>,
    /// The bodies, joined.
    pub bodies: Vec<u8>,
    /// The entries, before anything went wrong.
    pub entries: Vec<Entry>,
    /// What is wrong.
    pub wrong: WrongParts,
}

impl Parts {
    /// Parts of any kind.
    pub fn any(random: &mut Random) -> Parts {
        let wrong = match random.once_in(2) {
            true => WrongParts::Nothing,
            false => random.pick(&WrongParts::ALL),
        };
        let mut entries = numbered(any_count(random), Numbering::any(random), random);
        let head = 1 + ENTRY_BYTES * entries.len();
        let length = |entries: &[Entry]| -> usize {
            entries.iter().map(|entry| usize::from(entry.length)).sum()
        };
        let over = match wrong {
            WrongParts::Total => random.pick(&[1, 1, 1, 2, 100]),
            _ => 0,
        };
        if wrong == WrongParts::Total || random.once_in(12) {
            // One body fills the deck, or more than fills it.
            let place = random.below(entries.len());
            let others = length(&entries) - usize::from(entries[place].length);
            let most = (DECK_BYTES - head - others + over).min(DECK_BYTES);
            entries[place].length = most as u16;
        }
        let mut damaged = entries.clone();
        let field = match wrong {
            WrongParts::Number => Wrong::Number,
            WrongParts::Flag => Wrong::Flag,
            WrongParts::Zero => Wrong::Zero,
            _ => Wrong::Nothing,
        };
        damage(&mut damaged, field, DECK_BYTES, random);
        if field != Wrong::Nothing && random.once_in(4) {
            damage(
                &mut damaged,
                random.pick(&Wrong::FIELDS),
                DECK_BYTES,
                random,
            );
        }
        let mut contents = Vec::new();
        damaged.iter().for_each(|entry| entry.put(&mut contents));
        let mut bodies: Vec<u8> = (0..length(&entries))
            .map(|place| (place as u8).wrapping_mul(5))
            .collect();
        match wrong {
            WrongParts::Count => match random.below(5) {
                0 => contents.clear(),
                1 => contents.resize(ENTRY_BYTES * (DECK_CARDS + 1), 0),
                2 => contents.resize(random.between(513, 70_000), 0),
                _ => contents.resize(contents.len() - random.between(1, ENTRY_BYTES - 1), 0),
            },
            WrongParts::Bodies if random.once_in(2) && !bodies.is_empty() => {
                bodies.truncate(random.below(bodies.len()));
            }
            WrongParts::Bodies => bodies.resize(bodies.len() + random.between(1, 3), 0),
            _ => {}
        }
        if field != Wrong::Nothing && random.once_in(3) {
            bodies.push(0);
        }
        Parts {
            contents,
            bodies,
            entries,
            wrong,
        }
    }

    /// The deck that sound parts make.
    pub fn deck(&self) -> Vec<u8> {
        let mut bytes = vec![self.entries.len() as u8];
        let mut offset = 1 + ENTRY_BYTES * self.entries.len();
        for entry in &self.entries {
            let offset_here = offset as u16;
            Entry {
                offset: offset_here,
                ..*entry
            }
            .put(&mut bytes);
            offset += usize::from(entry.length);
        }
        bytes.extend(&self.bodies);
        bytes
    }
}
