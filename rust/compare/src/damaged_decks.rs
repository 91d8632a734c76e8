//! Decks to be mended. Each is made entry by entry, and for each entry it is settled beforehand whether it can be kept, or which rule it is
//! the first to break; so what is due is known without mending. Then some are wrong as a whole, and some are damaged blindly.

use crate::cards::{card, Size};
use crate::damage::{any_byte, damage_bytes};
use crate::decimals::Twins;
use crate::decks::{Entry, DECK_BYTES, DECK_CARDS, ENTRY_BYTES};
use crate::marks::{lay_out, Layout};
use crate::random::Random;

/// Longest part of a deck that is filled with bodies, so that there is room for what stands behind.
const FILLED: usize = 64_000;
/// Longest card that is taken over from elsewhere.
const CARD_TAKEN_OVER: usize = 20_000;

/// What a deck is meant to try.
#[derive(Clone, Copy, PartialEq, Eq, Debug)]
pub enum Kind {
    /// Nothing is wrong, and there are no gaps.
    Sound,
    /// Nothing is wrong, and there are gaps.
    Gaps,
    /// Entries with a wrong flag or a wrong last byte.
    Ending,
    /// Entries whose number does not rise.
    Number,
    /// Entries whose body lies elsewhere than it may.
    Range,
    /// Live entries whose card is refused.
    Card,
    /// Entries that break several rules.
    Several,
    /// Entries of all kinds.
    Mixed,
    /// No entry can be kept.
    Nothing,
    /// A count of 0.
    CountZero,
    /// A count above the most, with or without so many entries.
    CountOver,
    /// It ends within its contents, or before them.
    Cut,
    /// It has more bytes than a deck may have.
    Long,
    /// Any bytes are others, or the deck is cut anywhere, or the count is another.
    Bytes,
}

impl Kind {
    /// All kinds, with how many of a hundred decks are of it.
    pub const SHARES: [(Kind, usize); 14] = [
        (Kind::Sound, 12),
        (Kind::Gaps, 8),
        (Kind::Ending, 8),
        (Kind::Number, 8),
        (Kind::Range, 12),
        (Kind::Card, 8),
        (Kind::Several, 12),
        (Kind::Mixed, 10),
        (Kind::Nothing, 4),
        (Kind::CountZero, 2),
        (Kind::CountOver, 2),
        (Kind::Cut, 2),
        (Kind::Long, 2),
        (Kind::Bytes, 10),
    ];

    /// Its place among all kinds.
    pub fn place(self) -> usize {
        let place = Kind::SHARES.iter().position(|(kind, _)| *kind == self);
        place.expect("every kind has a share")
    }

    fn any(random: &mut Random) -> Kind {
        let mut left = random.below(100);
        for (kind, share) in Kind::SHARES {
            if left < share {
                return kind;
            }
            left -= share;
        }
        unreachable!("the shares add up to a hundred")
    }

    /// The rule that the next entry is to break first, or 0 if it is to be kept.
    fn rule(self, random: &mut Random) -> usize {
        let only = match self {
            Kind::Sound | Kind::Gaps => return 0,
            Kind::Nothing => return random.pick(&[1, 3, 4]),
            Kind::Ending => 1,
            Kind::Number => 2,
            Kind::Range => 3,
            Kind::Card => 4,
            Kind::Several => random.pick(&[1, 1, 2, 2, 3]),
            _ => random.between(1, 4),
        };
        match random.once_in(2) {
            true => only,
            false => 0,
        }
    }
}

/// How an entry's body comes to lie elsewhere than it may.
#[derive(Clone, Copy, PartialEq, Eq, Debug)]
pub enum Astray {
    /// It begins before the end of the contents, while no body is kept yet.
    Contents,
    /// It begins before the end of the last body kept.
    Last,
    /// It is the last body kept itself.
    Same,
    /// It ends past the deck.
    Past,
    /// It begins past the deck.
    Behind,
    /// Its end falls back into the deck, if it is reckoned with two bytes.
    Wraps,
    /// It is empty, and lies outside of the bounds.
    Empty,
}

impl Astray {
    /// All of them.
    pub const ALL: [Astray; 7] = [
        Astray::Contents,
        Astray::Last,
        Astray::Same,
        Astray::Past,
        Astray::Behind,
        Astray::Wraps,
        Astray::Empty,
    ];
}

/// An entry, as it was settled.
pub struct Planned {
    /// The entry.
    pub entry: Entry,
    /// The rule that it breaks first, or 0 if it is kept.
    pub rule: usize,
    /// How its body lies elsewhere than it may.
    pub astray: Option<Astray>,
    /// The number of the last one kept before it.
    last_number: Option<u16>,
    /// The end of the last body kept before it, or of the contents.
    last_end: usize,
}

/// What is due.
pub enum Due {
    /// A deck and a list.
    Mended(Vec<u8>, Vec<u8>),
    /// It is past mending.
    Nothing,
    /// The deck was damaged blindly.
    Unknown,
}

/// A deck to be mended.
pub struct Damaged {
    /// What it is meant to try.
    pub kind: Kind,
    /// Its bytes.
    pub bytes: Vec<u8>,
    /// Its entries; those that were settled, where it was damaged later.
    pub entries: Vec<Planned>,
    /// What is due.
    pub due: Due,
}

/// Cards for the bodies.
struct Cards {
    accepted: Vec<Vec<u8>>,
    refused: Vec<Vec<u8>>,
}

impl Cards {
    /// Small ones, whole, damaged and with decimals, and one that is given.
    fn new(given: &[u8], random: &mut Random) -> Cards {
        let model = card(Size::small(random), random);
        let small = lay_out(&model.marks(), Layout::any(random), random);
        let mut damaged = small.clone();
        damage_bytes(&mut damaged, random);
        let cut = small[..random.below(small.len())].to_vec();
        let old = Twins::new(&model, random).old;
        let decimals = lay_out(&old.marks(), Layout::any(random), random);
        let plain = b"nondeterministic module process1 s1:[0..0]init 0;[]s1=0->1:(s1'=0);endmodule";
        let mut cards = Cards {
            accepted: vec![plain.to_vec()],
            refused: vec![Vec::new()],
        };
        for card in [small, damaged, cut, decimals] {
            cards.put(card);
        }
        if given.len() <= CARD_TAKEN_OVER {
            cards.put(given.to_vec());
        }
        cards
    }

    fn put(&mut self, card: Vec<u8>) {
        match baseline::judge(&card) {
            Ok(_) => self.accepted.push(card),
            Err(_) => self.refused.push(card),
        }
    }
}

/// A deck while it is made.
struct Making {
    bytes: Vec<u8>,
    planned: Vec<Planned>,
    /// The least number that the first one kept may have.
    first_number: usize,
    last_number: Option<u16>,
    last_offset: usize,
    last_end: usize,
    /// A card that stands in the deck already, behind all that is kept.
    standing: Option<(usize, usize)>,
}

impl Making {
    fn new(count: usize, first_number: usize) -> Making {
        let contents = 1 + ENTRY_BYTES * count;
        let mut bytes = vec![0; contents];
        bytes[0] = count as u8;
        Making {
            bytes,
            planned: Vec::new(),
            first_number,
            last_number: None,
            last_offset: contents,
            last_end: contents,
            standing: None,
        }
    }

    /// Puts a body behind all bytes there are, if there is room for it: where it lies.
    fn put(&mut self, body: &[u8]) -> Option<(usize, usize)> {
        let offset = self.bytes.len();
        if offset + body.len() > FILLED {
            return None;
        }
        self.bytes.extend(body);
        Some((offset, body.len()))
    }

    /// A number that rises; none if the last one is the highest.
    fn rising(&self, step: usize, random: &mut Random) -> Option<u16> {
        let last = self.last_number.map(usize::from);
        let least = last.map_or(self.first_number, |last| last + 1);
        let number = least + random.below(step);
        (least <= usize::from(u16::MAX)).then_some(number.min(u16::MAX.into()) as u16)
    }

    /// A number that does not rise; none if nothing is kept yet.
    fn falling(&self, random: &mut Random) -> Option<u16> {
        let last = self.last_number?;
        let any = random.next() as u16;
        Some(last.saturating_sub(random.pick(&[0, 0, 1, 256, any])))
    }

    fn plan(&mut self, rule: usize, number: u16, range: (usize, usize), ending: (u8, u8)) {
        let (flag, zero) = ending;
        self.planned.push(Planned {
            entry: Entry {
                number,
                offset: range.0 as u16,
                length: range.1 as u16,
                flag,
                zero,
            },
            rule,
            astray: None,
            last_number: self.last_number,
            last_end: self.last_end,
        });
    }

    /// An entry that can be kept.
    fn keep(&mut self, step: usize, cards: &Cards, random: &mut Random) -> Option<()> {
        let number = self.rising(step, random)?;
        let accepted = &cards.accepted[random.below(cards.accepted.len())];
        let refused = &cards.refused[random.below(cards.refused.len())];
        let junk: Vec<u8> = (0..random.below(9)).map(|_| any_byte(random)).collect();
        let standing = self.standing.take().filter(|_| random.once_in(2));
        let (range, flag) = match (standing, random.below(8)) {
            (Some(standing), _) => (standing, 1),
            (None, 0..=3) => (self.put(accepted)?, 1),
            (None, 4) => (self.put(accepted)?, 0),
            (None, 5) => (self.put(refused)?, 0),
            (None, 6) => (self.put(&junk)?, 0),
            (None, _) => (self.put(&[])?, 0),
        };
        self.plan(0, number, range, (flag, 0));
        self.last_number = Some(number);
        (self.last_offset, self.last_end) = (range.0, range.0 + range.1);
        Some(())
    }

    /// An entry with a wrong flag or last byte.
    fn wrong_ending(random: &mut Random) -> (u8, u8) {
        match random.below(3) {
            0 => (random.pick(&[2, 2, 3, 128, 255]), 0),
            1 => (random.below(2) as u8, random.pick(&[1, 1, 2, 128, 255])),
            _ => (random.pick(&[2, 129, 255]), random.pick(&[1, 255])),
        }
    }

    /// An entry that breaks this rule and none before it; behind it, if several are to be broken, others too.
    fn break_rule(
        &mut self,
        rule: usize,
        several: bool,
        cards: &Cards,
        random: &mut Random,
    ) -> Option<()> {
        let too = |random: &mut Random| several && random.once_in(2) || random.once_in(12);
        let falls = rule == 2 || rule == 1 && too(random);
        let number = match falls {
            true => self.falling(random)?,
            false => self.rising(random.pick(&[1, 3, 60_000]), random)?,
        };
        let refused = &cards.refused[random.below(cards.refused.len())];
        let accepted = &cards.accepted[random.below(cards.accepted.len())];
        let with_refused = rule == 4 || rule < 3 && too(random);
        let mut range = match with_refused {
            // A card that lacks its last byte, and stands there whole.
            true if random.once_in(3) => {
                let (offset, length) = self.put(accepted)?;
                let cut = baseline::judge(&accepted[..length - 1]).is_err();
                self.standing = cut.then_some((offset, length));
                match cut {
                    true => (offset, length - 1),
                    false => (offset, 0),
                }
            }
            true => self.put(refused)?,
            false if random.once_in(3) => (self.bytes.len(), 0),
            false => self.put(accepted)?,
        };
        let ending = match rule {
            1 => Making::wrong_ending(random),
            _ => (u8::from(with_refused || random.once_in(2)), 0),
        };
        let astray = rule == 3 || rule < 3 && too(random);
        if !astray && rule < 3 && random.once_in(4) {
            // Over what is kept later.
            range.1 += random.below(40);
        }
        self.plan(rule, number, range, ending);
        if astray {
            let how = match (self.last_number, random.pick(&Astray::ALL)) {
                (Some(_), Astray::Contents) => Astray::Last,
                (None, Astray::Last | Astray::Same) => Astray::Contents,
                (Some(_), Astray::Same) if self.last_offset == self.last_end => Astray::Last,
                (_, how) => how,
            };
            self.planned.last_mut().expect("just planned").astray = Some(how);
        }
        Some(())
    }

    /// Leads the bodies astray, now that the deck's length is settled.
    fn lead_astray(&mut self, random: &mut Random) {
        let length = self.bytes.len();
        let mut last = (0, 0);
        for planned in &mut self.planned {
            let (entry, last_end) = (&mut planned.entry, planned.last_end);
            let over = random.pick(&[1, 1, 1, 2, 300]);
            let before = random.pick(&[1, 1, 1, 2, 300, last_end]).min(last_end);
            let within = last_end + random.below(length - last_end + 1);
            let (offset, body) = match planned.astray {
                Some(Astray::Contents | Astray::Last) => {
                    (last_end - before, random.pick(&[1, before, before + 3]))
                }
                Some(Astray::Same) => last,
                Some(Astray::Past) => (within, length - within + over),
                Some(Astray::Behind) if length + over <= DECK_BYTES => {
                    (length + over, random.pick(&[0, 1, 400]))
                }
                Some(Astray::Wraps) if last_end > 1 => {
                    (within, 65_536 - within + random.below(last_end))
                }
                Some(Astray::Empty) if length < DECK_BYTES && random.once_in(2) => (length + 1, 0),
                Some(Astray::Empty) => (last_end - 1, 0),
                Some(Astray::Behind | Astray::Wraps) => (within.max(1), DECK_BYTES),
                None => {
                    // What lies over the next bodies ends with the deck.
                    let body = usize::from(entry.length);
                    let left = length - usize::from(entry.offset);
                    (entry.offset.into(), body.min(left))
                }
            };
            (entry.offset, entry.length) = (offset as u16, body.min(DECK_BYTES) as u16);
            if planned.rule == 0 {
                last = (offset, body);
            }
        }
    }

    fn gap(&mut self, most: usize, random: &mut Random) {
        let bytes = random.below(most + 1);
        self.bytes.extend((0..bytes).map(|_| any_byte(random)));
    }
}

impl Damaged {
    /// A deck of any kind, perhaps with this card among its own.
    pub fn any(given: &[u8], random: &mut Random) -> Damaged {
        let kind = Kind::any(random);
        Damaged::new(kind, given, random)
    }

    /// A deck of this kind.
    pub fn new(kind: Kind, given: &[u8], random: &mut Random) -> Damaged {
        let cards = Cards::new(given, random);
        let count = match random.below(12) {
            _ if kind == Kind::CountOver && random.once_in(2) => DECK_CARDS + 1,
            0 => DECK_CARDS,
            1 => random.between(1, DECK_CARDS),
            _ => random.between(1, 6),
        };
        let gaps = match kind {
            Kind::Sound => 0,
            Kind::Gaps => 5,
            _ => random.pick(&[0, 0, 5]),
        };
        let (first_number, step) = match random.below(8) {
            // The last number is the highest there is, if all are kept.
            0 => (65_536 - count, 1),
            _ => random.pick(&[(0, 1), (0, 2), (1, 3), (250, 3), (0, 900)]),
        };
        let mut making = Making::new(count, first_number);
        if random.once_in(2) {
            making.gap(gaps, random);
        }
        for _ in 0..count {
            let several = kind == Kind::Several;
            let rule = kind.rule(random);
            let made = match rule {
                0 => making.keep(step, &cards, random),
                _ => making.break_rule(rule, several, &cards, random),
            };
            // Where that cannot be, something else that can: a withdrawn empty card, or a wrong flag.
            if made.is_none() {
                let end = making.bytes.len();
                match making.rising(1, random) {
                    Some(number) if kind != Kind::Nothing => {
                        making.plan(0, number, (end, 0), (0, 0));
                        making.standing = None;
                        making.last_number = Some(number);
                        (making.last_offset, making.last_end) = (end, end);
                    }
                    _ => making.plan(1, 7, (end, 0), (7, 0)),
                }
            }
            making.gap(gaps, random);
        }
        if kind == Kind::Gaps {
            making.bytes.push(any_byte(random));
        }
        Damaged::filled(kind, making, random)
    }

    /// The deck of what was made: some are filled up to the greatest length.
    fn filled(kind: Kind, mut making: Making, random: &mut Random) -> Damaged {
        if random.once_in(16) {
            let from = making.bytes.len();
            making.bytes.resize(DECK_BYTES, random.next() as u8);
            let last = making.planned.last_mut().expect("a deck has entries");
            let withdrawn = last.rule == 0 && last.entry.flag == 0;
            let reaches = usize::from(last.entry.offset) + usize::from(last.entry.length) == from;
            if withdrawn && reaches {
                last.entry.length += (DECK_BYTES - from) as u16;
            } else if kind == Kind::Sound {
                making.bytes.truncate(from);
            }
        }
        making.lead_astray(random);
        let Making {
            mut bytes, planned, ..
        } = making;
        let mut contents = Vec::new();
        planned
            .iter()
            .for_each(|planned| planned.entry.put(&mut contents));
        bytes[1..1 + contents.len()].copy_from_slice(&contents);
        let mut damaged = Damaged {
            kind,
            due: Damaged::due(&bytes, &planned),
            bytes,
            entries: planned,
        };
        damaged.as_a_whole(random);
        damaged
    }

    /// What was settled, as a deck and a list.
    fn due(bytes: &[u8], planned: &[Planned]) -> Due {
        let kept = || planned.iter().filter(|planned| planned.rule == 0);
        let (mut contents, mut bodies) = (vec![kept().count() as u8], Vec::new());
        let mut offset = 1 + ENTRY_BYTES * kept().count();
        for Planned { entry, .. } in kept() {
            let (from, length) = (usize::from(entry.offset), usize::from(entry.length));
            let moved = Entry {
                offset: offset as u16,
                ..*entry
            };
            moved.put(&mut contents);
            bodies.extend(&bytes[from..from + length]);
            offset += length;
        }
        let lines = planned.iter().map(|planned| match planned.rule {
            0 => "kept\n".to_owned(),
            rule => format!("dropped {rule}\n"),
        });
        match contents[0] {
            0 => Due::Nothing,
            _ => Due::Mended(
                [contents, bodies].concat(),
                lines.collect::<String>().into_bytes(),
            ),
        }
    }

    /// What is wrong with the deck as a whole, or anywhere.
    fn as_a_whole(&mut self, random: &mut Random) {
        let contents = 1 + ENTRY_BYTES * self.entries.len();
        let bytes = &mut self.bytes;
        match self.kind {
            Kind::CountZero => bytes[0] = 0,
            Kind::CountOver if self.entries.len() > DECK_CARDS => {}
            Kind::CountOver => bytes[0] = random.pick(&[65, 65, 66, 128, 255]),
            Kind::Cut => {
                let any = random.below(contents);
                bytes.truncate(random.pick(&[contents - 1, any, any, 0]));
            }
            Kind::Long => {
                let over = random.pick(&[1, 1, 1, 2, 9_000]);
                bytes.resize(DECK_BYTES + over, random.next() as u8);
            }
            Kind::Bytes => {
                let times = random.pick(&[1, 1, 2, 4]);
                for _ in 0..times {
                    let place = match random.once_in(4) {
                        true => random.below(bytes.len()),
                        false => random.between(1, contents - 1),
                    };
                    bytes[place] = random.next() as u8;
                }
                match random.below(8) {
                    0 => bytes.truncate(random.below(bytes.len() + 1)),
                    1 => bytes[0] = random.between(1, DECK_CARDS) as u8,
                    _ => {}
                }
            }
            _ => return,
        }
        self.due = match self.kind {
            Kind::Bytes => Due::Unknown,
            _ => Due::Nothing,
        };
    }

    /// Which rules an entry breaks, each judged by itself behind what was to be kept before it.
    pub fn broken(&self, planned: &Planned) -> [bool; 4] {
        let Planned { entry, .. } = planned;
        let (from, length) = (usize::from(entry.offset), usize::from(entry.length));
        let card = self.bytes.get(from..from + length);
        let astray = from < planned.last_end || card.is_none();
        [
            entry.flag > 1 || entry.zero != 0,
            planned.last_number.is_some_and(|last| entry.number <= last),
            astray,
            entry.flag == 1 && card.is_some_and(|card| baseline::judge(card).is_err()),
        ]
    }
}
