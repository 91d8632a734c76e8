//! Decks that are lent to be tidied and to have a card added, each with such a card. They are made card by card, with gaps and an unused end,
//! so what is due is known without tidying. Then some are malformed, and some are damaged blindly.

use baseline::Refusal;

use crate::cards::limits::CARD_BYTES;
use crate::cards::{card, Size};
use crate::damage::{any_byte, damage_bytes};
use crate::decimals::Twins;
use crate::decks::{damage, Entry, Wrong, DECK_BYTES, DECK_CARDS, ENTRY_BYTES};
use crate::inputs::Input;
use crate::marks::{lay_out, Layout};
use crate::old_decks::{damaged_marks, model_for};
use crate::random::Random;

/// Longest part of a deck that is filled with cards, so that there is room for what is done later; and where one of them fills it.
const FILLED: usize = 50_000;
const FILLED_BESIDE_ONE: usize = 20_000;
/// Longest card that is taken over from elsewhere.
const CARD_TAKEN_OVER: usize = 20_000;

/// What a deck is meant to try.
#[derive(Clone, Copy, PartialEq, Eq, Debug)]
pub enum Kind {
    /// The card can be added, if there is room for it.
    Free,
    /// Its number is live already.
    LiveNumber,
    /// As many cards are live as there may be, or one less.
    Full,
    /// The card is refused.
    Card,
    /// No card of the deck is live.
    NoneLive,
    /// With the card the deck is as long as one may be, or longer.
    Longest,
    /// Several of these.
    Several,
    /// A field of an entry is wrong, or several are.
    Field,
    /// The count is wrong, the contents are cut short, or too many bytes are lent.
    Whole,
    /// Any bytes are others, or the deck is cut anywhere.
    Bytes,
}

impl Kind {
    /// All kinds, with how many of a hundred decks are of it.
    pub const SHARES: [(Kind, usize); 10] = [
        (Kind::Free, 34),
        (Kind::LiveNumber, 6),
        (Kind::Full, 9),
        (Kind::Card, 11),
        (Kind::NoneLive, 5),
        (Kind::Longest, 9),
        (Kind::Several, 7),
        (Kind::Field, 9),
        (Kind::Whole, 4),
        (Kind::Bytes, 6),
    ];

    /// Its place among all kinds.
    pub fn place(self) -> usize {
        let place = Kind::SHARES.iter().position(|(kind, _)| *kind == self);
        place.expect("every kind has a share")
    }

    fn any(random: &mut Random) -> Kind {
        let mut left = random.below(100);
        for (kind, share) in Kind::SHARES {
            if left < share {
                return kind;
            }
            left -= share;
        }
        unreachable!("the shares add up to a hundred")
    }

    /// Whether a deck of this kind is also to have what another kind has.
    fn has(self, other: Kind, random: &mut Random) -> bool {
        let too = match (self, other) {
            (Kind::Several | Kind::Field | Kind::Whole | Kind::Bytes, _) => random.once_in(4),
            (Kind::Full | Kind::NoneLive, Kind::Card | Kind::LiveNumber) => random.once_in(6),
            _ => false,
        };
        self == other || too
    }
}

/// A card of a deck.
#[derive(Clone)]
pub struct Body {
    /// Its number.
    pub number: u16,
    /// Whether it is live.
    pub live: bool,
    /// Its bytes, which need be no card.
    pub bytes: Vec<u8>,
    /// How many bytes of a gap stand before it.
    pub gap: usize,
}

/// What is due: the deck as it has to be, up to its length.
pub struct Due {
    /// When it is tidied.
    pub tidied: Result<Vec<u8>, Refusal>,
    /// When the card is added.
    pub added: Result<Vec<u8>, Refusal>,
}

/// A deck that is lent, and a card to be added to it.
pub struct LentDeck {
    /// What it is meant to try.
    pub kind: Kind,
    /// All that is lent.
    pub bytes: Vec<u8>,
    /// Its cards; as they were settled, where it was damaged later.
    pub bodies: Vec<Body>,
    /// How many bytes at its end are unused.
    pub unused: usize,
    /// The card's number.
    pub number: u16,
    /// The card.
    pub card: Vec<u8>,
    /// How long the tidied deck with the card would be.
    pub needed: usize,
    /// What is due; unknown, where it was damaged later.
    pub due: Option<Due>,
}

/// What decks are made from.
struct Pool {
    accepted: Vec<Vec<u8>>,
    refused: Vec<Vec<u8>>,
}

impl Pool {
    /// Small cards, whole and damaged, and an input's.
    fn new(input: &Input, random: &mut Random) -> Pool {
        let plain = b"nondeterministic module process1 s1:[0..0]init 0;[]s1=0->1:(s1'=0);endmodule";
        let mut pool = Pool {
            accepted: vec![plain.to_vec()],
            refused: vec![Vec::new()],
        };
        let small = card(Size::small(random), random);
        let small = lay_out(&small.marks(), Layout::any(random), random);
        let mut damaged = small.clone();
        damage_bytes(&mut damaged, random);
        let cut = small[..random.below(small.len())].to_vec();
        for bytes in [small, damaged, cut] {
            pool.put(bytes);
        }
        if input.card.len() <= CARD_TAKEN_OVER {
            pool.put(input.card.clone());
        }
        pool
    }

    fn put(&mut self, card: Vec<u8>) {
        match baseline::judge(&card) {
            Ok(_) => self.accepted.push(card),
            Err(_) => self.refused.push(card),
        }
    }

    /// A body of a deck, where any bytes may stand.
    fn any(&self, random: &mut Random) -> Vec<u8> {
        let one = |cards: &[Vec<u8>], random: &mut Random| cards[random.below(cards.len())].clone();
        match random.below(8) {
            0..=2 => one(&self.accepted, random),
            3 => one(&self.refused, random),
            4 | 5 => (0..random.below(40)).map(|_| any_byte(random)).collect(),
            6 => vec![random.next() as u8; random.below(700)],
            _ => Vec::new(),
        }
    }

    /// A card that is taken.
    fn any_accepted(&self, random: &mut Random) -> Vec<u8> {
        let mut card = self.accepted[random.below(self.accepted.len())].clone();
        if random.once_in(12) {
            card.resize(CARD_BYTES, b' ');
        }
        card
    }

    /// A card that is refused, with any number.
    fn any_refused(&self, random: &mut Random) -> Vec<u8> {
        if random.once_in(6) {
            return self.refused[random.below(self.refused.len())].clone();
        }
        let due = random.pick(&[1, 2, 3, 4, 5, 6, 7, 17]);
        for _ in 0..20 {
            let model = model_for(due, random);
            let bytes = match due {
                17 => {
                    let old = Twins::new(&model, random).old;
                    lay_out(&old.marks(), Layout::any(random), random)
                }
                _ => damaged_marks(due, model.marks(), random),
            };
            if let Err(refusal) = baseline::judge(&bytes) {
                if refusal.number == due {
                    return bytes;
                }
            }
        }
        self.refused[0].clone()
    }
}

/// A deck of these cards without gaps.
fn gapless<'b>(cards: impl Iterator<Item = (u16, &'b [u8])> + Clone) -> Vec<u8> {
    let count = cards.clone().count();
    let mut deck = vec![count as u8];
    let mut offset = 1 + ENTRY_BYTES * count;
    for (number, body) in cards.clone() {
        let entry = Entry {
            number,
            offset: offset as u16,
            length: body.len() as u16,
            flag: 1,
            zero: 0,
        };
        entry.put(&mut deck);
        offset += body.len();
    }
    cards.for_each(|(_, body)| deck.extend(body));
    deck
}

/// How many bytes some cards take in a deck without gaps.
fn bytes_of<'b>(bodies: impl Iterator<Item = &'b Body>) -> usize {
    bodies.map(|body| ENTRY_BYTES + body.bytes.len()).sum()
}

impl LentDeck {
    /// A deck of any kind, perhaps with an input's card among its own, or to be added.
    pub fn any(input: &Input, random: &mut Random) -> LentDeck {
        let kind = Kind::any(random);
        LentDeck::new(kind, input, random)
    }

    /// A deck of this kind.
    pub fn new(kind: Kind, input: &Input, random: &mut Random) -> LentDeck {
        let pool = Pool::new(input, random);
        let longest = kind.has(Kind::Longest, random);
        let mut bodies = bodies(kind, &pool, random);
        let most = if longest { FILLED_BESIDE_ONE } else { FILLED };
        let mut left = most - 1 - ENTRY_BYTES * bodies.len();
        for body in &mut bodies {
            if body.bytes.len() > left {
                body.bytes.clear();
            }
            left -= body.bytes.len();
        }
        number_them(&mut bodies, random);
        let number = match kind.has(Kind::LiveNumber, random) {
            true => live_number(&bodies, random),
            false => free_number(&bodies, random),
        };
        let card = match kind.has(Kind::Card, random) {
            true => pool.any_refused(random),
            false => pool.any_accepted(random),
        };
        if longest {
            fill(&mut bodies, card.len(), random);
        }
        let live = bytes_of(bodies.iter().filter(|body| body.live));
        let needed = 1 + live + ENTRY_BYTES + card.len();
        let unused = leave_gaps(&mut bodies, needed, longest, random);
        let deck = LentDeck {
            kind,
            bytes: Vec::new(),
            bodies,
            unused,
            number,
            card,
            needed,
            due: None,
        };
        deck.laid_out(random)
    }

    /// Puts all of it together, and damages it.
    fn laid_out(mut self, random: &mut Random) -> LentDeck {
        let contents = 1 + ENTRY_BYTES * self.bodies.len();
        let zeros = random.once_in(2);
        let gap = |bytes: usize, random: &mut Random| -> Vec<u8> {
            let byte = |_| if zeros { 0 } else { any_byte(random) };
            (0..bytes).map(byte).collect()
        };
        let (mut entries, mut behind) = (Vec::new(), Vec::new());
        for body in &self.bodies {
            behind.extend(gap(body.gap, random));
            entries.push(Entry {
                number: body.number,
                offset: (contents + behind.len()) as u16,
                length: body.bytes.len() as u16,
                flag: u8::from(body.live),
                zero: 0,
            });
            behind.extend(&body.bytes);
        }
        behind.extend(gap(self.unused, random));
        self.due = Some(self.due(contents + behind.len()));
        if self.kind == Kind::Field {
            let length = contents + behind.len();
            for _ in 0..random.pick(&[1, 1, 1, 2, 3]) {
                damage(&mut entries, random.pick(&Wrong::FIELDS), length, random);
            }
            self.due = None;
        }
        self.bytes = vec![entries.len() as u8];
        entries.iter().for_each(|entry| entry.put(&mut self.bytes));
        self.bytes.extend(behind);
        self.damage(contents, random);
        self
    }

    /// What is wrong with the deck as a whole, or anywhere.
    fn damage(&mut self, contents: usize, random: &mut Random) {
        let bytes = &mut self.bytes;
        match self.kind {
            Kind::Whole => {
                match random.below(5) {
                    0 => bytes[0] = 0,
                    1 => bytes[0] = random.pick(&[65, 65, 66, 128, 255]),
                    2 => bytes.truncate(contents - 1),
                    3 => bytes.truncate(random.below(contents)),
                    _ => {
                        let over = random.pick(&[1, 1, 1, 2, 9_000]);
                        let filling = random.pick(&[0, 0, 255]);
                        bytes.resize(DECK_BYTES + over, filling);
                    }
                }
                let malformed = Refusal::new(11, 0);
                self.due = Some(Due {
                    tidied: Err(malformed),
                    added: Err(malformed),
                });
            }
            Kind::Bytes => {
                for _ in 0..random.pick(&[1, 1, 2, 4]) {
                    let place = match random.once_in(3) {
                        true => random.between(1, contents - 1),
                        false => random.below(bytes.len()),
                    };
                    bytes[place] = any_byte(random);
                }
                if random.once_in(8) {
                    bytes.truncate(random.below(bytes.len() + 1));
                }
                self.due = None;
            }
            _ => {}
        }
    }

    /// What is due, if so many bytes are lent and nothing is damaged.
    fn due(&self, lent: usize) -> Due {
        let live = self.bodies.iter().filter(|body| body.live);
        let cards = live.clone().map(|body| (body.number, &body.bytes[..]));
        let refused = |number: u8, place: usize| {
            let refusal = Refusal::new(number, place);
            Due {
                tidied: Ok(gapless(cards.clone())),
                added: Err(refusal),
            }
        };
        let count = live.clone().count();
        if count == 0 {
            let no_live_card = Refusal::new(12, 0);
            return Due {
                tidied: Err(no_live_card),
                added: Err(no_live_card),
            };
        }
        if let Err(refusal) = baseline::judge(&self.card) {
            return refused(refusal.number, refusal.place);
        }
        let is_live_already = |body: &Body| body.live && body.number == self.number;
        if let Some(place) = self.bodies.iter().position(is_live_already) {
            return refused(19, 1 + ENTRY_BYTES * place);
        }
        if count == DECK_CARDS {
            return refused(19, 0);
        }
        if self.needed > lent {
            return refused(10, self.needed);
        }
        let mut with_card: Vec<(u16, &[u8])> = cards.clone().collect();
        with_card.push((self.number, &self.card));
        with_card.sort_by_key(|(number, _)| *number);
        Due {
            tidied: Ok(gapless(cards)),
            added: Ok(gapless(with_card.into_iter())),
        }
    }
}

/// The bodies of a deck of this kind, not numbered yet.
fn bodies(kind: Kind, pool: &Pool, random: &mut Random) -> Vec<Body> {
    let full = kind.has(Kind::Full, random);
    let none_live = kind.has(Kind::NoneLive, random);
    let count = match random.below(12) {
        _ if full => DECK_CARDS - usize::from(random.once_in(3)),
        0 => DECK_CARDS,
        1 => random.between(1, DECK_CARDS),
        _ => random.between(1, 6),
    };
    let mut bodies: Vec<Body> = (0..count)
        .map(|_| Body {
            number: 0,
            live: full || !random.once_in(3),
            bytes: pool.any(random),
            gap: 0,
        })
        .collect();
    let place = random.below(count);
    if full && random.once_in(2) {
        bodies[place].live = false;
    }
    if !full && random.once_in(8) {
        // One card is live, and all others are withdrawn.
        bodies.iter_mut().for_each(|body| body.live = false);
    }
    if none_live {
        bodies.iter_mut().for_each(|body| body.live = false);
    } else if bodies.iter().all(|body| !body.live) {
        bodies[place].live = true;
    }
    bodies
}

/// Numbers that rise, with more or less room between them.
fn number_them(bodies: &mut [Body], random: &mut Random) {
    let count = bodies.len();
    let (mut number, step) = match random.below(8) {
        // The last number is the highest there is.
        0 => (65_536 - count, 1),
        1 => (65_536 - 3 * count, 3),
        _ => random.pick(&[(0, 1), (0, 3), (1, 3), (250, 3), (0, 900)]),
    };
    for body in bodies {
        number += random.below(step);
        body.number = number as u16;
        number += 1;
    }
}

/// The number of a live card, if there is one.
fn live_number(bodies: &[Body], random: &mut Random) -> u16 {
    let live: Vec<&Body> = bodies.iter().filter(|body| body.live).collect();
    match &live[..] {
        [] => random.next() as u16,
        live => live[random.below(live.len())].number,
    }
}

/// A number that is not live: a withdrawn card's, one beside another's, the lowest, the highest, or any.
fn free_number(bodies: &[Body], random: &mut Random) -> u16 {
    let withdrawn: Vec<&Body> = bodies.iter().filter(|body| !body.live).collect();
    loop {
        let beside = bodies[random.below(bodies.len())].number;
        let number = match random.below(8) {
            0 | 1 if !withdrawn.is_empty() => withdrawn[random.below(withdrawn.len())].number,
            2 => beside.saturating_sub(1),
            3 => beside.saturating_add(1),
            4 => 0,
            5 => u16::MAX,
            6 => {
                let last = bodies[bodies.len() - 1].number;
                random.below(usize::from(last) + 1) as u16
            }
            _ => random.next() as u16,
        };
        if !bodies.iter().any(|body| body.live && body.number == number) {
            return number;
        }
    }
}

/// Makes one live card so long that with the card, of so many bytes, the tidied deck is as long as one may be, or longer; withdrawn cards leave
/// the deck before, as far as they do not fit beside it.
fn fill(bodies: &mut Vec<Body>, card: usize, random: &mut Random) {
    let over = random.below(ENTRY_BYTES + card + 1);
    let over = random.pick(&[0, 0, 0, 1, 1, 2, over]);
    let tidied = DECK_BYTES + over - ENTRY_BYTES - card;
    let live: Vec<usize> = (0..bodies.len())
        .filter(|place| bodies[*place].live)
        .collect();
    if live.is_empty() {
        return;
    }
    let place = random.pick(&live);
    bodies[place].bytes.clear();
    let others = 1 + bytes_of(bodies.iter().filter(|body| body.live));
    let Some(length) = tidied.checked_sub(others) else {
        return;
    };
    bodies[place].bytes = vec![random.next() as u8; length];
    let mut left = DECK_BYTES - tidied;
    bodies.retain(|body| {
        let bytes = bytes_of([body].into_iter());
        let fits = body.live || bytes <= left;
        if fits && !body.live {
            left -= bytes;
        }
        fits
    });
}

/// Leaves gaps between the bodies, and tells how many bytes at the end are unused, so that the lent deck is mostly as long as is needed with
/// the card, or a little longer or shorter.
fn leave_gaps(bodies: &mut [Body], needed: usize, longest: bool, random: &mut Random) -> usize {
    let mut used = 1 + bytes_of(bodies.iter());
    let gaps = random.pick(&[0, 0, 0, 5, 5, 300]);
    for body in bodies.iter_mut() {
        let gap = random.below(gaps + 1);
        if used + gap <= DECK_BYTES {
            body.gap = gap;
            used += gap;
        }
    }
    let less = random.between(2, 400);
    let more = random.between(2, 400);
    let lent = match random.below(12) {
        _ if longest && !random.once_in(4) => DECK_BYTES,
        0..=3 => needed,
        4 | 5 => needed - 1,
        6 => needed.saturating_sub(less),
        7 => needed + 1,
        8 => needed + more,
        9 if random.once_in(2) => DECK_BYTES,
        _ => used,
    };
    let left = lent.min(DECK_BYTES).saturating_sub(used);
    // At the end, or before one of the bodies, or by a withdrawn one.
    let place = random.below(bodies.len());
    match random.below(6) {
        0 => bodies[place].gap += left,
        1 if !bodies[place].live => {
            let length = bodies[place].bytes.len() + left;
            bodies[place].bytes.resize(length, b'.');
        }
        _ => return left,
    }
    0
}
