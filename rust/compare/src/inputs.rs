//! The inputs: each is fixed by the run's seed and its own number.

use crate::cards::limits::CARD_BYTES;
use crate::cards::{card, card_at, dense_card, Limit, Size};
use crate::damage::{any_byte, damage_bytes, junk, MarkDamage};
use crate::decimals::Twins;
use crate::marks::{lay_out, Layout};
use crate::model::Model;
use crate::random::Random;
use crate::shared::Misuse;

/// What an input is meant to try.
#[derive(Clone, Copy, PartialEq, Eq, Debug)]
pub enum Kind {
    /// A valid card and a seating of it.
    Valid,
    /// A valid card for a table so small that every seating is tried.
    Small,
    /// A valid card that just keeps a limit.
    AtLimit,
    /// A card of the greatest length or one above.
    Length,
    /// A seat too many or too few.
    SeatCount,
    /// A seat above the top state.
    SeatState,
    /// A card that passes a limit.
    PastLimit,
    /// A card whose shape is mostly kept, with a wrong number, word, sign or weight or a few.
    Late,
    /// A card with one damage to its marks.
    Marks,
    /// A card with a damaged byte or two.
    Bytes,
    /// The beginning of a card.
    Cut,
    /// A card with several damages.
    Several,
    /// A card at or past a limit, or any other, damaged just where it is refused or where something ends.
    Aimed,
    /// A card whose shared number is used wrongly in one way.
    Misused,
    /// A card that would be valid, were it not for decimals.
    Decimals,
    /// The same with a wrong number, word, sign or weight.
    LateDecimals,
    /// No card at all.
    Junk,
}

impl Kind {
    /// All kinds, with how many of a hundred inputs are of it.
    pub const SHARES: [(Kind, usize); 17] = [
        (Kind::Valid, 29),
        (Kind::Small, 2),
        (Kind::AtLimit, 6),
        (Kind::Length, 1),
        (Kind::SeatCount, 3),
        (Kind::SeatState, 3),
        (Kind::PastLimit, 7),
        (Kind::Late, 8),
        (Kind::Marks, 11),
        (Kind::Bytes, 6),
        (Kind::Cut, 4),
        (Kind::Several, 4),
        (Kind::Aimed, 5),
        (Kind::Misused, 4),
        (Kind::Decimals, 3),
        (Kind::LateDecimals, 2),
        (Kind::Junk, 2),
    ];

    fn any(random: &mut Random) -> Kind {
        let mut left = random.below(100);
        for (kind, share) in Kind::SHARES {
            if left < share {
                return kind;
            }
            left -= share;
        }
        unreachable!("the shares add up to a hundred")
    }
}

/// A card and a seating.
pub struct Input {
    /// What it is meant to try.
    pub kind: Kind,
    /// The card.
    pub card: Vec<u8>,
    /// The seats, and behind them the shared number, where there is one.
    pub seats: Vec<u8>,
    /// What it was made for.
    pub table: Table,
    /// How its shared number is used wrongly.
    pub misuse: Option<Misuse>,
    /// The card as it was made, where it is valid.
    pub model: Option<Model>,
    /// The same card with fractions, where it has decimals and nothing else wrong.
    pub without_decimals: Option<Model>,
}

/// A table that an input was made for.
#[derive(Clone, Copy)]
pub struct Table {
    /// Its seats.
    pub seats: usize,
    /// The top state.
    pub top: usize,
    /// The top of the shared number.
    pub shared: Option<usize>,
}

impl Table {
    /// A card's table.
    pub fn of(model: &Model) -> Table {
        Table {
            seats: model.seats,
            top: model.top,
            shared: model.shared.map(|shared| shared.top),
        }
    }

    /// A seating, with a value of the shared number.
    pub(crate) fn seating(&self, random: &mut Random) -> Vec<u8> {
        let mut bytes = seating(self.seats, self.top, random);
        bytes.extend(self.shared.map(|top| any_state(top, random)));
        bytes
    }
}

impl Input {
    /// The input of this number in the run of this seed.
    pub fn new(random: &mut Random) -> Input {
        let kind = Kind::any(random);
        let misuse = (kind == Kind::Misused).then(|| random.pick(&Misuse::ALL));
        let (model, card) = made(kind, misuse, random);
        let table = Table::of(&model);
        let mut seats = table.seating(random);
        match kind {
            Kind::SeatCount => miscount(&mut seats, table, random),
            Kind::SeatState => exceed(&mut seats, table, random),
            _ => {}
        }
        let valid = matches!(
            kind,
            Kind::Valid | Kind::Small | Kind::AtLimit | Kind::SeatCount | Kind::SeatState
        );
        let (model, without_decimals) = match kind {
            Kind::Decimals => (None, Some(model)),
            _ => (valid.then_some(model), None),
        };
        Input {
            kind,
            card,
            seats,
            table,
            misuse,
            model,
            without_decimals,
        }
    }
}

/// Once in so many cards that are to be damaged there are decimals too.
const DECIMALS_ONCE_IN: usize = 4;

/// A card of a kind, as a model before any damage and without decimals, and as bytes after it.
fn made(kind: Kind, misuse: Option<Misuse>, random: &mut Random) -> (Model, Vec<u8>) {
    if let Some(misuse) = misuse {
        let (model, marks) = misuse.card(random);
        let layout = Layout::any(random);
        return (model, lay_out(&marks, layout, random));
    }
    let model = match kind {
        Kind::Small => card(Size::small(random), random),
        Kind::AtLimit if random.once_in(60) => dense_card(random),
        Kind::AtLimit => card_at(random.pick(&Limit::ALL), 0, random),
        Kind::PastLimit => {
            let past = random.pick(&[1, 1, 1, 1, 2, 5]);
            card_at(random.pick(&Limit::ALL), past, random)
        }
        Kind::Aimed if !random.once_in(3) => {
            let past = random.below(2);
            card_at(random.pick(&Limit::ALL), past, random)
        }
        _ => card(Size::any(random), random),
    };
    let has_decimals = match kind {
        Kind::Decimals | Kind::LateDecimals => true,
        Kind::PastLimit | Kind::Late | Kind::Marks | Kind::Several | Kind::Aimed => {
            random.once_in(DECIMALS_ONCE_IN)
        }
        _ => false,
    };
    let (model, mut marks) = match has_decimals {
        true => {
            let Twins { old, new } = Twins::new(&model, random);
            (new, old.marks())
        }
        false => {
            let marks = model.marks();
            (model, marks)
        }
    };
    let damages = match kind {
        Kind::Marks | Kind::LateDecimals => 1,
        Kind::Late => random.between(1, 3),
        Kind::Several => random.between(2, 4),
        Kind::PastLimit | Kind::Aimed => usize::from(random.once_in(4)),
        _ => 0,
    };
    for _ in 0..damages {
        let damage = match kind {
            Kind::Late | Kind::LateDecimals => random.pick(&MarkDamage::LATE),
            _ => random.pick(&MarkDamage::ALL),
        };
        damage.inflict(&mut marks, random);
    }
    let layout = Layout::any(random);
    let mut bytes = lay_out(&marks, layout, random);
    if bytes.len() > CARD_BYTES {
        bytes = lay_out(&marks, Layout::Tight, random);
    }
    match kind {
        Kind::Junk => bytes = junk(random),
        Kind::Length => lengthen(&mut bytes, random),
        Kind::Cut => bytes.truncate(random.below(bytes.len() + 1)),
        Kind::Bytes => damage_bytes(&mut bytes, random),
        Kind::Aimed => {
            for _ in 0..random.between(1, 2) {
                damage_where_refused(&mut bytes, random);
            }
        }
        _ => {}
    }
    if matches!(kind, Kind::Bytes | Kind::Several) && random.once_in(3) {
        damage_bytes(&mut bytes, random);
    }
    (model, bytes)
}

/// Fills a card up to just the greatest length, or past it.
fn lengthen(bytes: &mut Vec<u8>, random: &mut Random) {
    let length = match random.below(8) {
        0 => CARD_BYTES,
        1..=5 => CARD_BYTES + 1,
        6 => CARD_BYTES + random.between(2, 300),
        _ => random.pick(&[20_000, 32_768, 65_536, 65_540, 131_080]),
    };
    if random.once_in(2) {
        bytes.extend(b"\n//");
    }
    let filling = if random.once_in(6) {
        any_byte(random)
    } else {
        b' '
    };
    let place = if random.once_in(2) { bytes.len() } else { 0 };
    let missing = length.saturating_sub(bytes.len());
    bytes.splice(place..place, std::iter::repeat_n(filling, missing));
}

/// Changes a byte or two at the place where a card is refused, or close by; into
/// a card that is taken, puts something where something else ends.
fn damage_where_refused(bytes: &mut Vec<u8>, random: &mut Random) {
    const ENDS: [&[u8]; 5] = [b"->", b"->", b"+", b";", b")"];
    const SIGNS: [&[u8]; 5] = [b"|", b"&", b"!", b"(", b"+"];
    const PIECES: [&[u8]; 17] = [
        b"|", b"&", b"(", b")", b"!", b";", b" ", b"s1", b"0", b"1/", b"9", b"(s1=0)", b"//", b"<",
        b"g", b"(g=0)", b"&(g'=0)",
    ];
    let Err(refusal) = baseline::judge(bytes) else {
        let end = random.pick(&ENDS);
        let start = random.below(bytes.len());
        let behind = bytes[start..]
            .windows(end.len())
            .position(|found| found == end);
        let place = start + behind.unwrap_or(0);
        bytes.splice(place..place, random.pick(&SIGNS).iter().copied());
        return;
    };
    let place = (refusal.place + random.below(3)).min(bytes.len());
    match random.below(3) {
        0 if place < bytes.len() => drop(bytes.remove(place)),
        1 if place < bytes.len() => bytes[place] = any_byte(random),
        _ => drop(bytes.splice(place..place, random.pick(&PIECES).iter().copied())),
    }
}

/// A state, or a value of the shared number, up to a top.
fn any_state(top: usize, random: &mut Random) -> u8 {
    random.between(0, top.min(254)) as u8
}

/// A state for each seat; many seatings are all alike, or all but one.
fn seating(seats: usize, top: usize, random: &mut Random) -> Vec<u8> {
    let (first, second) = (any_state(top, random), any_state(top, random));
    match random.below(4) {
        0 => vec![first; seats],
        1 => {
            let mut states = vec![first; seats];
            let odd = random.below(seats);
            states[odd] = second;
            states
        }
        2 => (0..seats).map(|_| random.pick(&[first, second])).collect(),
        _ => (0..seats).map(|_| any_state(top, random)).collect(),
    }
}

/// Takes seats away or adds some; sometimes one is above the top state as well.
fn miscount(seats: &mut Vec<u8>, table: Table, random: &mut Random) {
    match random.below(4) {
        0 => drop(seats.pop()),
        1 => seats.push(0),
        2 => seats.clear(),
        _ => seats.extend(std::iter::repeat_n(0, random.between(2, 300))),
    }
    if random.once_in(3) {
        exceed(seats, table, random);
    }
}

/// Puts some seats above the top state, or the shared number above its top; that alone once in a while.
fn exceed(seats: &mut [u8], table: Table, random: &mut Random) {
    let value_alone = random.once_in(3);
    for _ in 0..random.between(1, 3) {
        if !seats.is_empty() {
            let mut place = random.below(seats.len());
            let mut top = table.top;
            if let Some(shared) = table.shared.filter(|_| seats.len() > table.seats) {
                if value_alone || place == table.seats {
                    (place, top) = (table.seats, shared);
                }
            }
            seats[place] = random
                .pick(&[top as u8 + 1, top as u8 + 1, 8, 255, b'0'])
                .max(top as u8 + 1);
        }
    }
}
