//! Decks to be converted. Each is made card by card, and it is settled beforehand what stands for each of them in the new deck, or why it cannot
//! be converted; so what is due is known without converting. Then some are malformed, and some are damaged blindly.

use baseline::Refusal;

use crate::cards::limits::{CARD_BYTES, DEPTH, NODES, STATEMENTS};
use crate::cards::{branches, card, card_at, Guards, Leaves, Limit, Size};
use crate::damage::{any_byte, damage_bytes, MarkDamage};
use crate::decimals::Twins;
use crate::decks::{damage, Entry, Wrong, DECK_BYTES, DECK_CARDS, ENTRY_BYTES};
use crate::inputs::Input;
use crate::marks::{lay_out, Layout, Mark};
use crate::model::{row_nodes, Expression, Model, Statement, Unary};
use crate::random::Random;
use crate::weights::{decimal, hundredths};

/// Longest part of a deck that is filled with cards, so that there is room for what is done later.
const FILLED: usize = 60_000;
/// Longest card that is taken over from elsewhere.
const CARD_TAKEN_OVER: usize = 20_000;

/// What a deck is meant to try.
#[derive(Clone, Copy, PartialEq, Eq, Debug)]
pub enum Kind {
    /// Nothing is wrong, and there are no gaps.
    Sound,
    /// Nothing is wrong, and there are gaps.
    Gaps,
    /// A live card is refused by the old rule, or several are.
    Refused,
    /// What is written for a card is as long as a card may be, or longer.
    LongCard,
    /// The new deck is as long as one may be, or longer.
    LongDeck,
    /// Several of these.
    Several,
    /// A field of an entry is wrong, or several are.
    Field,
    /// The count is wrong, the contents are cut short, or the deck is too long.
    Whole,
    /// Any bytes are others, or the deck is cut anywhere.
    Bytes,
}

impl Kind {
    /// All kinds, with how many of a hundred decks are of it.
    pub const SHARES: [(Kind, usize); 9] = [
        (Kind::Sound, 30),
        (Kind::Gaps, 14),
        (Kind::Refused, 16),
        (Kind::LongCard, 3),
        (Kind::LongDeck, 12),
        (Kind::Several, 6),
        (Kind::Field, 9),
        (Kind::Whole, 3),
        (Kind::Bytes, 7),
    ];

    /// Its place among all kinds.
    pub fn place(self) -> usize {
        let place = Kind::SHARES.iter().position(|(kind, _)| *kind == self);
        place.expect("every kind has a share")
    }

    fn any(random: &mut Random) -> Kind {
        let mut left = random.below(100);
        for (kind, share) in Kind::SHARES {
            if left < share {
                return kind;
            }
            left -= share;
        }
        unreachable!("the shares add up to a hundred")
    }
}

/// What becomes of a card.
#[derive(Clone)]
pub enum Fate {
    /// It stays as it is: it is withdrawn, or has no decimal.
    Copied,
    /// This is written for it, which is short enough for a card or not.
    Written(Vec<u8>),
    /// The old rule refuses it, with this number.
    Refused(u8),
}

/// A card of a deck.
#[derive(Clone)]
pub struct Body {
    /// Its bytes.
    pub bytes: Vec<u8>,
    /// Whether it is live.
    pub live: bool,
    /// What becomes of it.
    pub fate: Fate,
}

impl Body {
    fn live(bytes: Vec<u8>, fate: Fate) -> Body {
        Body {
            bytes,
            live: true,
            fate,
        }
    }

    fn withdrawn(bytes: Vec<u8>) -> Body {
        Body {
            bytes,
            live: false,
            fate: Fate::Copied,
        }
    }

    /// What stands for it in a new deck, if it can be converted.
    pub fn new_bytes(&self) -> Option<&[u8]> {
        match &self.fate {
            Fate::Copied => Some(&self.bytes),
            Fate::Written(written) if written.len() <= CARD_BYTES => Some(written),
            Fate::Written(_) | Fate::Refused(_) => None,
        }
    }
}

/// Why a card is named.
#[derive(Clone, Copy, PartialEq, Eq, Debug)]
pub enum Reason {
    /// The old rule refuses it, with this number.
    Refused(u8),
    /// What is written for it is too long for a card.
    Written,
    /// It is written, and ends past the longest deck.
    PastDeckWritten,
    /// The same with a live card that stays.
    PastDeckCopied,
    /// The same with a withdrawn one.
    PastDeckWithdrawn,
}

/// What is due.
pub enum Due {
    /// A deck.
    Converted(Vec<u8>),
    /// A card is named: the place of its entry, why, and where it would have ended.
    Named(usize, Reason, usize),
    /// The deck as a whole is malformed.
    Malformed,
    /// Something was damaged later.
    Unknown,
}

/// A deck to be converted.
pub struct OldDeck {
    /// What it is meant to try.
    pub kind: Kind,
    /// Its bytes.
    pub bytes: Vec<u8>,
    /// Its cards and their numbers; as they were settled, where it was damaged later.
    pub cards: Vec<(u16, Body)>,
    /// What is due.
    pub due: Due,
}

/// The written form of a card that has no decimals.
fn written(card: &[u8]) -> Option<Vec<u8>> {
    let Err(Refusal {
        number: 10,
        place: length,
    }) = baseline::write(card, &mut [])
    else {
        return None;
    };
    let mut text = vec![0; length];
    baseline::write(card, &mut text).ok().map(|_| text)
}

/// What decks are made from.
struct Pool {
    /// Live cards with decimals.
    decimals: Vec<Body>,
    /// One of them that grows.
    grows: Option<Body>,
    /// Live cards without.
    copied: Vec<Body>,
    /// Live cards that the old rule refuses.
    refused: Vec<Body>,
}

impl Pool {
    /// Small cards, whole and damaged, and those of an input.
    fn new(input: &Input, random: &mut Random) -> Pool {
        let plain = b"nondeterministic module process1 s1:[0..0]init 0;[]s1=0->1:(s1'=0);endmodule";
        let mut pool = Pool {
            decimals: Vec::new(),
            grows: None,
            copied: vec![Body::live(plain.to_vec(), Fate::Copied)],
            refused: Vec::new(),
        };
        pool.put(Vec::new());
        let small = card(Size::small(random), random);
        pool.put_twins(&small, random);
        let given = input.model.as_ref().or(input.without_decimals.as_ref());
        if let Some(model) = given.filter(|_| input.card.len() <= 2_000 || random.once_in(8)) {
            pool.put_twins(model, random);
        }
        if input.card.len() <= CARD_TAKEN_OVER {
            pool.put(input.card.clone());
        }
        pool
    }

    /// Both spellings of a card, and the old one damaged.
    fn put_twins(&mut self, model: &Model, random: &mut Random) {
        let Twins { old, new } = Twins::new(model, random);
        let laid_out = |model: &Model, random: &mut Random| {
            let layout = Layout::any(random);
            lay_out(&model.marks(), layout, random)
        };
        let spelled = [&old, &new].map(|model| lay_out(&model.marks(), Layout::Tight, random));
        let [tight, fractions] = spelled;
        // In either spelling it may be longer than a card may be.
        let Some(written) = written(&fractions).filter(|_| tight.len() <= CARD_BYTES) else {
            return;
        };
        let decimals = laid_out(&old, random);
        let mut damaged = decimals.clone();
        damage_bytes(&mut damaged, random);
        let cut = decimals[..random.below(decimals.len())].to_vec();
        if decimals.len() <= CARD_BYTES {
            let fate = Fate::Written(written.clone());
            self.decimals.push(Body::live(decimals, fate));
        }
        let mut as_long = tight.clone();
        as_long.resize(written.len().clamp(tight.len(), CARD_BYTES), b' ');
        for bytes in [tight, as_long] {
            let body = Body::live(bytes, Fate::Written(written.clone()));
            self.grows = self.grows.take().or(Some(body.clone()));
            self.decimals.push(body);
        }
        for bytes in [damaged, cut, laid_out(&new, random)] {
            self.put(bytes);
        }
    }

    /// A card of which it is not known what is written for it: it is put where it belongs, if it has no decimals or is refused.
    fn put(&mut self, bytes: Vec<u8>) {
        match (baseline::judge(&bytes), baseline::judge_old(&bytes)) {
            (Ok(_), _) => self.copied.push(Body::live(bytes, Fate::Copied)),
            (Err(_), Ok(_)) => {}
            (Err(_), Err(refusal)) => {
                let fate = Fate::Refused(refusal.number);
                self.refused.push(Body::live(bytes, fate));
            }
        }
    }

    /// A card that can be converted.
    fn any(&self, random: &mut Random) -> Body {
        let pick = |bodies: &[Body], random: &mut Random| match bodies {
            [] => Body::withdrawn(Vec::new()),
            bodies => bodies[random.below(bodies.len())].clone(),
        };
        let withdrawn = |body: Body| Body::withdrawn(body.bytes);
        match random.below(16) {
            0..=6 => pick(&self.decimals, random),
            7..=10 => pick(&self.copied, random),
            11 => withdrawn(pick(&self.decimals, random)),
            12 => withdrawn(pick(&self.copied, random)),
            13 => withdrawn(pick(&self.refused, random)),
            14 => Body::withdrawn((0..random.below(9)).map(|_| any_byte(random)).collect()),
            _ => Body::withdrawn(Vec::new()),
        }
    }

    /// A live card that the old rule refuses, with decimals and with any number.
    fn any_refused(&self, random: &mut Random) -> Body {
        if random.once_in(3) {
            return self.refused[random.below(self.refused.len())].clone();
        }
        let due = random.between(1, 7) as u8;
        for _ in 0..20 {
            let bytes = damaged_for(due, random);
            if let Err(refusal) = baseline::judge_old(&bytes) {
                if refusal.number == due {
                    return Body::live(bytes, Fate::Refused(due));
                }
            }
        }
        self.refused[0].clone()
    }
}

/// A card with decimals that is damaged in a way that mostly gets this refusal.
fn damaged_for(number: u8, random: &mut Random) -> Vec<u8> {
    let model = model_for(number, random);
    let marks = Twins::new(&model, random).old.marks();
    damaged_marks(number, marks, random)
}

/// A card that can be damaged so, or that passes a limit.
pub(crate) fn model_for(number: u8, random: &mut Random) -> Model {
    match number {
        4 => card_at(random.pick(&Limit::ALL), 1, random),
        _ => card(Size::small(random), random),
    }
}

/// Its marks, damaged and laid out.
pub(crate) fn damaged_marks(number: u8, mut marks: Vec<Mark>, random: &mut Random) -> Vec<u8> {
    let damage = match number {
        2 => {
            let place = random.below(marks.len());
            marks.insert(
                place,
                Mark::new(random.pick(&[&b"<"[..], b"007", b"_", b"0.1234567"])),
            );
            None
        }
        3 => Some(random.pick(&[
            MarkDamage::Deleted,
            MarkDamage::Doubled,
            MarkDamage::Swapped,
        ])),
        5 => Some(MarkDamage::State),
        6 => Some(random.pick(&[MarkDamage::Word, MarkDamage::Literal, MarkDamage::Sign])),
        7 => Some(MarkDamage::Weight),
        _ => None,
    };
    if let Some(damage) = damage {
        damage.inflict(&mut marks, random);
    }
    let mut bytes = lay_out(&marks, Layout::any(random), random);
    if number == 1 {
        bytes.resize(CARD_BYTES + random.pick(&[1, 1, 1, 2, 300]), b' ');
    }
    bytes
}

/// A card with decimals for which just so many bytes are written, nearly as many as a card may have or more; the card itself is shorter.
pub fn long_card(bytes: usize, random: &mut Random) -> Body {
    let mut model = long_model(bytes, random);
    let tight = lay_out(&model.marks(), Layout::Tight, random);
    let text = written(&tight).expect("it has no decimals");
    assert_eq!(text.len(), bytes);
    let last = model.statements.len() - 1;
    for (place, statement) in model.statements.iter_mut().enumerate() {
        for branch in &mut statement.branches {
            if place == last || random.once_in(2) {
                let mark = decimal(branch.units, random).expect("all could be decimals");
                branch.weight = vec![mark];
            }
        }
    }
    let tight = lay_out(&model.marks(), Layout::Tight, random);
    Body::live(tight, Fate::Written(text))
}

/// The same card, all of whose weights could be decimals and none is.
fn long_model(bytes: usize, random: &mut Random) -> Model {
    let size = Size {
        seats: random.between(8, 10),
        top: 3,
        shared: random.once_in(3).then_some(1),
        statements: 1,
        branches: 2,
        nodes: 1,
    };
    let mut model = card(size, random);
    model.statements = (0..random.between(28, STATEMENTS))
        .map(|_| {
            let mut branches = branches(2, size.top, size.shared, random);
            for (branch, (units, weight)) in branches.iter_mut().zip(hundredths(2, random)) {
                (branch.units, branch.weight) = (units, weight);
            }
            Statement {
                own: random.between(0, size.top),
                guard: Vec::new(),
                branches,
            }
        })
        .collect();
    // As many groups, one for each statement by turns, as there is room for.
    let seed = random.next();
    let with_groups = |count: usize| {
        let (mut model, mut random) = (model.clone(), Random::new(seed, 0));
        let statements = model.statements.len();
        for place in 0..count {
            let Statement { own, guard, .. } = &mut model.statements[place % statements];
            let mut guards = Guards {
                size,
                leaves: Leaves::Guard { own: *own },
                random: &mut random,
            };
            guard.push(guards.group(1, *own));
        }
        model
    };
    // Nothing is written for a card that is too long itself.
    let length = |model: &Model| {
        let tight = lay_out(&model.marks(), Layout::Tight, &mut Random::new(0, 0));
        written(&tight).map_or(usize::MAX, |text| text.len())
    };
    let (mut fitting, mut above) = (0, STATEMENTS * 9);
    while above - fitting > 1 {
        let middle = (fitting + above) / 2;
        match length(&with_groups(middle)) <= bytes {
            true => fitting = middle,
            false => above = middle,
        }
    }
    let mut model = with_groups(fitting);
    // What is missing, in `!`.
    let missing = bytes - length(&model);
    let mut places = Vec::new();
    for (statement, Statement { guard, .. }) in model.statements.iter().enumerate() {
        let nodes = (NODES - row_nodes(guard)).min(guard.len() * DEPTH);
        places.extend((0..nodes).map(|place| (statement, place % guard.len())));
    }
    random.shuffle(&mut places);
    assert!(places.len() >= missing, "there is no room for `!`");
    for (statement, place) in places.into_iter().take(missing) {
        let unary = &mut model.statements[statement].guard[place];
        let inner = std::mem::replace(unary, Unary::Bracket(Expression(Vec::new())));
        *unary = Unary::Not(Box::new(inner));
    }
    model
}

impl OldDeck {
    /// A deck of any kind, perhaps with an input's card among its own.
    pub fn any(input: &Input, random: &mut Random) -> OldDeck {
        let kind = Kind::any(random);
        OldDeck::new(kind, input, random)
    }

    /// A deck of this kind.
    pub fn new(kind: Kind, input: &Input, random: &mut Random) -> OldDeck {
        let pool = Pool::new(input, random);
        let count = match random.below(12) {
            0 => DECK_CARDS,
            1 => random.between(2, DECK_CARDS),
            2 if kind != Kind::LongDeck => 1,
            _ => random.between(2, 6),
        };
        let mut bodies: Vec<Body> = (0..count).map(|_| pool.any(random)).collect();
        let several = kind == Kind::Several;
        if kind == Kind::Refused || (several || kind == Kind::Field) && random.once_in(2) {
            for _ in 0..random.pick(&[1, 1, 2]) {
                let place = random.below(count);
                bodies[place] = pool.any_refused(random);
            }
        }
        if kind == Kind::LongCard || several && random.once_in(12) {
            let over = random.between(2, 3_000);
            let bytes = CARD_BYTES + random.pick(&[0, 0, 0, 1, 1, 1, over]);
            let place = random.below(count);
            bodies[place] = long_card(bytes, random);
        }
        let contents = 1 + ENTRY_BYTES * count;
        let mut left = FILLED - contents;
        for body in &mut bodies {
            if body.bytes.len() > left {
                *body = Body::withdrawn(Vec::new());
            }
            left -= body.bytes.len();
        }
        if kind == Kind::LongDeck || several && random.once_in(2) {
            fill(&mut bodies, &pool, random);
        }
        let gaps = match kind {
            Kind::Sound => 0,
            Kind::Gaps => 5,
            _ => random.pick(&[0, 0, 5]),
        };
        let (first_number, step) = match random.below(8) {
            // The last number is the highest there is.
            0 => (65_536 - count, 1),
            _ => random.pick(&[(0, 1), (0, 2), (1, 3), (250, 3), (0, 900)]),
        };
        let mut number = first_number;
        let mut cards = Vec::new();
        for body in bodies {
            number += random.below(step);
            cards.push((number as u16, body));
            number += 1;
        }
        OldDeck::of_cards(kind, cards, gaps, random)
    }

    /// The deck of some cards, with gaps of at most so many bytes, as far as there is room for them.
    fn of_cards(kind: Kind, cards: Vec<(u16, Body)>, gaps: usize, random: &mut Random) -> OldDeck {
        let contents = 1 + ENTRY_BYTES * cards.len();
        let bodies: usize = cards.iter().map(|(_, body)| body.bytes.len()).sum();
        let mut left = DECK_BYTES - contents - bodies;
        let mut gap = |random: &mut Random| {
            let bytes = random.below(gaps + 1).min(left);
            left -= bytes;
            (0..bytes).map(|_| any_byte(random)).collect::<Vec<u8>>()
        };
        let (mut entries, mut behind) = (Vec::new(), Vec::new());
        for (number, body) in &cards {
            behind.extend(gap(random));
            entries.push(Entry {
                number: *number,
                offset: (contents + behind.len()) as u16,
                length: body.bytes.len() as u16,
                flag: u8::from(body.live),
                zero: 0,
            });
            behind.extend(&body.bytes);
        }
        behind.extend(gap(random));
        let due = due(&cards);
        let length = contents + behind.len();
        if kind == Kind::Field {
            for _ in 0..random.pick(&[1, 1, 1, 2, 3]) {
                damage(&mut entries, random.pick(&Wrong::FIELDS), length, random);
            }
        }
        let mut bytes = vec![cards.len() as u8];
        entries.iter().for_each(|entry| entry.put(&mut bytes));
        bytes.extend(behind);
        let mut deck = OldDeck {
            kind,
            bytes,
            cards,
            due,
        };
        deck.as_a_whole(contents, random);
        deck
    }

    /// What is wrong with the deck as a whole, or anywhere.
    fn as_a_whole(&mut self, contents: usize, random: &mut Random) {
        let bytes = &mut self.bytes;
        match self.kind {
            Kind::Field => self.due = Due::Unknown,
            Kind::Whole => {
                match random.below(5) {
                    0 => bytes[0] = 0,
                    1 => bytes[0] = random.pick(&[65, 65, 66, 128, 255]),
                    2 => bytes.truncate(contents - 1),
                    3 => bytes.truncate(random.below(contents)),
                    _ => {
                        let over = random.pick(&[1, 1, 1, 2, 9_000]);
                        bytes.resize(DECK_BYTES + over, random.next() as u8);
                    }
                }
                self.due = Due::Malformed;
            }
            Kind::Bytes => {
                for _ in 0..random.pick(&[1, 1, 2, 4]) {
                    let place = match random.once_in(3) {
                        true => random.between(1, contents - 1),
                        false => random.below(bytes.len()),
                    };
                    bytes[place] = any_byte(random);
                }
                if random.once_in(8) {
                    bytes.truncate(random.below(bytes.len() + 1));
                }
                self.due = Due::Unknown;
            }
            _ => {}
        }
    }
}

/// Puts a withdrawn card in place of one, so long that the new deck is as long as one may be, or a little longer, and the old one is not too long.
fn fill(bodies: &mut [Body], pool: &Pool, random: &mut Random) {
    let count = bodies.len();
    let place = random.below(count);
    if let (Some(grows), true) = (&pool.grows, count > 1) {
        let other = (place + 1 + random.below(count - 1)) % count;
        if grows.bytes.len() < 4_000 {
            bodies[other] = grows.clone();
        }
    }
    bodies[place] = Body::withdrawn(Vec::new());
    let new = |body: &Body| body.new_bytes().unwrap_or(&body.bytes).len();
    let old: usize = bodies.iter().map(|body| body.bytes.len()).sum();
    let new: usize = bodies.iter().map(new).sum();
    let grown = new as isize - old as isize;
    let over = random.pick(&[0, 0, 1, 1, 2, grown]).min(grown);
    let length = DECK_BYTES as isize + over - (1 + ENTRY_BYTES * count + new) as isize;
    let filling = random.next() as u8;
    bodies[place] = Body::withdrawn(vec![filling; length.max(0) as usize]);
}

/// What is due for some cards.
fn due(cards: &[(u16, Body)]) -> Due {
    let mut contents = vec![cards.len() as u8];
    let mut bodies = Vec::new();
    let contents_end = 1 + ENTRY_BYTES * cards.len();
    for (place, (number, body)) in cards.iter().enumerate() {
        let offset = contents_end + bodies.len();
        let Some(new) = body.new_bytes() else {
            let (reason, length) = match &body.fate {
                Fate::Refused(number) => (Reason::Refused(*number), body.bytes.len()),
                Fate::Written(written) => (Reason::Written, written.len()),
                Fate::Copied => unreachable!("it stays"),
            };
            return Due::Named(place, reason, offset + length);
        };
        let end = offset + new.len();
        if end > DECK_BYTES {
            let reason = match (body.live, &body.fate) {
                (false, _) => Reason::PastDeckWithdrawn,
                (true, Fate::Copied) => Reason::PastDeckCopied,
                (true, _) => Reason::PastDeckWritten,
            };
            return Due::Named(place, reason, end);
        }
        let entry = Entry {
            number: *number,
            offset: offset as u16,
            length: new.len() as u16,
            flag: u8::from(body.live),
            zero: 0,
        };
        entry.put(&mut contents);
        bodies.extend(new);
    }
    Due::Converted([contents, bodies].concat())
}
