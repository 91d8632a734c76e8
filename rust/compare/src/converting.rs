//! Old decks, converted by both sides.

use std::fmt;

use baseline::Refusal;

use crate::cards::limits::CARD_BYTES;
use crate::check::{Checker, Fault};
use crate::deck_check::{place_kind, PLACES};
use crate::decks::{DECK_BYTES, DECK_CARDS, ENTRY_BYTES};
use crate::inputs::Input;
use crate::old_decks::{Body, Due, Fate, Kind, OldDeck, Reason};
use crate::random::Random;
use crate::surrounded::Surrounded;
use crate::tally::Tally;

/// Decks of each kind that are converted, in which a card is named, and that are malformed.
const EACH_KIND: u64 = 300;
/// Cards that are written, for each way in which their length changes, and that are copied, for each reason.
const EACH_BODY: u64 = 2_000;
/// Cards that are written and have a shared number.
const SHARED: u64 = 2_000;
/// Cards named for each reason.
const EACH_REASON: u64 = 150;
/// Decks in which another card behind the named one would be named too, and malformed ones with a card that would be.
const EACH_FIRST: u64 = 100;
/// Malformed decks for each kind of place.
const EACH_PLACE: u64 = 100;
/// Decks at each edge.
const EACH_EDGE: u64 = 50;
/// Rooms of each kind.
const EACH_ROOM: u64 = 5_000;
/// Decks for each law.
const EACH_LAW: u64 = 5_000;

const ENDS: [&str; 3] = ["converted", "named", "malformed"];
const BODIES: [&str; 9] = [
    "longer",
    "as long",
    "shorter",
    "copied",
    "withdrawn",
    "withdrawn decimals",
    "withdrawn no card",
    "empty",
    "shared",
];
const REASONS: [&str; 11] = [
    "refused 1",
    "refused 2",
    "refused 3",
    "refused 4",
    "refused 5",
    "refused 6",
    "refused 7",
    "written too long",
    "past the deck, written",
    "past the deck, copied",
    "past the deck, withdrawn",
];
const FIRSTS: [&str; 2] = ["another behind", "11 before"];
const EDGES: [&str; 8] = [
    "64 cards",
    "65,535 bytes",
    "65,536 bytes",
    "16,384 written",
    "16,385 written",
    "card 0 named",
    "card 65,535 named",
    "no live card",
];
const ROOMS: [&str; 6] = ["short", "none", "exact", "larger", "named", "malformed"];
const LAWS: [&str; 5] = [
    "as made",
    "converted twice",
    "mended after",
    "mended before",
    "cards the same",
];

/// What a run has tried of converting.
#[derive(Default)]
pub struct ConvertTally {
    /// By kind and end.
    kinds: [[u64; ENDS.len()]; Kind::SHARES.len()],
    bodies: [u64; BODIES.len()],
    reasons: [u64; REASONS.len()],
    firsts: [u64; FIRSTS.len()],
    places: [u64; PLACES.len()],
    edges: [u64; EDGES.len()],
    rooms: [u64; ROOMS.len()],
    laws: [u64; LAWS.len()],
}

impl ConvertTally {
    /// Adds what another has tried.
    pub fn add(&mut self, other: &ConvertTally) {
        let pairs = [
            (self.kinds.as_flattened_mut(), other.kinds.as_flattened()),
            (&mut self.bodies[..], &other.bodies[..]),
            (&mut self.reasons, &other.reasons),
            (&mut self.firsts, &other.firsts),
            (&mut self.places, &other.places),
            (&mut self.edges, &other.edges),
            (&mut self.rooms, &other.rooms),
            (&mut self.laws, &other.laws),
        ];
        for (mine, others) in pairs {
            for (mine, other) in mine.iter_mut().zip(others) {
                *mine += other;
            }
        }
    }

    /// What was tried too seldom, by a function that is told what, how often, and how often at least.
    pub fn shortfalls(&self, least: &mut impl FnMut(&str, u64, u64)) {
        for ((kind, _), ends) in Kind::SHARES.iter().zip(self.kinds) {
            let due = match kind {
                Kind::Sound | Kind::Gaps => [EACH_KIND, 0, 0],
                Kind::Refused => [0, EACH_KIND, 0],
                Kind::LongCard | Kind::LongDeck | Kind::Several => [EACH_KIND, EACH_KIND, 0],
                Kind::Field | Kind::Whole => [0, 0, EACH_KIND],
                Kind::Bytes => [EACH_KIND / 2, EACH_KIND, EACH_KIND],
            };
            for ((end, count), due) in ENDS.iter().zip(ends).zip(due) {
                least(&format!("converting, {kind:?}, {end}"), count, due);
            }
        }
        let mut all = |what: &str, names: &[&str], counts: &[u64], due: u64| {
            for (name, count) in names.iter().zip(counts) {
                least(&format!("{what}, {name}"), *count, due);
            }
        };
        all("cards converted", &BODIES[..8], &self.bodies, EACH_BODY);
        all("cards converted", &BODIES[8..], &self.bodies[8..], SHARED);
        all("cards named", &REASONS, &self.reasons, EACH_REASON);
        all("cards named first", &FIRSTS, &self.firsts, EACH_FIRST);
        all("11 from converting", &PLACES, &self.places, EACH_PLACE);
        all("decks converted", &EDGES, &self.edges, EACH_EDGE);
        all("rooms of converting", &ROOMS, &self.rooms, EACH_ROOM);
        all("converting", &LAWS, &self.laws, EACH_LAW);
    }

    fn law(&mut self, law: &str) {
        let place = LAWS.iter().position(|other| *other == law);
        self.laws[place.expect("all are there")] += 1;
    }

    fn edge(&mut self, edge: &str, came: bool) {
        let place = EDGES.iter().position(|other| *other == edge);
        self.edges[place.expect("all are there")] += u64::from(came);
    }

    /// What became of a card in a new deck.
    fn body(&mut self, body: &Body) {
        let of_withdrawn = |card: &[u8]| match (card.is_empty(), baseline::judge_old(card)) {
            (true, _) => 7,
            (false, Err(_)) => 6,
            (false, Ok(_)) if baseline::judge(card).is_err() => 5,
            (false, Ok(_)) => 4,
        };
        let place = match (body.live, &body.fate) {
            (false, _) => of_withdrawn(&body.bytes),
            (true, Fate::Written(written)) => {
                let shared = written.starts_with(b"global")
                    || written.windows(7).any(|word| word == b"\nglobal");
                self.bodies[8] += u64::from(shared);
                self.edge("16,384 written", written.len() == CARD_BYTES);
                match written.len().cmp(&body.bytes.len()) {
                    std::cmp::Ordering::Greater => 0,
                    std::cmp::Ordering::Equal => 1,
                    std::cmp::Ordering::Less => 2,
                }
            }
            (true, _) => 3,
        };
        self.bodies[place] += 1;
    }

    /// The card that is named in a deck that was not damaged later.
    fn named(&mut self, made: &OldDeck, place: usize, reason: Reason, end: usize) {
        let which = match reason {
            Reason::Refused(number) => usize::from(number) - 1,
            Reason::Written => 7,
            Reason::PastDeckWritten => 8,
            Reason::PastDeckCopied => 9,
            Reason::PastDeckWithdrawn => 10,
        };
        self.reasons[which] += 1;
        let (number, named) = &made.cards[place];
        self.edge("card 0 named", *number == 0);
        self.edge("card 65,535 named", *number == u16::MAX);
        self.edge("65,536 bytes", which > 7 && end == DECK_BYTES + 1);
        if let Fate::Written(written) = &named.fate {
            self.edge("16,385 written", written.len() == CARD_BYTES + 1);
        }
        let mut behind = made.cards[place + 1..].iter();
        let another = behind.any(|(_, body)| body.new_bytes().is_none());
        self.firsts[0] += u64::from(another);
    }
}

impl fmt::Display for ConvertTally {
    fn fmt(&self, f: &mut fmt::Formatter<'_>) -> fmt::Result {
        write!(f, "decks converted/with a card named/malformed")?;
        let mut kinds = Kind::SHARES.iter().zip(self.kinds);
        kinds.try_for_each(|((kind, _), [converted, named, malformed])| {
            write!(f, " {kind:?} {converted}/{named}/{malformed}")
        })?;
        let mut all = |what: &str, names: &[&str], counts: &[u64]| {
            write!(f, "{what}")?;
            let mut counts = names.iter().zip(counts);
            counts.try_for_each(|(name, count)| write!(f, " {name} {count}"))
        };
        all("\ncards converted", &BODIES, &self.bodies)?;
        all("\ncards named (18)", &REASONS, &self.reasons)?;
        all("; first", &FIRSTS, &self.firsts)?;
        all("\n11 from converting", &PLACES, &self.places)?;
        all("; decks", &EDGES, &self.edges)?;
        all("\nconverting  rooms", &ROOMS, &self.rooms)?;
        all("; laws", &LAWS, &self.laws)
    }
}

/// A converted deck, by the library.
fn converted(deck: &[u8]) -> Result<Vec<u8>, Fault> {
    let answer = open_panel::convert_to_vec(deck);
    answer.map_err(|refusal| format!("a converted deck is not converted again: {refusal}"))
}

/// The entries of a deck: number, flag and body.
pub(crate) fn entries(deck: &[u8]) -> impl Iterator<Item = (u16, u8, &[u8])> {
    let (entries, _) = deck[1..].as_chunks::<ENTRY_BYTES>();
    entries[..usize::from(deck[0])].iter().map(|entry| {
        let [number, offset, length] =
            [0, 2, 4].map(|field| u16::from_le_bytes([entry[field], entry[field + 1]]));
        let offset = usize::from(offset);
        let body = &deck[offset..offset + usize::from(length)];
        (number, entry[6], body)
    })
}

impl Checker {
    /// Converts a deck, which may hold the input's card.
    pub fn check_converting(
        &mut self,
        input: &Input,
        random: &mut Random,
        all: &mut Tally,
    ) -> Result<(), Fault> {
        let tally = &mut all.converting;
        let made = OldDeck::any(input, random);
        let lent = Surrounded::new(&made.bytes, random);
        let deck = lent.inner();
        let what = format!("convert ({:?}, {} bytes)", made.kind, deck.len());
        let wrong = |fault: &str| format!("{what}: {fault}");

        let answer = baseline::convert(deck);
        let due = answer.as_deref().map_err(|refusal| *refusal);
        let as_made = match &made.due {
            Due::Converted(new) => due == Ok(&new[..]),
            Due::Named(place, ..) => due == Err(Refusal::new(18, made.cards[*place].0.into())),
            Due::Malformed => due == Err(Refusal::new(11, 0)),
            Due::Unknown => true,
        };
        if !as_made {
            return Err(wrong("the baseline does not convert it as it was made"));
        }
        match made.due {
            Due::Converted(_) => made.cards.iter().for_each(|(_, body)| tally.body(body)),
            Due::Named(place, reason, end) => tally.named(&made, place, reason, end),
            Due::Malformed | Due::Unknown => {}
        }
        if !matches!(made.due, Due::Unknown) {
            tally.law("as made");
        }
        // A deck is judged before its cards, as it is judged by itself.
        let judged = open_panel::judge_deck(deck);
        let judged = judged.map_err(|refusal| Refusal::new(refusal.number(), refusal.place()));
        let end = match (judged, due) {
            (Ok(()), Ok(_)) => 0,
            (Ok(()), Err(Refusal { number: 18, .. })) => 1,
            (Err(judged), Err(due)) if judged == due => {
                let would = |(_, body): &(u16, Body)| body.new_bytes().is_none();
                tally.firsts[1] += u64::from(made.cards.iter().any(would));
                tally.places[place_kind(due.place)] += 1;
                2
            }
            _ => return Err(wrong("it is judged otherwise than by itself")),
        };
        tally.kinds[made.kind.place()][end] += 1;

        for (kind, room) in rooms(due.map(<[u8]>::len), random) {
            tally.rooms[kind] += 1;
            self.rooms
                .probe(&what, due, room, |room| open_panel::convert(deck, room))?;
        }
        lent.unwritten("the deck", &made.bytes)?;
        let Ok(new) = due else {
            return Ok(());
        };
        tally.edge("64 cards", usize::from(new[0]) == DECK_CARDS);
        tally.edge("65,535 bytes", new.len() == DECK_BYTES);
        tally.edge("no live card", entries(new).all(|(_, flag, _)| flag == 0));

        // What was converted is converted to itself, and nothing of it has to be mended.
        if open_panel::judge_deck(new).is_err() || converted(new)? != new {
            return Err(wrong(
                "the converted deck is none, or is converted to another",
            ));
        }
        tally.law("converted twice");
        let kept = |count: u8| b"kept\n".repeat(count.into());
        if open_panel::mend_to_vecs(new) != Ok((new.to_vec(), kept(new[0]))) {
            return Err(wrong("the converted deck has to be mended"));
        }
        tally.law("mended after");
        // Of the old one just the live cards that are written anew would be dropped.
        if let Ok((_, list)) = open_panel::mend_to_vecs(deck) {
            let lines = list.split_inclusive(|byte| *byte == b'\n');
            let bodies = entries(deck).zip(entries(new));
            for (((_, flag, old), (_, _, new)), line) in bodies.zip(lines) {
                let has_decimals = flag == 1 && baseline::judge(old).is_err();
                let due = match has_decimals {
                    true => &b"dropped 4\n"[..],
                    false => b"kept\n",
                };
                if line != due || !has_decimals && old != new {
                    return Err(wrong("another card is written than has decimals"));
                }
            }
            tally.law("mended before");
        }
        self.same_cards(deck, new).map_err(|fault| wrong(&fault))?;
        tally.law("cards the same");
        Ok(())
    }

    /// Every card keeps its number and its flag; a live one means what it meant, is taken, and has the written form that it had.
    fn same_cards(&mut self, old: &[u8], new: &[u8]) -> Result<(), Fault> {
        if old[0] != new[0] {
            return Err("the number of cards is another".to_owned());
        }
        for (old, new) in entries(old).zip(entries(new)) {
            if (old.0, old.1) != (new.0, new.1) {
                return Err("a card's number or its flag is another".to_owned());
            }
            if old.1 == 0 {
                if old.2 != new.2 {
                    return Err("a withdrawn card is another".to_owned());
                }
                continue;
            }
            let refused = |refusal: Refusal| format!("a live card is refused: {refusal}");
            let meant = baseline::judge_old(old.2).map_err(refused)?;
            if meant != baseline::judge(new.2).map_err(refused)? {
                return Err("a live card means something else".to_owned());
            }
            open_panel::judge(new.2).map_err(|refusal| format!("a new card: {refusal}"))?;
            let length = baseline::write_read(&meant, &mut self.written).map_err(refused)?;
            let written = &self.written[..length];
            self.rooms
                .probe("a new card, written", Ok(written), length, |room| {
                    open_panel::write(new.2, room)
                })?;
        }
        Ok(())
    }
}

/// The rooms to try, each with its place in [`ROOMS`].
fn rooms(due: Result<usize, Refusal>, random: &mut Random) -> Vec<(usize, usize)> {
    let any = random.below(700);
    match due {
        Ok(length) => {
            let short = match random.once_in(4) {
                true => random.below(length),
                false => length - 1,
            };
            let larger = length + random.pick(&[1, 1, 200]);
            vec![(0, short), (1, 0), (2, length), (3, larger)]
        }
        Err(refusal) => {
            let kind = if refusal.number == 18 { 4 } else { 5 };
            vec![(kind, any), (kind, 0), (kind, DECK_BYTES)]
        }
    }
}
