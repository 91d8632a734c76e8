//! Decks, asked of both sides.

use std::fmt;

use baseline::{Part, Refusal};

use crate::check::{Checker, Fault};
use crate::decks::{Deck, Entry, Numbering, Parts, Wrong, WrongParts, DECK_BYTES, ENTRY_BYTES};
use crate::random::Random;
use crate::surrounded::Surrounded;

/// Where an expansion's places start.
const IN_EXPANSION: usize = 65_536;

/// Cards found in the base, and in the expansion.
const FOUND: u64 = 1_000;
/// Cards found in the base though the expansion has them withdrawn.
const PAST_EXPANSION: u64 = 300;
/// Lookups of cards that are not live.
const NOT_LIVE: u64 = 1_000;
/// Malformed decks of each kind of place, as base and as expansion.
const EACH_PLACE: u64 = 100;
/// Decks that are as long as one may be, and one byte longer.
const EACH_LENGTH: u64 = 200;
/// Decks written, and refused to be written for each reason.
const EACH_WRITTEN: u64 = 400;

/// The places of an 11.
pub(crate) const PLACES: [&str; 6] = ["whole", "number", "offset", "length", "flag", "zero byte"];

/// Which of [`PLACES`] a place is.
pub(crate) fn place_kind(place: usize) -> usize {
    match place.checked_sub(1).map(|place| place % ENTRY_BYTES) {
        None => 0,
        Some(0) => 1,
        Some(2) => 2,
        Some(4) => 3,
        Some(6) => 4,
        Some(7) => 5,
        Some(other) => panic!("no field starts at {other}"),
    }
}

/// What a run has tried of decks.
#[derive(Default)]
pub struct DeckTally {
    /// In the base, in the expansion, and in the base though withdrawn in the expansion.
    found: [u64; 3],
    not_live: u64,
    /// In the base, in the expansion.
    malformed: [[u64; PLACES.len()]; 2],
    /// The longest, and longer ones.
    lengths: [u64; 2],
    /// By what is wrong; the first are written.
    written: [u64; WrongParts::ALL.len()],
    rooms_short: u64,
}

impl DeckTally {
    /// Adds what another has tried.
    pub fn add(&mut self, other: &DeckTally) {
        let pairs = [
            (&mut self.found[..], &other.found[..]),
            (
                self.malformed.as_flattened_mut(),
                other.malformed.as_flattened(),
            ),
            (&mut self.lengths, &other.lengths),
            (&mut self.written, &other.written),
        ];
        for (mine, others) in pairs {
            for (mine, other) in mine.iter_mut().zip(others) {
                *mine += other;
            }
        }
        self.not_live += other.not_live;
        self.rooms_short += other.rooms_short;
    }

    /// What was tried too seldom, by a function that is told what, how often, and how often at least.
    pub fn shortfalls(&self, least: &mut impl FnMut(&str, u64, u64)) {
        let [base, expansion, past] = self.found;
        least("found in the base", base, FOUND);
        least("found in the expansion", expansion, FOUND);
        least("found past the expansion", past, PAST_EXPANSION);
        least("cards that are not live", self.not_live, NOT_LIVE);
        for (deck, places) in ["base", "expansion"].iter().zip(&self.malformed) {
            for (place, count) in PLACES.iter().zip(places) {
                least(&format!("11 in the {deck}, {place}"), *count, EACH_PLACE);
            }
        }
        for (length, count) in ["longest", "longer"].iter().zip(self.lengths) {
            least(&format!("{length} decks"), count, EACH_LENGTH);
        }
        for (wrong, count) in WrongParts::ALL.iter().zip(self.written) {
            least(&format!("deck writer, {wrong:?}"), count, EACH_WRITTEN);
        }
        least("deck writer, 10", self.rooms_short, EACH_WRITTEN);
    }
}

impl fmt::Display for DeckTally {
    fn fmt(&self, f: &mut fmt::Formatter<'_>) -> fmt::Result {
        let [base, expansion, past] = self.found;
        writeln!(
            f,
            "decks       found in the base {base} (past the expansion {past}), in the expansion {expansion}; not live (12) {}",
            self.not_live
        )?;
        for (deck, places) in ["base", "expansion"].iter().zip(&self.malformed) {
            write!(f, "11 in the {deck:<10}")?;
            let mut places = PLACES.iter().zip(places);
            places.try_for_each(|(place, count)| write!(f, " {place} {count}"))?;
            writeln!(f)?;
        }
        let [longest, longer] = self.lengths;
        writeln!(f, "decks of {DECK_BYTES} bytes {longest}, longer {longer}")?;
        write!(f, "deck writer by what is wrong")?;
        let mut written = WrongParts::ALL.iter().zip(self.written);
        written.try_for_each(|(wrong, count)| write!(f, " {wrong:?} {count}"))?;
        write!(f, "; rooms too short (10) {}", self.rooms_short)
    }
}

fn same<T: PartialEq + fmt::Debug>(what: &str, answer: T, due: T) -> Result<(), Fault> {
    if answer == due {
        return Ok(());
    }
    Err(format!(
        "{what}: the library says {answer:?}, and due is {due:?}"
    ))
}

fn numbers<T>(answer: Result<T, open_panel::Refusal>) -> Result<T, Refusal> {
    answer.map_err(|refusal| Refusal::new(refusal.number(), refusal.place()))
}

fn parts(answer: Result<open_panel::Part, open_panel::Refusal>) -> Result<Part, Refusal> {
    numbers(answer).map(|part| Part {
        in_expansion: part.in_expansion,
        offset: part.offset,
        length: part.length,
    })
}

/// Looks for a card in two decks.
pub fn check_lookup(random: &mut Random, tally: &mut DeckTally) -> Result<(), Fault> {
    let numbering = Numbering::any(random);
    // Mostly the base is sound, so that the expansion counts.
    let base = match random.once_in(3) {
        true => Deck::any(numbering, random),
        false => Deck::new(Wrong::Nothing, numbering, random),
    };
    let expansion = Deck::any(numbering, random);
    let number = random.pick(&[&base, &expansion, &expansion]);
    let number = number.any_number(random);
    let lent = [&base, &expansion].map(|deck| Surrounded::new(&deck.bytes, random));
    let decks = lent.each_ref().map(Surrounded::inner);
    let what = |entry: &str| {
        let wrong = (base.wrong, expansion.wrong);
        format!(
            "{entry} {number} ({wrong:?}, {:?} bytes)",
            decks.map(<[u8]>::len)
        )
    };

    for deck in decks {
        let due = baseline::judge_deck(deck);
        same(
            &what("judge_deck"),
            numbers(open_panel::judge_deck(deck)),
            due,
        )?;
        let due = baseline::locate(deck, number);
        same(
            &what("locate"),
            parts(open_panel::locate(deck, number)),
            due,
        )?;
        let found = numbers(open_panel::find(deck, number));
        same(&what("find"), found, baseline::find(deck, number))?;
        match deck.len() {
            DECK_BYTES => tally.lengths[0] += 1,
            length => tally.lengths[1] += u64::from(length > DECK_BYTES),
        }
    }
    let due = baseline::locate_with(decks[0], decks[1], number);
    let located = parts(open_panel::locate_with(decks[0], decks[1], number));
    same(&what("locate_with"), located, due)?;
    let found = numbers(open_panel::find_with(decks[0], decks[1], number));
    same(
        &what("find_with"),
        found,
        baseline::find_with(decks[0], decks[1], number),
    )?;
    if base.wrong == Wrong::Nothing && expansion.wrong == Wrong::Nothing {
        let part = |in_expansion| {
            move |entry: &Entry| Part {
                in_expansion,
                offset: entry.offset.into(),
                length: entry.length.into(),
            }
        };
        let in_base = || base.live(number).map(part(false));
        let meant = expansion.live(number).map(part(true)).or_else(in_base);
        same(
            &what("as the decks were made"),
            due,
            meant.ok_or(Refusal::new(12, 0)),
        )?;
    }
    lent[0].unwritten("the base", &base.bytes)?;
    lent[1].unwritten("the expansion", &expansion.bytes)?;
    match due {
        Ok(part) => {
            let withdrawn = expansion.entries.iter().any(|entry| entry.number == number);
            tally.found[usize::from(part.in_expansion)] += 1;
            tally.found[2] += u64::from(!part.in_expansion && withdrawn);
        }
        Err(refusal) if refusal.number == 12 => tally.not_live += 1,
        Err(Refusal { place, .. }) => {
            let deck = usize::from(place >= IN_EXPANSION);
            tally.malformed[deck][place_kind(place - deck * IN_EXPANSION)] += 1;
        }
    }
    Ok(())
}

impl Checker {
    /// Writes a deck.
    pub fn check_deck_writer(
        &mut self,
        random: &mut Random,
        tally: &mut DeckTally,
    ) -> Result<(), Fault> {
        let made = Parts::any(random);
        let lent = [&made.contents, &made.bodies].map(|bytes| Surrounded::new(bytes, random));
        let [contents, bodies] = lent.each_ref().map(Surrounded::inner);
        let mut deck = vec![0; DECK_BYTES];
        let due = baseline::write_deck(contents, bodies, &mut deck).map(|length| &deck[..length]);
        if let Err(Refusal { number: 10, .. }) = due {
            return Err("a room that is always enough was too small".to_owned());
        }
        if (made.wrong == WrongParts::Nothing) && due != Ok(&made.deck()[..]) {
            return Err(format!(
                "a deck made to be written: {:?}",
                due.map(<[u8]>::len)
            ));
        }
        let what = format!("write_deck ({:?})", made.wrong);
        let rooms = match due {
            Ok(deck) => {
                tally.rooms_short += 1;
                let short = match random.once_in(4) {
                    true => random.below(deck.len()),
                    false => deck.len() - 1,
                };
                [short, deck.len() + random.pick(&[0, 0, 1, 200])]
            }
            Err(_) => [random.below(700), 0],
        };
        for room in rooms {
            self.rooms.probe(&what, due, room, |room| {
                open_panel::write_deck(contents, bodies, room)
            })?;
        }
        lent[0].unwritten("the contents", &made.contents)?;
        lent[1].unwritten("the bodies", &made.bodies)?;
        let place = WrongParts::ALL
            .iter()
            .position(|wrong| *wrong == made.wrong);
        let as_made = (made.wrong == WrongParts::Nothing) == due.is_ok();
        tally.written[place.expect("all are there")] += u64::from(as_made);

        // What was written is a deck in which each live card is found.
        if let (Ok(deck), WrongParts::Nothing) = (due, made.wrong) {
            same("the written deck", open_panel::judge_deck(deck), Ok(()))?;
            let mut from = 0;
            for entry in &made.entries {
                let body = &bodies[from..from + usize::from(entry.length)];
                from += body.len();
                let due = match entry.flag {
                    1 => Ok(body),
                    _ => Err(Refusal::new(12, 0)),
                };
                let found = numbers(open_panel::find(deck, entry.number));
                same("a card of the written deck", found, due)?;
            }
        }
        Ok(())
    }
}
